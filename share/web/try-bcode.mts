// Uses each type of bcode.d.mts, as a compiler would. tools/library has tsc look at it.
import {AFTER_INC, Code, CodeError, type Label, type Place} from './bcode.mjs';

const code = new Code(2), main = code.function('main', ['a', 'b']), data = code.vector('v', 3);
code.line = 3;
code.column = code.line + 1;
data.constant(-1);
data.external('main');
data.text(new Uint8Array([97]));
const first: number = main.words(2, 'x'), second: number = main.vector(3), label: Label = main.label();
const end: Place = main.jump(), back: number = main.jumpIfZero(main.here), case_: Place = main.jumpIfCase(3, end);
main.increment(AFTER_INC);
main.labelValue(label);
main.variable(first + second + back);
main.call('putchar', 104);
main.put(case_);
try {
  code.take('E\n');
  const texts: string = code.text() + code.lines() + code.names();
  if (texts === '') throw new CodeError();
} catch (error) {
  if (error instanceof CodeError) throw new Error(`line ${error.line ?? 0}`);
}
