// Look at: what other commands tell of one's own program, in the output pane.
import {$, bytesOf, button, element, say, textOf} from './dom.mjs';
import {addFile} from './devices.mjs';
import {findings, runs} from './editing.mjs';
import {isCode} from './files.mjs';
import {programOf} from './programs.mjs';
import {checker, files, output} from './state.mjs';
import {t} from './words.mjs';

const memory = name => t`The memory of ${name}`;
/** The title of each look at a program. */
const TITLES = {
  list: name => t`The code of ${name}`, map: memory, picture: memory, count: name => t`The counts of ${name}`,
  trace: name => t`The steps of ${name}`, compile: name => t`The code text of ${name}`,
  verify: name => t`The operands of ${name}`,
};
const codeName = name => name.replace(/\.b$/, '.code');

/** Shows what a command tells of the program. */
export async function lookAt(what) {
  const {name, words, files: given, input} = programOf(files.program), title = TITLES[what](name);
  await findings.update(files.program);
  if (findings.found.some(it => it.severity === 'error')) return say(t`There is a fault: see below the editor.`, 'bad');
  if (what === 'picture') return showPicture(title, {words: ['map', '--svg', ...words], files: given});
  if (what === 'compile') return showCode(title, name, words, given);
  if (what === 'verify') return verify(title, name, words, given);
  return runs.command(title, {words: [what, ...words], files: given, input: input + (runs.typed ?? '')});
}

/** How a program is compiled: its source is the input. */
function compiling(name, words, given) {
  return {words: ['compile', ...words.filter(it => it !== name)], files: given, input: textOf(given[name])};
}

async function showCode(title, name, words, given) {
  if (isCode(name)) return say(t`${name} is a code text already.`);
  const ended = await runs.command(title, compiling(name, words, given));
  if (ended?.status !== 0) return ended;
  const text = $('out').textContent, own = codeName(name);
  return say(t`This is the code text of ${name}.`, 'good', button(t`Open it as ${own}`, () => addFile(own, text)));
}

/** Looks whether an operand can lack at some place of the code. */
async function verify(title, name, words, given) {
  const own = codeName(name), all = {...given};
  if (!isCode(name)) {
    const {input, ...rest} = compiling(name, words, given), made = await checker.ask(rest.words, {...rest,
      input: bytesOf(input)});
    all[own] = made.output;
  }
  const ended = await runs.command(title, {words: ['verify', own], files: all, input: ''});
  if (ended?.status === 0) say(t`No operand lacks at any place of this code.`, 'good');
  return ended;
}

/** Shows a picture that a command draws. */
export async function showPicture(title, {words, files: given, input = ''}) {
  runs.stop();
  runs.begin(title, '');
  const ended = await checker.ask(words, {files: given, input: bytesOf(input)}), told = ended.told?.split('\n')[0];
  runs.ended(true);
  if (!ended.output?.length) return say(told || ended.failed, 'bad');
  const src = `data:image/svg+xml,${encodeURIComponent(textOf(ended.output))}`;
  output.box.replaceChildren(element('img', {src, alt: title}));
  return say(told ?? '');
}
