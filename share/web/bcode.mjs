// Builds code texts of B's machine, for a compiler of your own that is written in JavaScript.
//
//   import {Code} from './bcode.mjs';
//   const code = new Code(), main = code.function('main');
//   main.call('printn', 6 * 7, 10);
//   main.drop();
//   b.run(code.text()).text              // 42, with the b of b.mjs
//
// `code.line` is the line of your source to which all belongs that is added from then on, and `code.column` its column
// there, in bytes from 1 on; a new line has none until one is set. `code.lines()` has both, as `b trace --made` takes
// them, and `code.names()` the names of the words of frames and of labels that were told. What no code text may have is
// a CodeError at once, and what is still open at the end is one at `text()`.
// docs/CODE.md tells what each instruction does, and docs/AUTHORS.md makes a language, in Python, with the same builder.

const WORDS = 32767, VALUES = 1024, STRINGS = 1024, PARAMETERS = 128, LABELS = 128, INSTRUCTIONS = 4096;
const LIBRARY = ['char', 'lchar', 'getchar', 'putchar', 'printn', 'exit'];
const OPERATORS = ['|', '&', '==', '!=', '<', '<=', '>', '>=', '<<', '>>', '-', '+', '%', '*', '/'];
const END_OF_STRING = 4, LAST = Number.MAX_SAFE_INTEGER;
const NAME = /^[A-Za-z_][A-Za-z0-9_]{0,7}$/, HEAD = /^[FVX] \S+( [0-9]{1,5})+$/;
const NUMBERS = {F: 5, V: 3, X: 2}; // in the first line of a definition

/** The four kinds of `increment`: ++x, --x, x++ and x--. */
export const BEFORE_INC = 0, BEFORE_DEC = 1, AFTER_INC = 2, AFTER_DEC = 3;

/** What no code text can have, or what is missing in one, with the line of your source where that is known. */
export class CodeError extends Error {
  line = null;
}

function fail(text, line = null) {
  throw Object.assign(new CodeError(text), {line});
}

function number(what, given, least, most) {
  if (!Number.isInteger(given) || given < least || given > most) {
    fail(`${what} is ${given}, and has to be from ${least} to ${most}`);
  }
  return given;
}

/** A word, of a number that may be below 0. */
const word = given => (number('a constant', given, -32768, 65535) + 65536) % 65536;

function nameOf(given) {
  if (!NAME.test(given) || /\n/.test(given)) {
    fail(`'${given}' is no name: one has at most eight letters, digits and _, and begins with no digit`);
  }
  return given;
}

/** A name as a file of names has it: what is too long is cut off, and `_` stands for what is no name. */
function shown(given) {
  const cut = String(given).slice(0, 8);
  return NAME.test(cut) && !/\n/.test(cut) ? cut : '_';
}

/** The words of a string, with its end. */
function packed(bytes) {
  if (bytes.includes(END_OF_STRING)) fail('a string ends before a byte 4');
  const all = [...bytes, END_OF_STRING];
  return all.flatMap((low, at) => (at % 2 ? [] : [low + 256 * (all[at + 1] ?? 0)]));
}

/** A place of a function to which instructions lead before it is known, or after: `put` sets it. */
class Place {
  at = null;

  constructor(owner) {
    this.owner = owner;
    this.line = owner.code.line;
  }
}

/** A place whose value a program can keep, and to which `goto` leads. */
class Label extends Place {
  constructor(owner, index) {
    super(owner);
    this.index = index;
  }
}

/** What all definitions have: a name, string words, and lines with the places of the code that they belong to. */
class Definition {
  strings = [];
  kept = new Map();
  lines = [];
  names = [];
  labelNames = [];

  constructor(code, name) {
    this.code = code;
    this.name = nameOf(name);
  }

  fail(text, line = null) {
    fail(`${this.name}: ${text}`, line);
  }

  /** The offset of a string, of bytes or of a text in UTF-8. The same string stands once. */
  string(text) {
    const bytes = typeof text === 'string' ? new TextEncoder().encode(text) : text, key = bytes.join();
    if (!this.kept.has(key)) {
      const words = packed(bytes);
      if (this.strings.length + words.length > STRINGS) this.fail(`its strings have more than ${STRINGS} words`);
      this.kept.set(key, this.strings.length);
      this.strings.push(...words);
    }
    return this.kept.get(key);
  }

  stringLines() {
    return this.strings.map(it => `w ${it}`);
  }
}

/** An external word, or a vector with `words` words, and the values that it has at first. */
class Data extends Definition {
  values = [];

  constructor(code, name, words = null) {
    super(code, name);
    this.words = words === null ? null : number(`the size of ${name}`, words, 1, WORDS);
  }

  add(line) {
    if (this.values.length === VALUES) this.fail(`it has more than ${VALUES} values`);
    if (this.words === this.values.length) this.fail(`it has more values than its ${this.words} words`);
    this.values.push(line);
    this.lines.push(this.code.origin);
  }

  constant(given) {
    this.add(`c ${word(given)}`);
  }

  /** The address of an external. */
  external(name) {
    this.add(`x ${this.code.use(name)}`);
  }

  /** The address of a string. */
  text(text) {
    this.add(`s ${this.string(text)}`);
  }

  written() {
    const head = this.words === null ? `X ${this.name}` : `V ${this.name} ${this.words}`;
    return [`${head} ${this.values.length} ${this.strings.length}`, ...this.values, ...this.stringLines()];
  }
}

/** A function. Each method that is named as an instruction of docs/CODE.md adds it. */
class FunctionDefinition extends Definition {
  instructions = [];
  labels = [];

  constructor(code, name, parameters) {
    super(code, name);
    const count = typeof parameters === 'number' ? parameters : parameters.length;
    this.parameters = this.frame = number(`the parameters of ${name}`, count, 0, PARAMETERS);
    const named = typeof parameters === 'number' ? Array(count).fill('_') : parameters;
    this.names = [`F ${this.name}`, ...named.map(it => `a ${shown(it)}`)];
  }

  /** The place of the next instruction. */
  get here() {
    return this.instructions.length;
  }

  /** So many new words of the frame: the number of the first, which has the name. */
  words(count = 1, name = '_') {
    const first = this.frame;
    this.frame = number(`the frame of ${this.name}`, first + number('words', count, 0, WORDS), 0, WORDS);
    for (let at = 0; at < count; at++) this.names.push(`a ${at ? '_' : shown(name)}`);
    return first;
  }

  /** A new word of the frame for the address of the so many words after it: its number. */
  vector(words, name = '_') {
    const own = this.words(1 + number('the size of a vector', words, 1, WORDS), name);
    this.names.fill('-', -words);
    return own;
  }

  label(name = '_') {
    if (this.labels.length === LABELS) this.fail(`it has more than ${LABELS} labels`);
    this.labels.push(new Label(this, this.labels.length));
    this.labelNames.push(`l ${shown(name)}`);
    return this.labels.at(-1);
  }

  /** Sets a place, which is the next instruction from now on. */
  put(place) {
    if (place.owner !== this) this.fail(`a place of ${place.owner.name} is set`);
    if (place.at !== null) this.fail('a place is set twice');
    place.at = this.here;
  }

  add(...parts) {
    if (this.here === INSTRUCTIONS) this.fail(`it has more than ${INSTRUCTIONS} instructions`);
    this.instructions.push(parts);
    this.lines.push(this.code.origin);
  }

  /** An instruction that leads to a place, to a new one where none is given, which it answers. */
  to(letter, place, ...parts) {
    const target = place ?? new Place(this);
    if (!(target instanceof Place)) number(`a place of ${this.name}`, target, 0, this.here);
    else if (target.owner !== this) this.fail(`an instruction leads to a place of ${target.owner.name}`);
    this.add(letter, ...parts, target);
    return target;
  }

  operator(letter, sign) {
    if (!OPERATORS.includes(sign)) this.fail(`'${sign}' is no operator: ${OPERATORS.join(' ')}`);
    this.add(letter, sign);
  }

  constant(given) { this.add('c', word(given)); }
  external(name) { this.add('x', this.code.use(name)); }
  automatic(index) {
    if (!this.frame) this.fail('its frame has no words');
    this.add('a', number(`a word of the frame of ${this.name}`, index, 0, this.frame - 1));
  }
  text(text) { this.add('s', this.string(text)); }
  labelValue(label) {
    if (!this.labels.includes(label)) this.fail('this label is none of the function');
    this.add('l', label.index);
  }
  load() { this.add('v'); }
  store() { this.add('w'); }
  binary(sign) { this.operator('b', sign); }
  modify(sign) { this.operator('m', sign); }
  negate() { this.add('n'); }
  /** 1 of 0, and 0 of all else. */
  invert() { this.add('h'); }
  increment(kind) { this.add('i', number('the kind of an increment', kind, 0, 3)); }
  jump(place) { return this.to('j', place); }
  jumpIfZero(place) { return this.to('z', place); }
  jumpIfCase(given, place) { return this.to('e', place, word(given)); }
  goto() { this.add('g'); }
  /** A call of the callee that stands below so many arguments. */
  callWith(count) { this.add('k', number('the arguments of a call', count, 0, 65535)); }
  /** Returns the topmost word. */
  give() { this.add('r'); }
  drop() { this.add('p'); }

  /** The word of an external, by its name, or of the frame, by its number. */
  variable(which) {
    if (typeof which === 'string') this.external(which);
    else this.automatic(which);
    this.load();
  }

  /** A call of an external function with constants, or with none, whose result is left. */
  call(name, ...constants) {
    this.variable(name);
    for (const it of constants) this.constant(it);
    this.callWith(constants.length);
  }

  /** Adds the return of 0 with which a function ends, unless its end is never reached. */
  end() {
    const places = [...this.labels, ...this.instructions.flat().filter(it => it instanceof Place)];
    if (this.instructions.at(-1)?.[0] === 'r' && !places.some(it => it.at === this.here)) return;
    this.constant(0);
    this.give();
  }

  part(given) {
    if (!(given instanceof Place)) return given;
    if (given.at === null) this.fail("an instruction leads to a place that isn't set", given.line);
    return given.at;
  }

  written() {
    this.end();
    const open = this.labels.find(it => it.at === null);
    if (open) this.fail("a label isn't set", open.line);
    const sizes = [this.parameters, this.frame, this.labels.length, this.strings.length, this.here];
    return [`F ${this.name} ${sizes.join(' ')}`, ...this.labels.map(it => `t ${it.at}`), ...this.stringLines(),
      ...this.instructions.map(it => it.map(part => this.part(part)).join(' '))];
  }
}

/** A definition of another code text, whose words have no names. */
class Taken extends Definition {
  constructor(code, name, text, places) {
    super(code, name);
    this.written = () => text;
    this.lines = Array(places).fill(0);
    const [kind, , ...sizes] = text[0].split(' ');
    if (kind === 'F') {
      const all = (line, count) => Array(Number(count)).fill(line);
      this.names = [`F ${name}`, ...all('a _', sizes[1]), ...all('l _', sizes[2])];
    }
  }
}

/** A whole code text of an edition, and the place in your source to which what is added next belongs. */
export class Code {
  at = [0, 0];
  definitions = new Map();
  used = new Map();

  constructor(edition = 1) {
    this.edition = number('the edition', edition, 1, 2);
  }

  get line() { return this.at[0]; }
  set line(given) { this.at = [number('a line', given, 0, LAST), 0]; }

  /** 0 where none is told. */
  get column() { return this.at[1]; }
  set column(given) { this.at = [this.line, number('a column', given, 0, LAST)]; }

  /** The line of a file of lines for what is added next. Line 0 is none, and has no columns. */
  get origin() {
    return this.line && this.column ? `${this.line} ${this.column}` : `${this.line}`;
  }

  define(definition) {
    if (this.definitions.has(definition.name)) fail(`${definition.name} is defined twice`);
    this.definitions.set(definition.name, definition);
    return definition;
  }

  simple(name) {
    return this.define(new Data(this, name));
  }

  vector(name, words) {
    return this.define(new Data(this, name, words));
  }

  function(name, parameters = 0) {
    return this.define(new FunctionDefinition(this, name, parameters));
  }

  /** Notes that a name is used, which may be defined later. */
  use(name) {
    if (!this.used.has(nameOf(name))) this.used.set(name, this.line);
    return name;
  }

  /** Takes in the definitions of a whole code text, as `b compile` writes it of a file of B's library. */
  take(text) {
    let lines = String(text).split('\n');
    if (lines.slice(-2).join('\n') !== 'E\n') fail("that is no whole code text: its last line isn't E");
    lines = lines.slice(lines[0] === 'B 2' ? 1 : 0, -2);
    while (lines.length) {
      const [kind, name, ...parts] = lines[0].split(' '), sizes = parts.map(Number);
      const size = (kind === 'F' ? sizes.slice(2) : sizes.slice(-2)).reduce((sum, it) => sum + it, 1);
      if (!HEAD.test(lines[0]) || sizes.length !== NUMBERS[kind] || size > lines.length) {
        fail(`that is no whole code text: no definition is at the line '${lines[0]}'`);
      }
      this.define(new Taken(this, name, lines.slice(0, size), sizes.at(kind === 'F' ? -1 : -2)));
      for (const it of lines.slice(1, size)) if (it.startsWith('x ')) this.use(it.slice(2));
      lines = lines.slice(size);
    }
  }

  /** The code text, which `b run` takes. */
  text() {
    for (const [name, line] of this.used) {
      if (!this.definitions.has(name) && !LIBRARY.includes(name)) {
        fail(`${name} is neither defined nor in the library`, line);
      }
    }
    const lines = [...this.definitions.values()].flatMap(it => it.written());
    return [...(this.edition === 2 ? ['B 2'] : []), ...lines, 'E'].map(it => `${it}\n`).join('');
  }

  /** The file of lines, of which the places are those of `text()`, after a call of that. */
  lines() {
    return [...this.definitions.values()].flatMap(it => it.lines).map(it => `${it}\n`).join('');
  }

  /** The file of the names of the words of frames and of labels, as `b list --names` takes it. */
  names() {
    return [...this.definitions.values()].flatMap(it => [...it.names, ...it.labelNames]).map(it => `${it}\n`).join('');
  }
}
