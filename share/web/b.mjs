// The program `b` on any machine with WebAssembly: b.wasm, for Node and for pages.
//
//   node b.mjs go x.b                      the whole command line, with b.wasm and the folder lib beside this file
//   import {load} from './b.mjs';          in a program; b.d.mts beside this file has the types
//   const b = await load(fetch('b.wasm'));
//   b.go('main() { printn(6*7, 10); }').text
//
// Each call is a run of the program, in memory of its own, as a process is. It opens no file but those it is given.

/** What a stream or a file throws where a read or a write fails. The program then ends with 133, as natively. */
export class Failed extends Error {}

/** What is thrown where the module itself is stopped by its engine, as when that has no stack left. */
export class Stopped extends Error {}

/** What a call for sessions has refused: its status, and the line of `b`, if there is one. */
export class Refused extends Error {
  constructor(status, line = '') {
    super(line.trim() || `status ${status}`);
    this.status = status;
    this.line = line;
  }
}

/** The end of a run, with its status. */
class Exit {
  constructor(status) {
    this.status = status;
  }
}

const OK = 0, NOT_A_FILE = 8, INPUT_OUTPUT = 29, NO_ENTRY = 44;
const INPUT = 0, OUTPUT = 1, DIAGNOSTICS = 2, FOLDER = 3;
const TERMINAL = 2, REGULAR = 4;

const encoder = new TextEncoder(), decoder = new TextDecoder('utf-8', {ignoreBOM: true});

/** The bytes of a text: of a string, of a buffer, or of any view of one. */
export function bytesOf(given) {
  if (typeof given === 'string') return encoder.encode(given);
  if (given instanceof Uint8Array) return given;
  if (ArrayBuffer.isView(given)) return new Uint8Array(given.buffer, given.byteOffset, given.byteLength);
  if (Array.isArray(given) || /^\[object (Shared)?ArrayBuffer\]$/.test(Object.prototype.toString.call(given)))
    return new Uint8Array(given);
  throw new TypeError(`a text is a string or bytes, and not ${given === null ? 'null' : typeof given}`);
}

const filesOf = texts => Object.fromEntries(Object.entries(texts).map(([name, text]) => [name, bytesOf(text)]));

/** The calls of wasi_snapshot_preview1 that b.wasm takes, for one run. */
class Host {
  constructor(words, io) {
    this.words = ['b', ...words].map(it => encoder.encode(`${it}\0`));
    this.io = io;
    this.opened = new Map();
  }

  /** Each call answers a number of WASI; what a stream throws is a failure, or ends the run. */
  imports() {
    const names = ['args_get', 'args_sizes_get', 'fd_close', 'fd_fdstat_get', 'fd_prestat_dir_name', 'fd_prestat_get',
      'fd_read', 'fd_write', 'path_open', 'proc_exit'];
    return {wasi_snapshot_preview1: Object.fromEntries(names.map(it => [it, (...given) => this.answer(it, given)]))};
  }

  answer(name, given) {
    try {
      return this[name](...given);
    } catch (error) {
      if (error instanceof Failed) return INPUT_OUTPUT;
      this.thrown = error;
      throw error;
    }
  }

  room(at, count) {
    return new Uint8Array(this.memory.buffer, at >>> 0, count >>> 0);
  }

  set(at, number) {
    new DataView(this.memory.buffer).setUint32(at >>> 0, number, true);
    return OK;
  }

  /** The first part that a read or a write moves: the program gives just one. */
  part(parts) {
    const view = new DataView(this.memory.buffer, parts >>> 0);
    return this.room(view.getUint32(0, true), view.getUint32(4, true));
  }

  args_sizes_get(count, bytes) {
    this.set(bytes, this.words.reduce((sum, it) => sum + it.length, 0));
    return this.set(count, this.words.length);
  }

  args_get(words, texts) {
    for (const word of this.words) {
      this.set(words, texts);
      this.room(texts, word.length).set(word);
      words += 4;
      texts += word.length;
    }
    return OK;
  }

  fd_read(file, parts, _, moved) {
    const room = this.part(parts), max = room.length, from = this.opened.get(file);
    if (!from && file !== INPUT) return NOT_A_FILE;
    const bytes = from ? from.bytes.subarray(from.at, from.at + max) : this.io.input?.(max) ?? new Uint8Array(0);
    if (bytes.length > max) throw new RangeError(`${bytes.length} bytes of input, and ${max} were asked for`);
    if (from) from.at += bytes.length;
    room.set(bytes);
    return this.set(moved, bytes.length);
  }

  fd_write(file, parts, _, moved) {
    if (file !== OUTPUT && file !== DIAGNOSTICS) return NOT_A_FILE;
    const bytes = this.part(parts).slice();
    const taken = file === OUTPUT ? this.io.output?.(bytes) : this.io.diagnostics?.(bytes);
    return this.set(moved, taken ?? bytes.length);
  }

  /** The bytes of a file, where there is one of this name. */
  bytesOfFile(name) {
    const {files = {}} = this.io;
    if (typeof files === 'function') return files(name);
    return Object.hasOwn(files, name) ? files[name] : undefined;
  }

  /** The one folder has no name, and the name of a file is its path from there. */
  path_open(folder, _, path, length, ...rest) {
    const bytes = this.bytesOfFile(decoder.decode(this.room(path, length).slice()));
    if (folder !== FOLDER || !bytes) return NO_ENTRY;
    const file = FOLDER + 1 + this.opened.size;
    this.opened.set(file, {bytes, at: 0});
    return this.set(rest.at(-1), file);
  }

  fd_close(file) {
    return this.opened.has(file) ? OK : NOT_A_FILE;
  }

  fd_prestat_get(folder, stat) {
    if (folder !== FOLDER) return NOT_A_FILE;
    this.set(stat, 0);
    return this.set(stat + 4, 0);
  }

  fd_prestat_dir_name() {
    return OK;
  }

  fd_fdstat_get(file, stat) {
    this.room(stat, 24).fill(0);
    this.room(stat, 1)[0] = file === OUTPUT && this.io.atOnce ? TERMINAL : REGULAR;
    return OK;
  }

  proc_exit(status) {
    throw new Exit(status);
  }
}

/** The bytes that are read, in pieces of any size. */
function reading(given) {
  if (typeof given === 'function') return given;
  const bytes = bytesOf(given ?? '');
  let at = 0;
  return max => bytes.subarray(at, at += Math.min(max, bytes.length - at));
}

/** Keeps the bytes that are written, in one room that grows. */
export class Kept {
  constructor() {
    this.room = new Uint8Array(256);
    this.count = 0;
  }

  put(bytes) {
    if (this.count + bytes.length > this.room.length) {
      const more = new Uint8Array(Math.max(2 * this.room.length, this.count + bytes.length));
      more.set(this.bytes());
      this.room = more;
    }
    this.room.set(bytes, this.count);
    this.count += bytes.length;
  }

  bytes() {
    return this.room.subarray(0, this.count);
  }
}

/** What a command has answered: its status, what it wrote, and its lines on standard error. */
class Answer {
  constructor(status, output, diagnostics) {
    this.status = status;
    this.output = output;
    this.diagnostics = diagnostics;
  }

  get text() {
    return decoder.decode(this.output);
  }
}

const SOURCE = 'source.b', CODE = 'source.code';
const MOST_STEPS = 4_000_000_000;
const MOST = {edition: 2, from: MOST_STEPS, last: MOST_STEPS, steps: MOST_STEPS};

/** The words of an option with a number, if it is given. One that isn't in its range is refused here, by its name. */
function numberWords(name, number) {
  if (number === undefined) return [];
  if (Number.isInteger(number) && number >= 1 && number <= MOST[name]) return [`--${name}`, String(number)];
  throw new RangeError(`${name} is ${String(number)}, and has to be a whole number from 1 to ${MOST[name]}`);
}

/** Refuses what nothing would look at, such as a name that is misspelt. */
export function only(names, given) {
  const other = Object.keys(given).find(name => !names.includes(name));
  if (other !== undefined) throw new TypeError(`there is no ${other} here, but ${names.join(', ')}`);
}

const FLAGS = ['code', 'where', 'json'], MADE = {code: '--made', lines: '--lines', names: '--names'};
const OF_SOURCE = ['name', 'edition', 'libs'], OF_RUN = ['input', 'steps', 'output', 'diagnostics', 'atOnce'];
const OF_CODE = [...OF_SOURCE, 'code', 'made'], SHOWN = ['input', 'steps', 'from', 'last'];
const OPTIONS = {
  compile: ['edition', 'libs'],
  check: [...OF_SOURCE, 'json'],
  run: ['name', 'where', ...OF_RUN],
  go: [...OF_CODE, 'where', 'careful', ...OF_RUN],
  format: ['name', 'edition'],
  list: OF_CODE,
  map: OF_CODE,
  trace: [...OF_CODE, ...SHOWN, 'function'],
  count: [...OF_CODE, 'input', 'steps', 'json'],
  show: [...OF_CODE, ...SHOWN],
  verify: ['name'],
};

/** The texts that another compiler made of a source, each with its option and the name of its file. */
function madeOf(made = {}) {
  only(Object.keys(MADE), made);
  const given = Object.keys(MADE).filter(it => made[it] !== undefined);
  return given.map(it => ({option: MADE[it], file: `made.${it}`, text: made[it]}));
}

/** The words of the options of a command, but for the names of files. */
function wordsOf({steps, careful, function: name, libs = {}, made, ...options}) {
  const words = ['edition', 'from', 'last'].flatMap(it => numberWords(it, options[it]));
  words.push(...(steps === Infinity ? ['--no-limit'] : numberWords('steps', steps)));
  words.push(...FLAGS.filter(it => options[it]).map(it => `--${it}`));
  if (careful) words.push(careful === true ? '--careful' : `--careful=${careful}`);
  if (name !== undefined) words.push('--function', name);
  words.push(...madeOf(made).flatMap(({option, file}) => [option, file]));
  return [...words, ...Object.keys(libs).flatMap(it => ['--with', it])];
}

/** The program, for any number of runs. */
class Program {
  constructor(module) {
    this.module = module;
  }

  /** Runs the program with the words of a command line, and answers its status. */
  command(words, io = {}) {
    const host = new Host(words, io), instance = new WebAssembly.Instance(this.module, host.imports());
    host.memory = instance.exports.memory;
    try {
      instance.exports._start();
      return 0;
    } catch (error) {
      if (error instanceof Exit) return error.status;
      if (error === host.thrown) throw error;
      throw new Stopped(`the engine has stopped the program: ${error.message}`, {cause: error});
    }
  }

  /** The same, with what was written and isn't handed on. */
  answer(words, {input, output, diagnostics, files, atOnce}) {
    const kept = new Kept(), told = new Kept();
    const status = this.command(words, {
      files,
      atOnce,
      input: reading(input),
      output: output ?? (it => kept.put(it)),
      diagnostics: diagnostics ?? (it => told.put(it)),
    });
    return new Answer(status, kept.bytes(), decoder.decode(told.bytes()));
  }

  /** A command with the file of a source, and the files that come after it. */
  ofFile(command, text, options = {}, file = SOURCE) {
    only(OPTIONS[command], options);
    const {name = file, ...how} = options;
    const made = madeOf(how.made).map(it => [it.file, it.text]);
    const files = filesOf({...how.libs, ...Object.fromEntries(made), [name]: text});
    return this.answer([command, ...wordsOf(how), '--', name], {...how, files});
  }

  compile(source, options = {}) {
    only(OPTIONS.compile, options);
    return this.answer(['compile', ...wordsOf(options)], {input: source, files: filesOf(options.libs ?? {})});
  }

  check(source, options = {}) {
    only(OF_SOURCE, options);
    const {status, text} = this.ofFile('check', source, {json: true, ...options});
    return {status, findings: text.split('\n').filter(it => it).map(it => JSON.parse(it))};
  }

  run(code, options) {
    return this.ofFile('run', code, options, CODE);
  }

  go(source, options) {
    return this.ofFile('go', source, options);
  }

  format(source, options) {
    return this.ofFile('format', source, options);
  }

  list(source, options) {
    return this.ofFile('list', source, options);
  }

  map(source, options) {
    return this.ofFile('map', source, options);
  }

  trace(source, options) {
    return this.ofFile('trace', source, options);
  }

  count(source, options) {
    return this.ofFile('count', source, options);
  }

  show(source, options) {
    return this.ofFile('show', source, options);
  }

  verify(code, options) {
    return this.ofFile('verify', code, options, CODE);
  }

  migrate(code) {
    return this.answer(['migrate'], {input: code});
  }

  version() {
    return this.answer(['--version'], {}).text.trim();
  }
}

/** The module of given bytes, of a response that has them, or one that was compiled before. */
async function moduleOf(given) {
  const it = await given;
  if (it instanceof WebAssembly.Module) return it;
  return WebAssembly.compile(typeof it.arrayBuffer === 'function' ? await it.arrayBuffer() : it);
}

/** The program of b.wasm. */
export async function load(given) {
  return new Program(await moduleOf(given));
}

/** The module for sessions, of sessions.wasm, in a memory of its own. */
export async function loadSessions(given) {
  const {Sessions} = await import('./sessions.mjs');
  return new Sessions(await WebAssembly.instantiate(await moduleOf(given)));
}

// ---- The command line, for Node alone ----

const WITH_SOURCE = ['compile', 'go', 'try', 'list', 'map', 'check', 'trace', 'count', 'show', 'format', 'port'];
const READS_INPUT = ['list', 'map', 'check', 'format', 'port'];

/** The words, with the path of its file for a name of the library, and standard input for the FILE `-`. */
function withPaths(words, pathOf) {
  const [command] = words;
  let value = ''; // what the next word is: '--with' its LIB, '--made' or '--lines' a file, '--' a FILE as all after it
  return words.map((word, number) => {
    const is = value;
    if (number === 0 || is === '--' || !WITH_SOURCE.includes(command)) return word;
    value = is === '' && ['--', '--with', '--made', '--lines'].includes(word) ? word : '';
    if (is === '--with') return pathOf(word);
    if (is !== '') return word;
    if (word.startsWith('--with=')) return `--with=${pathOf(word.slice('--with='.length))}`;
    return word === '-' && READS_INPUT.includes(command) ? '/dev/stdin' : word;
  });
}

/** Does what a call of the system does, once it can. */
function whenReady(call) {
  for (;;) {
    try {
      return call();
    } catch (error) {
      if (error.code !== 'EAGAIN') throw error.code === 'EOF' ? error : new Failed(error.message, {cause: error});
      Atomics.wait(new Int32Array(new SharedArrayBuffer(4)), 0, 0, 5);
    }
  }
}

/** The streams and the files of this process. */
function systemOf(fs, isTerminal) {
  const room = new Uint8Array(65536);
  return {
    atOnce: isTerminal,
    files: name => {
      try {
        return fs.readFileSync(name);
      } catch {
        return undefined;
      }
    },
    input: max => {
      try {
        return room.subarray(0, whenReady(() => fs.readSync(INPUT, room, 0, Math.min(max, room.length), null)));
      } catch (error) {
        if (error.code === 'EOF') return room.subarray(0, 0);
        throw error;
      }
    },
    output: bytes => whenReady(() => fs.writeSync(OUTPUT, bytes)),
    diagnostics: bytes => whenReady(() => fs.writeSync(DIAGNOSTICS, bytes)),
  };
}

/** How a name of the library becomes a path: as the script `b` does it. */
function pathsIn(fs, library) {
  return word => {
    if (word === '' || word.startsWith('-') || /[./\\]/.test(word) || !library) return word;
    const path = `${library}/${word}.b`;
    if (!fs.existsSync(path)) {
      const names = fs.readdirSync(library).filter(it => it.endsWith('.b')).map(it => it.slice(0, -2));
      console.error(`note: the library has ${names.join(', ')}`);
    }
    return path;
  };
}

async function main() {
  const fs = await import('node:fs'), {isatty} = await import('node:tty'), {fileURLToPath} = await import('node:url');
  if (!process.argv[1] || fs.realpathSync(process.argv[1]) !== fileURLToPath(import.meta.url)) return;
  const place = name => fileURLToPath(new URL(name, import.meta.url));
  const library = ['lib', '../lib', '../../lib'].map(place).find(it => fs.existsSync(it));
  const words = withPaths(process.argv.slice(2), pathsIn(fs, library));
  const b = await load(fs.readFileSync(place('b.wasm')));
  process.exitCode = b.command(words, systemOf(fs, isatty(OUTPUT)));
}

if (typeof process === 'object' && process.versions?.node) await main();
