// Sessions: programs that stay in memory, and their runs, in slices. Between these the input is fed, the output is
// taken, and words are seen and stored. `loadSessions` of b.mjs takes this file, and b.d.mts has the types.
//
// The module sessions.wasm has the calls of share/c/b_session.h. An address and a size have 64 bits there, and so they
// are BigInts here.
import {Kept, Refused, Stopped, bytesOf, only} from './b.mjs';
import {Serving, storeText, textAt, wordOf} from './serving.mjs';

const DONE = 0, TRAP = 130, REFUSED = 132, FULL = 133, MEMORY = 134, CLOSED = 135, LARGE = 137;
const WHY = {131: 'limit', 133: 'wants input', 136: 'has output', 138: 'stopped'};
const TRAPS = ['', 'dz', 'fn', 'gt', 'st', 'dp', 'bs', 'sk'], OF = ['', 'operands', 'pages'];
const KINDS = ['', 'function', 'simple', 'vector', 'parameter', 'automatic', 'automatic vector', 'label'];
const FIRST = 7, NAME = 9; // the address of the first definition, and bytes for a name
const UNBEGUN = 'trap st\n'; // where the memory has no room for the frame of `main`
const ROOM = 65536, OWN = 64, LINE = 1024; // bytes for output, for a line, and for what else calls tell
const MOST = 2n ** 64n - 1n, MOST_PAGES = 256;
const HELD = 16; // bytes of the two pointers of a session
const SLICE = 1_000_000, STEPS = 100_000_000;
const QUICK = 4, SLOW = 12, FIRST_PACE = 10_000; // milliseconds of a slice, and steps

/** A whole number that is in its range. */
function whole(name, number, most) {
  if (Number.isInteger(number) && number >= 0 && number <= most) return number;
  throw new RangeError(`${name} is ${String(number)}, and has to be a whole number from 0 to ${most}`);
}

/** The same for one of 64 bits, as a call takes it. */
function large(name, number) {
  if (number === Infinity) return MOST;
  const is = typeof number === 'bigint' || Number.isInteger(number) ? BigInt(number) : -1n;
  if (is >= 0n && is <= MOST) return is;
  throw new RangeError(`${name} is ${String(number)}, and has to be a whole number from 0 to ${MOST}, or Infinity`);
}

/** The limits of a run, as a call takes them. */
function limitsOf(limits) {
  only(['operands', 'pages', 'output'], limits);
  return limitsAs(limits);
}

function limitsAs({operands = Infinity, pages = MOST_PAGES, output = Infinity}) {
  return [large('operands', operands), whole('pages', pages, MOST_PAGES), large('output', output)];
}

/** Places of the code, and watched words, as a call takes a row of them. */
function rowOf(places) {
  const row = new DataView(new ArrayBuffer(16 * places.length));
  places.forEach((it, i) => {
    row.setUint32(16 * i, whole('function', it.function, 2 ** 32 - 1), true);
    row.setBigUint64(16 * i + 8, large('place', it.place), true);
  });
  return new Uint8Array(row.buffer);
}

function wordsOf(words) {
  const row = words.flatMap(it => [whole('address', it.address, 65535), whole('word', it.word, 65535)]);
  return new Uint8Array(Uint16Array.from(row).buffer);
}

/** Each file of a source, by its name: how many lines are before it, and up to its last one. */
function filesOf(source, libs) {
  let last = 0;
  return [['', source], ...Object.entries(libs)].map(([file, text]) => {
    const before = last;
    last += 1 + bytesOf(text).filter(byte => byte === 10).length;
    return {file, before, last};
  });
}

const OF_CODE = [{file: '', before: 0, last: Infinity}];

const fewer = (one, other) => (one < other ? one : other);

/** Lets the event loop go on: a page is drawn, and what was pressed is heard. */
function turn() {
  if (typeof setImmediate === 'function') return new Promise(done => setImmediate(done));
  return new Promise(done => {
    const {port1, port2} = new MessageChannel();
    port1.onmessage = () => done(port1.close());
    port2.postMessage(null);
  });
}

/** What a promise answers, unless the signal comes before that. */
async function unless(signal, promise) {
  if (!signal) return promise;
  let stop;
  const stopped = new Promise((_, fail) => {
    stop = () => fail(signal.reason);
    signal.addEventListener('abort', stop);
  });
  try {
    return await Promise.race([promise, stopped]);
  } finally {
    signal.removeEventListener('abort', stop);
  }
}

/** The steps of a slice, so many that a page can be drawn between two of them. */
class Pace {
  constructor() {
    this.steps = FIRST_PACE;
  }

  /** Does a slice, and goes by how long it took. */
  time(slice) {
    const began = performance.now();
    try {
      return slice(BigInt(this.steps));
    } finally {
      const took = performance.now() - began;
      if (took < QUICK) this.steps = Math.min(2 * this.steps, SLICE);
      if (took > SLOW) this.steps = Math.ceil(this.steps / 2);
    }
  }
}

/** The module for sessions, with one memory for all of them. */
export class Sessions {
  constructor({exports}) {
    this.exports = exports;
    this.given = new FinalizationRegistry(({runs, own}) => runs.letGo(own));
    this.own = this.take(OWN);
    this.room = this.take(ROOM);
  }

  /** Puts the program of a source in memory, and begins its run. */
  load(source, {edition = 1, libs = {}, ...how} = {}) {
    if (edition !== 1 && edition !== 2) throw new RangeError(`edition is ${String(edition)}, and has to be 1 or 2`);
    const texts = [source, ...Object.entries(libs).flat()].map(it => bytesOf(it).slice());
    const load = () => this.lend(texts, ([at, size, ...files]) => {
      const rows = new Uint8Array(BigUint64Array.from(files).buffer), count = BigInt(files.length / 4);
      return this.lend([rows], ([row]) => this.loaded('load_with', [at, size, row, count, edition]));
    });
    return this.begun(['edition', 'libs'], how, filesOf(source, libs), load);
  }

  /** The same for a code text, with an author's files of lines and of names. */
  loadCode(code, {lines = '', names = '', ...how} = {}) {
    const texts = [code, lines, names].map(it => bytesOf(it).slice());
    const load = () => this.lend(texts, words => this.loaded('load_code_with', words));
    return this.begun(['lines', 'names'], how, OF_CODE, load);
  }

  begun(names, {input = '', limits = {}, ...other}, files, load) {
    only(['input', 'limits', ...names], other);
    limitsOf(limits);
    const session = new Session(this, {load, files}, new Runs(this, load()), {}, limits);
    try {
      session.start(input);
      return session;
    } catch (error) {
      session.free();
      throw error;
    }
  }

  /** The place of two pointers, behind which a program is. */
  loaded(name, words) {
    const held = this.take(HELD);
    try {
      this.bytes(held, HELD).fill(0);
      this.expectWithLine((...line) => this.call(name, ...words, ...line, BigInt(held)));
      return held;
    } catch (error) {
      this.free(held);
      throw error;
    }
  }

  /** Makes a call that writes a line, which tells why it is refused. */
  expectWithLine(call) {
    for (let size = LINE; ; size *= 8) {
      const at = this.take(size);
      try {
        const status = call(BigInt(at), BigInt(size), BigInt(this.own));
        const count = Number(this.told.getBigUint64(8, true));
        if (status === FULL && count === size) continue;
        if (status !== DONE) throw new Refused(status, new TextDecoder().decode(this.bytes(at, count)));
        return;
      } finally {
        this.giveBack(at);
      }
    }
  }

  /** The status of a call. Where the engine stops one, nothing is known of the memory any more. */
  call(name, ...words) {
    if (this.stopped) throw new Stopped(this.stopped.message, {cause: this.stopped});
    try {
      return this.exports[`b_${name}`](...words) & 255;
    } catch (error) {
      this.stopped = error;
      throw new Stopped(`the engine has stopped the sessions: ${error.message}`, {cause: error});
    }
  }

  expect(status) {
    if (status !== DONE) throw new Refused(status);
  }

  bytes(at, size) {
    return new Uint8Array(this.exports.memory.buffer, at, size);
  }

  get told() {
    return new DataView(this.exports.memory.buffer, this.own, OWN);
  }

  take(size) {
    const at = this.exports.b_take(size) >>> 0;
    if (at === 0) throw new Refused(MEMORY);
    return at;
  }

  giveBack(at) {
    if (!this.stopped) this.exports.b_give_back(at);
  }

  /** Puts texts into the memory for the time of a call, which gets the place and the length of each. */
  lend(texts, call) {
    const places = [], words = [];
    try {
      for (const bytes of texts.map(bytesOf)) {
        const at = this.take(bytes.length);
        places.push(at);
        words.push(BigInt(at), BigInt(bytes.length));
        this.bytes(at, bytes.length).set(bytes);
      }
      return call(words);
    } finally {
      for (const at of places) this.giveBack(at);
    }
  }

  /** Gives back what the two pointers of a session hold, and their place. */
  free(held) {
    if (this.stopped) return;
    const has = at => new DataView(this.exports.memory.buffer).getBigUint64(held + at, true) !== 0n;
    if (has(0)) this.call('end', BigInt(held));
    if (has(8)) this.call('unload', BigInt(held));
    this.giveBack(held);
  }
}

/** A program in memory, with the runs of the sessions that have it. One is the run of the module, and the others are
    the copies that it keeps, in this order. A session is told by an object of its own. */
class Runs {
  constructor(sessions, held) {
    this.sessions = sessions;
    this.held = held;
    this.running = null;
    this.kept = [];
  }

  /** The status of a call for one of the sessions. */
  call(own, name, ...words) {
    this.goOnWith(own);
    return this.sessions.call(name, BigInt(this.held), ...words);
  }

  goOnWith(own) {
    const number = this.kept.indexOf(own);
    if (number === -1) return;
    this.sessions.expect(this.sessions.call('swap', BigInt(this.held), BigInt(number)));
    this.kept[number] = this.running;
    this.running = own;
  }

  /** Keeps a copy of the run of a session, for another one. */
  copy(own) {
    const other = {};
    this.sessions.expect(this.call(own, 'copy'));
    this.kept.push(other);
    return other;
  }

  /** Gives the run of a session back; and the program with the last one. */
  letGo(own) {
    if (this.sessions.stopped) return;
    if (this.kept.length === 0) {
      this.sessions.free(this.held);
      return;
    }
    if (own === this.running) this.goOnWith(this.kept[0]);
    const number = this.kept.indexOf(own);
    this.sessions.expect(this.sessions.call('forget', BigInt(this.held), BigInt(number)));
    this.kept.splice(number, 1);
  }
}

const END = {why: '', status: 0, trap: '', of: '', text: '', at: null};

/** A program that stays in memory, and its run, in slices. */
class Session {
  #sessions;
  #program; // what loads it, and its files
  #runs;
  #own;
  #limits;
  #names = new Map();
  #isRunning = false;
  #isCalling = false; // a call or what serves is on, and no function of the host is at work in it
  #serving = null;
  #output;

  constructor(sessions, program, runs, own, limits) {
    this.#sessions = sessions;
    this.#program = program;
    this.#limits = {...limits};
    this.#have(runs, own);
  }

  #have(runs, own) {
    this.#runs = runs;
    this.#own = own;
    this.#sessions.given.register(this, {runs, own}, this);
  }

  #leave() {
    const runs = this.#runs;
    this.#runs = null;
    this.#sessions.given.unregister(this);
    runs.letGo(this.#own);
  }

  #look() {
    if (this.#runs === null) throw new Error('this session was freed');
  }

  /** The status of a call for this session. */
  #call(name, ...words) {
    this.#look();
    return this.#runs.call(this.#own, name, ...words);
  }

  #begin(input) {
    this.#runs.running = null;
    const status = this.#call('begin');
    if (status === TRAP) throw new Refused(status, UNBEGUN);
    this.#sessions.expect(status);
    this.#runs.running = this.#own;
    this.#sessions.expect(this.#call('limit', ...limitsOf(this.#limits)));
    const bytes = bytesOf(input);
    if (bytes.length > 0) this.feed(bytes);
  }

  start(input = '') {
    if (this.#isRunning) throw new Error('this session is running');
    this.#look();
    if (this.#runs.kept.length > 0) {
      const runs = new Runs(this.#sessions, this.#program.load());
      this.#leave();
      this.#have(runs, {});
    }
    if (this.#runs.running !== null) this.#sessions.expect(this.#call('end'));
    this.#serving = null;
    this.#begin(input);
  }

  copy() {
    this.#look();
    const own = this.#runs.copy(this.#own);
    const copy = new Session(this.#sessions, this.#program, this.#runs, own, this.#limits);
    copy.#names = this.#names;
    copy.#serving = this.#serving?.of(copy) ?? null;
    copy.#output = this.#output;
    return copy;
  }

  limit(limits = {}) {
    const most = {...this.#limits, ...limits};
    this.#sessions.expect(this.#call('limit', ...limitsOf(most)));
    this.#limits = most;
  }

  goOn(steps = SLICE) {
    return this.#endOf(this.#call('continue', large('steps', steps), BigInt(this.#sessions.own)));
  }

  goTo({places = [], near = [], callers = 0, returned = 0, words = [], ...other} = {}, steps = SLICE) {
    only(['places', 'near', 'callers', 'returned', 'words'], other);
    const most = [large('steps', steps), BigInt(this.#sessions.own)];
    const below = [large('callers', callers), large('returned', returned)];
    return this.#sessions.lend([rowOf(places), rowOf(near), wordsOf(words)], ([at, , close, , watched]) => {
      const stops = [at, BigInt(places.length), close, BigInt(near.length), ...below, watched, BigInt(words.length)];
      const row = new Uint8Array(BigUint64Array.from(stops).buffer);
      return this.#endOf(this.#sessions.lend([row], ([told]) => this.#call('continue_to', told, ...most)));
    });
  }

  /** Why a slice has ended, by what a call answers. */
  #endOf(status) {
    const value = this.#sessions.told.getUint8(0);
    if (status === DONE) return {...END, why: 'halted', status: value, ...this.#raised()};
    if (status === TRAP) return {...END, why: 'trapped', trap: TRAPS[value]};
    if (status === LARGE) return {...END, why: 'too large', of: OF[value]};
    if (status in WHY) return {...END, why: WHY[status]};
    throw new Refused(status);
  }

  async run({output, ...how} = {}) {
    return this.#handOn(this.outputs(how), output);
  }

  /** Hands on what is written, up to an end. */
  async #handOn(parts, output) {
    try {
      for (;;) {
        const {done, value} = await parts.next();
        if (done) return value;
        await output?.(value);
      }
    } finally {
      await parts.return();
    }
  }

  /** Runs on, and answers the calls of lib/host.b, up to an end, or until the program waits for a call. */
  async serve(functions = {}, {input, output, ...how} = {}) {
    if (this.#isRunning || this.#isCalling) throw new Error('this session is running');
    this.#serving = new Serving(this, functions, input, this.#serving);
    this.#output = output;
    this.#isRunning = true;
    try {
      return await this.#calling(() => this.#talk(how));
    } finally {
      this.#isRunning = false;
    }
  }

  /** Runs on, where no other call does, and tells how that ends. */
  async #talk({isCall, ...how}) {
    const turn = {isOver: false}, input = () => this.#serving.reply(isCall, work => this.#atWork(turn, work));
    try {
      return await this.#serving.end(this.#handOn(this.#parts({input, ...how}), this.#output));
    } finally {
      turn.isOver = true;
    }
  }

  /** Does a call, within which no other one comes but those of a function of the host. */
  async #calling(work) {
    this.#isCalling = true;
    try {
      return await work();
    } finally {
      this.#isCalling = false;
    }
  }

  /** Has a function of the host at work, which has to wait for its calls. After a signal nobody waits for it. */
  async #atWork(turn, work) {
    this.#isCalling = false;
    try {
      const answer = await work();
      if (this.#isCalling || turn.isOver) throw new Error('a function of the host has not waited for its call');
      return answer;
    } finally {
      if (!turn.isOver) this.#isCalling = true;
    }
  }

  /** Calls a function of a program that waits, and gives its value. */
  async call(name, words = [], how = {}) {
    if (!this.#serving) throw new Error('this session was not served yet');
    if (this.#isCalling) throw new Error('this session is running');
    this.#serving.begin(name, words);
    return this.#calling(async () => this.#serving.value(await this.#talk({...how, isCall: true})));
  }

  words(address, count) {
    return Array.from({length: count}, (_, at) => this.word((address + at) & 65535));
  }

  setWords(address, words) {
    [...words].map(wordOf).forEach((word, at) => this.setWord((address + at) & 65535, word));
  }

  text(address, most = 32767) {
    return textAt(this, address & 65535, most);
  }

  setText(address, text) {
    storeText(this, address & 65535, bytesOf(text));
  }

  async *outputs(how = {}) {
    if (this.#isRunning) throw new Error('this session is running');
    this.#isRunning = true;
    try {
      return yield* this.#parts(how);
    } finally {
      this.#isRunning = false;
    }
  }

  async *#parts({input, steps = STEPS, signal} = {}) {
    const pace = new Pace(), last = fewer(this.#made() + large('steps', steps), MOST);
    for (;;) {
      signal?.throwIfAborted();
      const {end, failure} = pace.time(most => this.#slice(fewer(most, this.#upTo(last))));
      const bytes = this.output();
      if (bytes.length > 0) yield bytes;
      if (failure) throw failure;
      if (end.why === 'wants input') await this.#ask(input, signal);
      else if (end.why !== 'has output' && (end.why !== 'limit' || this.#made() >= last)) return end;
      await turn();
    }
  }

  /** A slice, of which the output is handed on before its failure is told. */
  #slice(steps) {
    try {
      return {end: this.goOn(steps)};
    } catch (failure) {
      if (!(failure instanceof Refused)) throw failure;
      return {failure};
    }
  }

  /** Asks for more of the input, and feeds it; where none comes, there is no more. */
  async #ask(input, signal) {
    const bytes = bytesOf((await unless(signal, input?.())) ?? '');
    if (bytes.length > 0) this.feed(bytes);
    else this.closeInput();
  }

  *slices(steps = SLICE) {
    for (;;) {
      const end = this.goOn(steps);
      yield end;
      if (end.why !== 'limit') return;
    }
  }

  *[Symbol.iterator]() {
    while (this.goOn(0).why === 'limit') {
      yield this.place();
      if (this.goOn(1).why !== 'limit') return;
    }
  }

  feed(text) {
    const status = this.#sessions.lend([text], bytes => this.#call('feed', ...bytes));
    if (status === CLOSED) throw new Error('the input of this session was closed');
    this.#sessions.expect(status);
  }

  closeInput() {
    this.#sessions.expect(this.#call('close_input'));
  }

  output() {
    const {room, own} = this.#sessions, kept = new Kept();
    for (;;) {
      this.#sessions.expect(this.#call('output', BigInt(room), BigInt(ROOM), BigInt(own)));
      const count = Number(this.#sessions.told.getBigUint64(0, true));
      kept.put(this.#sessions.bytes(room, count));
      if (count < ROOM) return kept.bytes();
    }
  }

  /** How many steps are left up to a last one, which a call from within may have passed. */
  #upTo(last) {
    const left = last - this.#made();
    return left > 0n ? left : 0n;
  }

  #made() {
    this.#sessions.expect(this.#call('place', BigInt(this.#sessions.own)));
    return this.#sessions.told.getBigUint64(24, true);
  }

  place() {
    const steps = Number(this.#made()), {told} = this.#sessions, at = place => Number(told.getBigUint64(place, true));
    const is = {function: told.getUint32(0, true), place: at(8), callers: at(16), steps, line: at(32)};
    return {...is, name: this.nameOf(is.function), column: this.#column(), ...this.#fileOf(is.line)};
  }

  frames() {
    return [...this.#frames()];
  }

  *#frames() {
    for (let number = 0n; ; number++) {
      const status = this.#call('frame', number, BigInt(this.#sessions.own));
      if (status === REFUSED) return;
      this.#sessions.expect(status);
      const {told} = this.#sessions, at = place => Number(told.getBigUint64(place, true));
      const is = {function: told.getUint32(0, true), place: at(8), start: told.getUint32(16, true)};
      const rest = {parameters: told.getUint16(20, true), line: at(24), column: at(32)};
      yield {...is, ...rest, name: this.nameOf(is.function), ...this.#fileOf(rest.line)};
    }
  }

  /** The file that has a line, and its number there. */
  #fileOf(line) {
    const {file, before} = this.#program.files.find(it => line <= it.last);
    return {file, fileLine: line - before};
  }

  /** What `raise` was given, if it has halted the run, and where the source itself stands. */
  #raised() {
    const [top, ...callers] = this.frames();
    if (top.name !== 'raise' || top.parameters === 0) return {};
    const at = callers.find(it => it.line > 0 && it.line <= this.#program.files[0].last) ?? null;
    return {text: this.text(this.word(top.start)), at};
  }

  #column() {
    this.#sessions.expect(this.#call('column', BigInt(this.#sessions.own)));
    return Number(this.#sessions.told.getBigUint64(0, true));
  }

  nameOf(address) {
    if (!this.#names.has(address)) this.#names.set(address, this.#nameOf(whole('function', address, 2 ** 32 - 1)));
    return this.#names.get(address);
  }

  #nameOf(address) {
    const {room, own} = this.#sessions;
    const status = this.#call('name_of', address, BigInt(room), BigInt(ROOM), BigInt(own));
    if (status !== REFUSED) this.#sessions.expect(status);
    const count = Number(this.#sessions.told.getBigUint64(0, true));
    return new TextDecoder().decode(this.#sessions.bytes(room, count));
  }

  find(name) {
    return this.#sessions.lend([name], words => this.#symbol('find', ...words));
  }

  symbolAt(address) {
    return this.#symbol('symbol_at', whole('address', address, 2 ** 32 - 1));
  }

  *symbols() {
    for (let it = this.symbolAt(FIRST); it; it = this.symbolAt(it.address + it.words)) yield it;
  }

  locals(address) {
    return this.#symbolsOf('local', address, BigInt);
  }

  labels(address) {
    return this.#symbolsOf('label', address, BigInt);
  }

  instructions(address) {
    return this.#symbolsOf('instruction', address, Number);
  }

  /** What a function has, one after the other. */
  *#symbolsOf(call, address, sized) {
    const of = whole('function', address, 2 ** 32 - 1);
    for (let number = 0, it; (it = this.#symbol(call, of, sized(number))); number++) yield it;
  }

  /** What a call tells, or null where there is nothing. */
  #symbol(call, ...words) {
    const status = this.#call(call, ...words, BigInt(this.#sessions.own));
    if (status === REFUSED) return null;
    this.#sessions.expect(status);
    const {told, own} = this.#sessions, at = place => Number(told.getBigUint64(place, true));
    const name = new TextDecoder().decode(this.#sessions.bytes(own, NAME)).replace(/\0.*/, '');
    const is = {name, kind: KINDS[told.getUint8(9)] ?? 'instruction', address: told.getUint32(12, true)};
    const has = {words: told.getUint32(16, true), frame: told.getUint16(20, true), labels: at(24)};
    const rest = {parameters: told.getUint16(10, true), instructions: at(32), line: at(40), column: at(48)};
    return {...is, ...has, ...rest, function: is.kind === 'function' ? is.address + 1 : 0};
  }

  get steps() {
    return this.place().steps;
  }

  get callers() {
    return this.place().callers;
  }

  word(address) {
    this.#sessions.expect(this.#call('word', whole('address', address, 65535), BigInt(this.#sessions.own)));
    return this.#sessions.told.getUint16(0, true);
  }

  setWord(address, word) {
    const words = [whole('address', address, 65535), whole('word', word, 65535)];
    this.#sessions.expect(this.#call('set_word', ...words));
  }

  free() {
    if (this.#runs !== null) this.#leave();
  }
}

if (Symbol.dispose) Session.prototype[Symbol.dispose] = Session.prototype.free;
