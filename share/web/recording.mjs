// Parts of a run, as `b show` records them: its page has a row for each step. For another part the program is run anew.
import {bytesOf, textOf} from './dom.mjs';

export const ROWS = 2000; // steps of a part that is drawn
const MOST_STEPS = 10_000_000; // the end of a run that has no other
const CLOSE = 1000; // steps before a place that is looked for

const ROW = new RegExp('^<tr><td>(\\d+)<td>([^<]*)<td>\\d+<td>(\\d+)<td>[^<]*<td>[^<]*<td>(\\d+)<td>\\d+'
  + '(<td>\\d+<td>[^<]*<td>[^<]*<td>([^<]*)<td>([^<]*))?</tr>$', 'gm');
const FACTS = /<script type="application\/json" id="facts">(.*)<\/script>/, END = /<p id="end">(.*)<\/p>/;

const plain = text => JSON.parse(`"${text}"`);

function rowOf([, step, name, line, depth, done, read, written]) {
  return {step: Number(step), name: plain(name), line: Number(line), depth: Number(depth), isMade: done !== undefined,
    read: plain(read ?? '').length, writes: !!written};
}

/** A part of a run. A position is the number of the step that comes next there. */
export class Recording {
  constructor(page) {
    const facts = JSON.parse(FACTS.exec(page)[1]), rows = Array.from(page.matchAll(ROW), rowOf), last = rows.at(-1);
    Object.assign(this, {page, rows, sentence: END.exec(page)[1], heard: facts.heard.length,
      files: facts.parts.filter(Boolean), first: rows[0]?.step ?? 1, isOver: !last || last.isMade,
      last: last ? last.step + Number(last.isMade) : 1});
  }

  /** Whether a trap ended the run. */
  get isStopped() { return this.sentence.includes('stopped by'); }

  has(position) { return this.first <= position && position <= this.last; }

  /** The row of a step. */
  at(step) { return this.rows[step - this.first]; }

  /** The file and the line there of a line that is counted through all files. */
  place(line) {
    let own = line;
    for (const [file, count] of this.files.slice(0, -1)) {
      if (own <= count) return {file, line: own};
      own -= count;
    }
    return {file: this.files.at(-1)[0], line: own};
  }

  /** The number through all files of a line that is told with its file. */
  lineOf(told) {
    let before = 0;
    for (const [file, count] of this.files) {
      if (told.startsWith(`${file}:`)) return before + Number(told.slice(file.length + 1));
      before += count;
    }
    return 0;
  }

  /** The rows that called the function of a row, the nearest one first, as far as this part has them. */
  callers(row) {
    const found = [];
    let {depth} = row;
    for (let k = row.step - this.first - 1; k >= 0 && depth > 0; k--) {
      if (this.rows[k].depth >= depth) continue;
      found.push(this.rows[k]);
      ({depth} = this.rows[k]);
    }
    return found;
  }

  /** Whether another line begins at a row, or another call goes on. */
  isVisit(k) {
    const row = this.rows[k], before = this.rows[k - 1];
    return before ? row.line !== before.line || row.depth !== before.depth : row.step === 1;
  }

  /** The first position after one at whose row something is; null where there is none in this part. */
  next(position, is) {
    const from = Math.max(1, position + 1 - this.first);
    const k = this.rows.findIndex((_, n) => n >= from && is(n, this));
    return k < 0 ? null : k + this.first;
  }

  /** The last one before a position where another line begins. */
  previous(position) {
    const k = this.rows.findLastIndex((_, n) => n + this.first < position && this.isVisit(n));
    return k < 0 ? null : k + this.first;
  }

  /** The step that asks for more than so many bytes of input; null where none does, and 0 where it is no step here. */
  asks(given) {
    if (this.heard <= given) return null;
    let heard = this.heard - this.rows.reduce((sum, row) => sum + row.read, 0);
    if (heard > given) return 0;
    return this.rows.find(row => (heard += row.read) > given).step;
  }
}

/** A line with its file, as one text. */
export const placeText = ({file, line}) => `${file}:${line}`;

/** The text of a program with its files, by which it is known again. */
export const programText = ({words, files}) =>
  JSON.stringify([words, ...Object.entries(files).map(([name, it]) => [name, textOf(it)])]);

/** Between which of these numbers the first one lies for which a test holds, and then holds on; as close as this. */
async function bisected(from, to, close, test) {
  let low = from, high = to;
  while (high - low > close) {
    const middle = Math.floor((low + high) / 2);
    if (await test(middle)) high = middle;
    else low = middle + 1;
  }
  return low;
}

/** What a run throws that was stopped, and one without steps. */
export class Stopped extends Error {}
export class NoSteps extends Error {
  constructor(message, fault) {
    super(message);
    this.fault = fault;
  }
}

/** A program with its input so far. Where the input isn't closed, the run waits at the step that asks for more. */
export class Recorder {
  constructor(machine, {words, files, input, isClosed}) {
    Object.assign(this, {machine, words, files, input, isClosed, waits: null});
  }

  feed(text) {
    this.input += text;
    this.waits = null;
  }

  close() {
    this.isClosed = true;
    this.waits = null;
  }

  async ask(words, closed = true) {
    const ended = await this.machine.ask([...words, ...this.words],
      {files: this.files, input: bytesOf(this.input), closed});
    if (ended.stopped) throw new Stopped();
    return ended;
  }

  async page(...words) {
    const ended = await this.ask(['show', ...words]);
    if (ended.status !== 0) throw new NoSteps(ended.failed, await this.fault());
    return new Recording(textOf(ended.output));
  }

  /** The first fault of the program, if it has one. */
  async fault() {
    const found = textOf((await this.ask(['check', '--json'])).output).split('\n').filter(Boolean);
    return found.map(it => JSON.parse(it)).find(it => it.severity === 'error');
  }

  /** The part with the steps from one to another, or that before the end or the wait where that comes before. */
  async record(from, to) {
    const last = Math.max(1, Math.min(to, (this.waits ?? Infinity) - 1)), first = from <= last ? from : last - ROWS;
    const part = await this.page(`--from=${Math.max(1, first)}`, `--steps=${last}`);
    if (!part.rows.length) return this.end();
    return await this.isPast(part, last) ? this.record(from, to) : part;
  }

  /** The last part of the run. */
  async end() {
    if (this.waits) return this.record(this.waits, this.waits);
    const part = await this.page(`--last=${ROWS}`, `--steps=${MOST_STEPS}`);
    return await this.isPast(part, MOST_STEPS) ? this.record(this.waits, this.waits) : part;
  }

  /** Whether a part goes past the step that waits for input, which then is known. */
  async isPast(part, last) {
    const asks = this.isClosed || this.waits ? null : part.asks(bytesOf(this.input).length);
    if (asks === null) return false;
    const isAsked = async steps => (await this.ask(['go', `--steps=${steps}`], false)).wants;
    this.waits = asks || await bisected(1, last, 0, isAsked);
    return true;
  }

  /** How many steps of the first ones are made in these lines, each with its file. */
  async count(places, steps) {
    const ended = await this.ask(['count', '--json', `--steps=${steps}`]);
    const rows = textOf(ended.output).split('\n').filter(it => it.startsWith('{')).map(it => JSON.parse(it));
    return rows.filter(it => places.has(placeText(it))).reduce((sum, it) => sum + it.steps, 0);
  }

  /** A step shortly before the first one after these that is made in one of the lines; null where there is none. */
  async nextIn(places, from) {
    const before = await this.count(places, from), isMade = async to => (await this.count(places, to)) > before;
    for (let size = 8 * ROWS; ; size *= 8) {
      const to = Math.min(MOST_STEPS, from + size);
      if (await isMade(to)) return bisected(from, to, CLOSE, isMade);
      if (to === MOST_STEPS) return null;
    }
  }
}
