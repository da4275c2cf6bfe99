// The tests of an exercise, and what comes of them: the verdict is that of class/grade, word for word.
import {bytesOf, bytesOfLatin} from './dom.mjs';
import {optionsIn} from './files.mjs';
import {parsed} from './findings.mjs';
import {withoutMain} from './mains.mjs';
import {endOf, findingOf} from './runs.mjs';
import {t} from './words.mjs';

const SOURCE_BYTES = 65536; // the longest hand-in
const OUTPUT_BYTES = 65536; // how much more than the wanted output a run may write
const SECONDS = 20; // after which a run is ended
const SHOWN = 100; // characters of a line
const END_NAME = 'handedin.b', RULES = 'structure';
const END = '/* The end of the hand-in. */\nhandedin() {\n}\n';
const PLACE = /at +in (\w+) +place +\d+ +line +(\d+)(?: of (\w+\.b))? +step (\d+)\n(.*)\n +means: (.*)/;
const LACKED = /^lib\/(\w+)\.b has it:/; // what check tells of a name that a file of the library has
const BLANKS = /[ \t\n\r\v\f]+$/;

const latin = bytes => Array.from(bytes, it => String.fromCharCode(it)).join('');
const isPlain = it => /[^\p{C}\p{Z}]| /u.test(it) && it !== '\ufffd';
/** A line as it can be shown: without what a terminal obeys, and not too long. */
function plain(text) {
  const all = [...text].slice(0, SHOWN + 1).map(it => isPlain(it) ? it
    : `\\x${it.codePointAt(0).toString(16).padStart(2, '0')}`).join('');
  return all.length <= SHOWN ? all : `${all.slice(0, SHOWN)} ..`;
}

/** The lines of an output. Blanks at the end of a line and empty lines at the end don't count. */
function linesOf(output) {
  const text = output.replace(BLANKS, '');
  return text ? text.split('\n').map(it => it.replace(BLANKS, '')) : [];
}

/** How many lines an output has, with empty ones at its end. */
const countOf = output => output ? output.split(/\n(?!$)/).length : 0;

/** The first line that differs: its number, and what is there on both sides. */
function firstDifference(output, wanted) {
  const got = linesOf(output), want = linesOf(wanted);
  const at = Array.from({length: Math.max(got.length, want.length)}, (_, k) => k).find(k => got[k] !== want[k]);
  if (at === undefined) return null;
  const told = (lines, text) => at < lines.length || at < countOf(text) ? plain(lines[at] ?? '') || t`(an empty line)`
    : t`(no such line)`;
  return {line: at + 1, wrote: told(got, output), wanted: told(want, wanted)};
}

/** The tests of an exercise: those that run the hand-in, and the rules that it has to fit. */
export const testsOf = ({tests, structure}) => [...tests, ...structure];

/** Whether a file of the library has a function that the tests call: that one is for the hand-in to define. */
function asksFor({tests}, lib) {
  const called = new Set(tests.flatMap(it => [...(it.source ?? '').matchAll(/\w+(?=\()/g)].map(([name]) => name)));
  return [...lib.matchAll(/^\w+(?=\()/gm)].some(([name]) => called.has(name));
}

/** The grading of one hand-in, by a machine of its own. `library` has the texts of the files of the library. */
export class Grading {
  constructor(machine, exercise, text, library = exercise.library ?? {}) {
    Object.assign(this, {machine, exercise, text, library, name: `${exercise.name}.b`, libs: []});
    this.hasMains = exercise.tests.some(it => it.source);
    this.source = this.hasMains ? withoutMain(text) : text;
    this.files = {[this.name]: bytesOf(this.source), [END_NAME]: bytesOf(END)};
    if (exercise.rules) this.files[RULES] = bytesOfLatin(exercise.rules);
    for (const [name, lib] of Object.entries(exercise.libs)) this.files[name] = bytesOfLatin(lib);
    for (const it of exercise.tests) if (it.source) this.files[`${it.name}.b`] = bytesOfLatin(it.source);
  }

  /** The files that come after the hand-in where it is alone. */
  get ownLibs() { return [...Object.keys(this.exercise.libs), ...this.libs]; }

  words(command, options, test) {
    const after = [...(test?.source ? [`${test.name}.b`] : []), ...this.ownLibs];
    const withs = (after.length ? [END_NAME, ...after] : []).flatMap(it => ['--with', it]);
    return [command, ...options, `--edition=${this.exercise.edition}`, this.name, ...withs];
  }

  /** Runs b, and ends it where it writes too much or takes too long. */
  async run(words, test) {
    const most = (test?.out.length ?? 0) + OUTPUT_BYTES;
    const timer = setTimeout(() => this.machine.stop(), SECONDS * 1000);
    const ended = await this.machine.ask(words, {files: this.files, input: bytesOfLatin(test?.input ?? ''), most});
    clearTimeout(timer);
    const why = ended.stopped ? t`it took more than ${SECONDS} seconds`
      : ended.full ? t`it wrote more than ${most} bytes` : ended.failed;
    return {...ended, why, told: ended.told ?? '', text: latin(ended.output ?? [])};
  }

  /**
   * Takes the files of the library that have what the hand-in calls, of those that its lessons taught or that its first
   * line names; and keeps what no file has that may be taken.
   */
  async takeLibs() {
    const checked = await this.run(this.words('check', ['--json'], this.firstTest)), {taught = []} = this.exercise;
    const may = new Set([...taught, ...optionsIn(this.source)?.libs ?? []]);
    for (const {message, fix = ''} of parsed(checked.text)) {
      const lib = LACKED.exec(fix)?.[1], text = this.library[lib], file = `${lib}.b`;
      if (this.libs.includes(file)) continue;
      if (text && may.has(lib) && !asksFor(this.exercise, text)) {
        this.libs.push(file);
        this.files[file] = bytesOf(text);
      } else if (text && !asksFor(this.exercise, text)) this.lacked ??= {name: message.split(' ').at(-1), lib};
    }
  }

  get firstTest() { return this.hasMains ? this.exercise.tests[0] : null; }

  /** Ends the tests: there is no verdict then. */
  stop() {
    this.isStopped = true;
    this.machine.stop();
  }

  /** What comes of each test. */
  async grade() {
    if (this.files[this.name].length > SOURCE_BYTES) {
      return {refused: t`the file has more than ${SOURCE_BYTES} bytes`, results: []};
    }
    const results = [];
    await this.takeLibs();
    const checked = await this.run(this.words('check', ['--json'], this.firstTest));
    for (const test of testsOf(this.exercise)) {
      const look = 'says' in test ? it => this.lookFor(it) : it => this.tryTest(it);
      results.push(checked.status === 1 ? {test, result: 'fault'} : await look(test));
      if (this.isStopped) return null;
    }
    return {results, note: this.source === this.text ? '' : t`Your main is left out: the tests have one of their own.`};
  }

  /** Whether a rule fits in the hand-in as it has to. */
  async lookFor(test) {
    const libs = this.ownLibs.flatMap(it => ['--with', it]);
    const words = ['check', '--json', `--rules=${RULES}`, `--edition=${this.exercise.edition}`, this.name, ...libs];
    const found = parsed((await this.run(words)).text).find(it => it.code === test.name);
    return {test, result: !found === !test.isWanted ? 'ok' : 'structure', fits: found?.line, name: this.name};
  }

  async tryTest(test) {
    const words = this.words('go', ['--careful=warn', `--steps=${this.exercise.steps}`], test);
    const ran = await this.run(words, test), found = this.foundIn(ran.told);
    const [first] = ran.told.split('\n'), line = found && first.startsWith('careful ') ? '' : first;
    const difference = firstDifference(ran.text, test.out);
    if (ran.why) return {test, result: 'stopped', why: ran.why};
    if (!difference && ran.status === (test.status ?? 0)) return {test, result: found ? 'luck' : 'ok', found};
    const result = line ? plain(line) : difference ? 'wrong' : `status ${ran.status}`;
    const {steps} = this.exercise, place = line ? this.placeIn(ran.told) : null;
    return {test, result, status: ran.status, difference, lacked: this.lacked, place, steps, found};
  }

  foundIn(told) {
    const found = findingOf(told);
    return found && {...found, file: found.file ?? this.name};
  }

  placeIn(told) {
    const found = PLACE.exec(told);
    return found && {line: Number(found[2]), file: found[3] ?? this.name, means: found[6], loop: endOf(told).loop};
  }
}

const inputOf = text => text.length <= 40 && !text.trimEnd().includes('\n') && text.trimEnd();

/** Whether a test is passed: its output may be right by luck. */
export const passes = ({result}) => result === 'ok' || result === 'luck';

/** A sentence on a test that failed, or that has a finding. */
export function sentence(it) {
  const {result, found} = it;
  const finding = found && t`${found.means}, in line ${found.line} of ${found.file}`;
  if (result === 'luck') return t`the output is right, but by luck: ${finding}`;
  return finding ? t`${failure(it)}; a careful run finds: ${finding}` : failure(it);
}

function failure(it) {
  const {test, result, why, fits, name} = it;
  if (result === 'fault') return t`the program has a fault, which stands below the editor`;
  if (result === 'structure') {
    return fits ? t`${plain(test.says)}: it is in line ${fits} of ${name}`
      : t`${plain(test.says)}: it is nowhere in ${name}`;
  }
  if (why) return why;
  const given = inputOf(test.input ?? ''), does = it.place ? endSentence(it) : otherwise(it);
  if (test.source || !('input' in test) || !it.place && !isOutput(result)) return does;
  return given ? t`for ${given} ${does}` : test.input ? t`for the input ${JSON.stringify(test.input)} ${does}`
    : t`without an input ${does}`;
}

const isOutput = result => result === 'wrong' || result.startsWith('status');

/** What a run came to that was ended by a trap or by the limit. */
function endSentence({result, place, steps}) {
  const {loop, line, file, means} = place;
  if (loop) return t`it never ends: the loop is in line ${loop.line} of ${loop.file ?? file}`;
  return result === 'limit'
    ? t`it didn't end within ${steps} steps, which it made in line ${line} of ${file} last`
    : t`it ends with ${result}, ${means}, in line ${line} of ${file}`;
}

function otherwise({test, result, difference, status, lacked}) {
  if (/^rd main\b/.test(result)) return t`the tests have a main of their own, so take yours out`;
  if (result.startsWith('rd ')) return t`${result.split(' ')[1]} is defined twice`;
  if (result === 'load 4') return t`there is no function main, with which a run begins`;
  if (result === 'load 3') {
    return lacked ? t`${lacked.name} isn't defined: ${lacked.lib} has it, so tick ${lacked.lib} beside With`
      : t`a name isn't defined, as told below the editor`;
  }
  if (!isOutput(result)) return t`it can't be run with the tests: ${result}`;
  if (!difference) return t`it ends with status ${status}, and not ${test.status ?? 0}`;
  const {line, wrote, wanted} = difference;
  if (test.source && wrote.startsWith('wrong: ')) return wrote.slice(7);
  return linesOf(test.out).length > 1 ? t`it writes ${wrote} in line ${line}, wanted ${wanted}`
    : t`it writes ${wrote}, wanted ${wanted}`;
}
