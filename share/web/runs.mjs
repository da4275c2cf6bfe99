// Run, Stop, Step through, Lay out, and the commands of the lessons.
import {$, alsoSay, button, bytesOf, save, say} from './dom.mjs';
import {NoSteps, programText} from './recording.mjs';
import {Walk} from './stepping.mjs';
import {t} from './words.mjs';

const PLACE = /^at +in (\S+) +place +\d+ +line +(\d+)(?: of (\S+))? +step (\d+)$/m;
const MEANS = /^ +means: (.*)$/m;
const LOOP = /^loop +in (\S+) +place +\d+ +line +(\d+)(?: of (\S+))?$/m;
const ASKS = /^asks +in (\S+) +place +\d+ +line +(\d+)(?: of (\S+))?$/m;
const IDLE = /^ +its conditions read, and nothing in it changes:(.*)$/m;

const FOUND = /^careful \w+\nat +in (\S+) +place +\d+ +line +(\d+)(?: of (\S+))? +step (\d+)\n.*\n +means: (.*)$/m;
const CAREFUL_STEPS = 300000; // of the careful run after a run, which takes a fifth of a second

const siteOf = found => found && {where: found[1], line: Number(found[2]), file: found[3]};

/** What the lines on standard error tell of the end of a run. */
export function endOf(told) {
  const place = PLACE.exec(told), line = told.split('\n')[0];
  return {line, means: MEANS.exec(told)?.[1] ?? '', place: place && {...siteOf(place), step: Number(place[4])},
    loop: siteOf(LOOP.exec(told)), asks: siteOf(ASKS.exec(told)), idle: IDLE.exec(told)?.[1].trim().split(' ') ?? []};
}

/** The first finding of a careful run, if what is told has one. */
export function findingOf(told) {
  const found = FOUND.exec(told);
  return found && {...siteOf(found), step: Number(found[4]), means: found[5]};
}

/** What is said of a run that never ends, after what its limit means. */
export function endlessText({means, loop, asks, idle}, name) {
  const at = site => t`line ${site.line} of ${site.file ?? name}, in ${site.where}`;
  return [`${means[0].toUpperCase()}${means.slice(1)}.`, t`The loop is in ${at(loop)}.`,
    ...asks ? [t`It asks for input in ${at(asks)}, and there is none left.`] : [],
    ...idle.length ? [t`Its conditions read ${idle.join(', ')}, and nothing in it changes that.`] : []].join(' ');
}

const seconds = ms => `${(ms / 1000).toFixed(2)} s`;

export class Runs {
  /** `program()` gives what Run runs: its words after the options, its files, and the input. */
  constructor({machine, output, editor, program, show, faults, stopAt, forMain, docOf, care}) {
    Object.assign(this, {machine, output, editor, program, show, faults, stopAt, forMain, care});
    this.session = null;
    this.walk = new Walk({machine, editor, program, show, docOf, busy: is => this.busy(is)});
  }

  /** Runs the program from its start. Its output before was of another run. */
  async run(options = []) {
    this.stop();
    const {name, words, files, input, ends} = this.program();
    this.typed = '';
    this.isEnded = false;
    this.trouble = null;
    this.session = {name, files, words: ['go', '--where', ...options, ...words], input, typed: '', closed: ends,
      text: programText({words, files})};
    this.begin(name, t`It runs ..`);
    await this.go();
  }

  begin(name, text) {
    this.looked = null;
    this.output.clear();
    $('of').textContent = name;
    this.editor.unmarkStop();
    this.show('output');
    this.ended(false);
    say(text);
  }

  ended(is) {
    this.busy(!is);
    if (is) $('ask').hidden = true;
  }

  busy(is) {
    $('stop').disabled = !is;
    document.body.classList.toggle('running', is);
  }

  /** Runs the session with the input that is there. Where a run is repeated, what it wrote before isn't shown again. */
  async go() {
    const {session} = this, {words, files, closed} = session;
    $('ask').hidden = true;
    const ended = await this.machine.ask(words, {files, closed, input: bytesOf(session.input + session.typed),
      skip: this.output.size, write: it => this.session === session && this.output.write(it)});
    if (this.session !== session) return;
    this.output.flush();
    if (ended.wants) this.wants();
    else this.finish(ended);
  }

  wants() {
    say(t`The program waits for input.`);
    $('ask').hidden = false;
    $('answer').value = '';
    $('answer').focus();
    $('out').scrollTop = $('out').scrollHeight;
  }

  /** A line that was typed for the program. */
  enter(text) {
    if (this.walk.isOpen) return this.walk.enter(text);
    this.output.typed(`${text}\n`);
    this.session.typed += `${text}\n`;
    return this.go();
  }

  noMore() {
    if (this.walk.isOpen) return this.walk.noMore();
    this.session.closed = true;
    return this.go();
  }

  stop() {
    const {session} = this;
    this.session = null;
    this.walk.close();
    if (!session) return false;
    if (this.machine.busy) this.machine.stop();
    this.output.flush();
    this.ended(true);
    return true;
  }

  stopped() {
    if (this.walk.stop()) return;
    if (this.stop()) say(t`Stopped.`, 'bad');
    $('run').focus();
  }

  finish(ended) {
    const {session} = this;
    this.session = null;
    this.typed = session.typed;
    this.isEnded = session.closed;
    this.ended(true);
    const end = endOf(ended.told ?? ''), {line, means, place} = end;
    if (ended.failed) say(t`The program can't be run here: ${ended.failed}`, 'bad');
    else if (ended.status === 0) say(t`Done, in ${seconds(ended.took)}.`, 'good');
    else if (end.loop) this.sayEndless(end, session);
    else if (place) this.sayPlace(line, means, place, session);
    else if (ended.status === 1 && line) {
      this.sayFault(line, t`The program has a fault: see below the editor.`, session);
    } else if (line.startsWith('load')) this.sayFault(line, t`It can't be run: see below the editor.`, session);
    else say(line ? `${line}.` : t`Ended with status ${ended.status}, in ${seconds(ended.took)}.`, 'bad');
    this.readOut();
    if (!ended.failed) this.lookCarefully(session);
  }

  /** Runs carefully what was run, and shows none of its output. A finding is said after how the run ended. */
  async lookCarefully({name, files, words, input, typed, text}) {
    const own = words.slice(2).filter(it => it !== '--no-limit'), looked = this.looked = {};
    const ended = await this.machine.ask(['go', this.care(), `--steps=${CAREFUL_STEPS}`, ...own],
      {files, input: bytesOf(input + typed)});
    const found = findingOf(ended.told ?? '');
    if (!found || this.session || this.looked !== looked) return;
    const file = found.file ?? name;
    this.trouble = {text, at: found.step, why: found.means};
    alsoSay(t`A careful run finds, in line ${found.line} of ${file}, in ${found.where}: ${found.means}.`);
    this.stopAt(file, found.line);
  }

  sayPlace(line, means, place, session) {
    const file = place.file ?? session.name, why = `${line}: ${means.split(';')[0]}`;
    if (line !== 'limit') this.trouble = {text: session.text, at: place.step + 1, why};
    const text = t`${why}, in line ${place.line} of ${file}, in ${place.where}, at step ${place.step}.`;
    const more = line === 'limit' ? [button(t`Run without a limit`, () => this.run(['--no-limit']))] : [];
    say(text, 'bad', ...more);
    this.stopAt(file, place.line);
  }

  sayEndless(end, session) {
    say(endlessText(end, session.name), 'bad');
    this.stopAt(end.loop.file ?? session.name, end.loop.line);
  }

  sayFault(line, why, session) {
    if (line === 'load 4') return say(t`There is no function main in ${session.name}.`, 'bad', ...this.forMain());
    say(why, 'bad');
    return this.faults();
  }

  /** A screen reader hears the beginning of the output after the run, and not each part of it. */
  readOut() {
    const text = $('out').textContent;
    $('out-said').textContent = text ? t`Output: ${text.slice(0, 300)}` : t`No output.`;
  }

  /** A command of a lesson, such as `b trace --last 2 x.b`: what it writes goes to the output. */
  async command(line, {words, files, input}) {
    this.stop();
    const session = this.session = {};
    this.begin(line, t`It runs ..`);
    const isRun = ['go', 'try'].includes(words[0]);
    $('out').classList.toggle('table', !isRun);
    const ended = await this.machine.ask(words, {files, input: bytesOf(input),
      write: it => this.session === session && this.output.write(it)});
    if (this.session !== session) return null;
    this.session = null;
    this.ended(true);
    this.output.flush();
    this.output.put(ended.told ?? '', 'told');
    if (!isRun) $('out').scrollTop = 0;
    say(ended.failed ?? t`Ended with status ${ended.status}.`, ended.failed ? 'bad' : '');
    this.readOut();
    return ended;
  }

  /**
   * Steps through the program beside the editor, from where its last run went wrong on; or shows the page of `b show`
   * alone, for a program that asks what comes.
   */
  async step({isWhole = false} = {}) {
    const typed = this.session?.typed ?? this.typed ?? '', {trouble, isEnded} = this, program = this.program();
    const isSame = !isWhole && trouble?.text === programText(program);
    this.stop();
    this.looked = null;
    say(t`The steps of ${program.name} ..`);
    try {
      await this.walk.begin({typed, isEnded, isWhole, ...isSame ? {at: trouble.at, why: trouble.why} : {}});
      if (this.walk.isOpen) say('');
    } catch (it) {
      if (!(it instanceof NoSteps)) throw it;
      const why = it.message || t`${program.name} can't be run, as told below the editor`;
      say(t`${why}: there are no steps to show.`, 'bad');
      this.faults();
    }
  }

  /** Waits until no run goes on, or one waits for input. */
  async done() {
    while (this.session && $('ask').hidden) await new Promise(done => setTimeout(done, 5));
  }

  saveOutput(name) { save(`${name.replace(/\.b$/, '')}.txt`, this.output.parts); }
}
