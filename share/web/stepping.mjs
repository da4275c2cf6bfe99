// Step through: the steps of a run beside the editor, forwards and backwards. The page of `b show` draws the words of
// memory at a step, in a frame. Where a step isn't in the part of the run that it has, another part is recorded.
/* global page */
import {$, element, say} from './dom.mjs';
import {presented} from './fixes.mjs';
import {NoSteps, ROWS, Recorder, Stopped, placeText, programText} from './recording.mjs';
import {Stops} from './stops.mjs';
import {t} from './words.mjs';

const MOST_ROWS = 1 << 18; // steps of a part in which a place is looked for
const MOST_STEPS = 3_999_990_000;
const SOON = 400; // milliseconds after which it is said that the program runs

const KEYS = {ArrowRight: 'on', ArrowLeft: 'back', l: 'on', p: 'back', o: 'over', u: 'out', s: 'stop', w: 'write',
  Home: 'first', End: 'last'};
const BOXES = {i: 'single', a: 'arrows'};

// The ways forward: whether a row is where each goes that begins at another row.
const WAYS = {
  on: () => (k, part) => part.isVisit(k),
  over: ({depth, line}) => (k, part) => {
    const row = part.rows[k];
    return part.isVisit(k) && (row.depth < depth || row.depth === depth && row.line !== line);
  },
  out: ({depth}) => (k, part) => part.isVisit(k) && part.rows[k].depth < depth,
  stop: (_, places) => (k, part) => part.isVisit(k) && places.has(placeText(part.place(part.rows[k].line))),
  write: () => (k, part) => part.rows[k - 1].writes,
};

const isTyping = it => !!it.closest?.('input:not([type="checkbox"]), textarea, select, .CodeMirror, dialog');

export class Walk {
  /** `program()` is what is stepped through; `docOf` gives the document of a file of it; `busy` hears of long runs. */
  constructor({machine, editor, program, show, docOf, busy}) {
    Object.assign(this, {machine, editor, program, show, docOf, busy, isOpen: false, isGoing: false, frame: null});
    this.stops = new Stops(editor.cm, text => this.isOpen ? this.say(text) : say(text));
    this.marks = [];
    this.wire();
  }

  wire() {
    this.editor.cm.on('changes', () => this.isOpen && !this.isWhole && this.tell());
    this.editor.cm.addKeyMap({Esc: () => this.isOpen ? $('steps').focus() : window.CodeMirror.Pass});
    document.addEventListener('keydown', event => this.hear(event));
    window.addEventListener('message', ({data, source}) => source === this.frame?.contentWindow && this.take(data));
    for (const it of document.querySelectorAll('[data-way]')) it.onclick = () => this.go(it.dataset.way);
    $('step-form').onsubmit = event => {
      event.preventDefault();
      this.go(Number($('step-number').value));
      $('steps').focus();
    };
    for (const name of ['watch', 'single', 'arrows']) $(name).oninput = () => this.draw();
    $('ask-me').onclick = () => this.askMe();
    $('anew').onclick = () => this.begin({typed: this.typed, isEnded: this.recorder.isClosed});
  }

  // ---- Beginning and ending

  /** Steps through the program after so much input, from a position on; or shows the page of `b show` alone. */
  async begin({typed = '', isEnded = false, at = 1, why = '', isWhole = false}) {
    const {input, ends, ...of} = this.program();
    this.stop();
    while (this.isGoing) await new Promise(done => setTimeout(done));
    const recorder = new Recorder(this.machine, {...of, input: input + typed, isClosed: ends || isEnded || isWhole});
    await this.working(async () => {
      const part = await recorder.record(Math.max(1, at - ROWS / 2), isWhole ? ROWS : at + ROWS / 2);
      this.clear();
      Object.assign(this, {of, typed, why, isWhole, recorder, isOpen: true, startsAt: at, at: null, part: null,
        next: null, values: {}, before: {}});
      this.editor.unmarkStop();
      this.say('');
      document.body.classList.toggle('whole', isWhole);
      this.show('steps');
      await this.put(part, at);
      if ($('ask').hidden) $('steps').focus();
    });
  }

  close() {
    this.stop();
    this.clear();
  }

  clear() {
    if (!this.isOpen) return;
    this.isOpen = false;
    this.unmark();
    this.ask(false);
    $('frames').replaceChildren();
    this.frame = null;
    this.ready?.();
    document.body.classList.remove('whole');
  }

  /** Stops a run for a step that is far. */
  stop() {
    this.next = null;
    if (!this.isGoing) return false;
    this.machine.stop();
    return true;
  }

  /** Whether the program isn't any more what is stepped through. */
  get isOld() { return programText(this.program()) !== programText(this.of); }

  /** Does what may run the program. Where that takes long, it is said, and Stop ends it. */
  async working(act) {
    if (this.isGoing) return;
    const {recorder} = this;
    this.isGoing = true;
    const timer = setTimeout(() => {
      this.say(t`The program runs up to there ..`);
      this.busy(true);
    }, SOON);
    try {
      await act();
    } catch (it) {
      if (it instanceof NoSteps && !this.isOpen) throw it;
      if (this.isOpen && recorder === this.recorder) this.say(this.failure(it), 'bad');
    } finally {
      clearTimeout(timer);
      this.isGoing = false;
      this.busy(false);
    }
    const {next} = this;
    this.next = null;
    if (next) await this.go(...next);
  }

  /** Why nothing new is shown: of a program without steps its first fault. */
  failure(error) {
    if (error instanceof Stopped) return t`Stopped.`;
    if (!(error instanceof NoSteps)) return error.message;
    const {fault} = error, why = fault && t`${fault.file}, line ${fault.line}: ${presented(fault, null).message}`;
    return t`The older steps stay. ${why ?? error.message}.`;
  }

  // ---- Going to a position

  /** Goes a way, so many times, or to a position. What is chosen while it goes comes next: the last of it. */
  async go(way, times = 1) {
    if (!this.isOpen || this.isWhole || !way) return;
    if (this.isGoing) {
      if (way === 'first' || typeof way === 'number') this.stop();
      this.next = [way, times];
      return;
    }
    await this.working(async () => {
      this.wanted = way;
      let position = this.at;
      for (let k = 0; k < times; k++) position = await this.found(way, position);
      await this.to(position);
    });
  }

  async found(way, position) {
    if (typeof way === 'number') return Math.min(MOST_STEPS, Math.max(1, Math.floor(way)));
    if (way === 'first') return 1;
    if (way === 'last') return (this.ahead = await this.recorder.end()).last;
    const isSingle = $('single').checked;
    if (way === 'back') return isSingle ? Math.max(1, position - 1) : this.backward(position);
    const row = this.holder(position).at(position);
    if (!row || position === this.recorder.waits) return position;
    if (way === 'on' && isSingle) return position + 1;
    return this.forward(position, WAYS[way](row, this.places()), way === 'stop');
  }

  /** The part that has a position: the one that is drawn, or the one in which a place was looked for last. */
  holder(position) { return this.part.has(position) ? this.part : this.ahead; }

  /** Looks for a place in this part and those after it, which become longer. */
  async forward(position, is, isStop) {
    let part = this.holder(position), from = position, size = ROWS;
    for (;;) {
      const found = part.next(from, is);
      if (found) return found;
      if (part.isOver || part.last === this.recorder.waits) return part.last;
      const near = isStop ? await this.nextStop(part.last) : part.last;
      if (near === null) return Math.max(position, await this.found('last'));
      from = Math.max(part.last, near - 1);
      size = Math.min(size * 8, MOST_ROWS);
      part = this.ahead = await this.recorder.record(from, from + size);
    }
  }

  /** A step shortly before the next one in a line with a stop, if there is one. */
  async nextStop(from) {
    const places = this.places();
    return places.size ? this.recorder.nextIn(places, from) : null;
  }

  async backward(position) {
    let part = this.holder(position), size = ROWS;
    for (;;) {
      const found = part.previous(position);
      if (found || part.first === 1) return found ?? 1;
      size = Math.min(size * 8, MOST_ROWS);
      part = this.ahead = await this.recorder.record(Math.max(1, part.first - size), part.first);
    }
  }

  async to(position) {
    if (this.part.has(position)) this.move(position);
    else if (this.ahead?.has(position) && this.ahead.rows.length <= 2 * ROWS) await this.put(this.ahead, position);
    else {
      const from = Math.max(1, position - ROWS / 2);
      await this.put(await this.recorder.record(from, position + ROWS / 2), position);
    }
    this.ahead = this.part;
  }

  /** Draws a part in a new frame, and then takes the one before away. */
  async put(part, position) {
    const before = [...$('frames').children], {script, style} = page.frame;
    const frame = element('iframe', {sandbox: 'allow-scripts', title: t`The words of memory`, className: 'waiting'});
    frame.srcdoc = part.page.replace(/<\/html>\s*$/, () => `<style>${style}</style><script>${script}</script></html>`);
    this.frame = frame;
    $('frames').append(frame);
    await new Promise(done => { this.ready = done; });
    if (this.frame !== frame) return;
    for (const it of before) it.remove();
    frame.id = 'frame';
    frame.className = '';
    Object.assign(this, {part, ahead: part, isShown: true, before: this.values});
    this.post({beside: !this.isWhole});
    if (!this.isWhole) this.move(Math.min(part.last, Math.max(part.first, position)));
  }

  move(position) {
    const since = this.at !== null && this.part.has(this.at) ? this.at - this.part.first : null;
    Object.assign(this, {since, at: position});
    this.tell();
    this.draw();
  }

  // ---- What is shown

  post(what) {
    const {theme = ''} = document.documentElement.dataset;
    this.frame?.contentWindow.postMessage({theme, ...what}, '*');
  }

  draw() {
    const watch = $('watch').value.split(',').map(it => it.trim()).filter(Boolean);
    this.post({go: {at: this.at - this.part.first, since: this.since, single: $('single').checked,
      arrows: $('arrows').checked, source: !this.isShown, watch, before: this.before}});
  }

  /** Says where the run stands, and marks it in the editor. */
  tell() {
    const {part, at} = this, row = part.at(at), before = part.at(at - 1), here = row ?? before, isOld = this.isOld;
    $('old').hidden = !isOld;
    $('step-number').value = at;
    this.unmark();
    const kind = row ? 'step-next' : part.isStopped ? 'step-stopped' : 'step-made';
    const isMarked = !isOld && this.mark(here, kind, true);
    if (row && before && isMarked) this.mark(before, 'step-made', false);
    const callers = isOld || isMarked || !here ? [] : part.callers(here);
    const caller = callers.find(it => this.mark(it, 'step-call', true));
    if (this.isShown !== isMarked) {
      this.isShown = isMarked;
      if (this.frame?.id) this.draw();
    }
    const isWaiting = at === this.recorder.waits;
    this.say(this.text(row, caller, isWaiting));
    this.ask(isWaiting);
  }

  text(row, caller, isWaiting) {
    if (!row) return `${this.of.name}: ${this.part.sentence}`;
    const where = this.where(row, caller);
    if (isWaiting) return t`The program waits for input: step ${row.step}, ${where}.`;
    if (this.at === this.startsAt && this.why) return t`Before step ${row.step}, ${where}: ${this.why}.`;
    return t`Before step ${row.step}: ${where}.`;
  }

  /** The place of a row, and that in the editor which called its function, where its file isn't there. */
  where(row, caller) {
    const {file, line} = this.part.place(row.line), where = t`line ${line} of ${file}, in ${row.name}`;
    if (!caller) return where;
    const called = this.part.place(caller.line);
    return t`${where}, called in line ${called.line} of ${called.file}`;
  }

  say(text, kind = '') {
    $('step-said').className = kind;
    $('step-said').textContent = text;
  }

  /** Marks the line of a row in the editor, if its file is there. */
  mark(row, kind, isSeen) {
    if (!row) return false;
    const {file, line} = this.part.place(row.line), doc = this.docOf(file, isSeen);
    if (!doc || line > doc.lineCount()) return false;
    const handle = doc.addLineClass(line - 1, 'wrap', kind);
    this.marks.push(() => doc.removeLineClass(handle, 'wrap', kind));
    if (isSeen) this.editor.cm.scrollIntoView({line: line - 1, ch: 0}, 60);
    return true;
  }

  unmark() {
    for (const it of this.marks) it();
    this.marks = [];
  }

  /** The lines with a stop, each with its file. */
  places() {
    const all = this.part.files.flatMap(([file]) => {
      const doc = this.docOf(file, false);
      return doc ? this.stops.of(doc).map(line => placeText({file, line})) : [];
    });
    return new Set(all);
  }

  // ---- Keys, input and questions

  hear(event) {
    if (!this.isOpen || event.ctrlKey || event.altKey || event.metaKey || event.defaultPrevented) return;
    if (event.key === 'Escape' && event.target === $('answer')) $('steps').focus();
    else if (isTyping(event.target)) return;
    else if (this.isWhole) this.post({press: {key: event.key, shiftKey: event.shiftKey}});
    else if (this.press(event)) event.preventDefault();
  }

  /** Does what a key means; whether it means something. */
  press({key, shiftKey}) {
    const name = key.length > 1 ? key : key.toLowerCase(), way = KEYS[name];
    if (name in BOXES) $(BOXES[name]).click();
    else if (way) this.go(way, shiftKey && (way === 'on' || way === 'back') ? 10 : 1);
    else return false;
    return true;
  }

  /** What the frame tells. */
  take({ready, values, names, key, shiftKey}) {
    if (ready) this.ready?.();
    if (values) this.values = values;
    if (names) $('watch-names').replaceChildren(...names.map(it => element('option', {value: it})));
    if (key) this.press({key, shiftKey});
  }

  /** Asks for a line of input by the same field as a run does, or takes that away. */
  ask(is) {
    if (is === ($('ask').parentNode === $('steps') && !$('ask').hidden)) return;
    if (is) $('steps').append($('ask'));
    else $('given').before($('ask'));
    $('ask').hidden = !is;
    $('answer').value = '';
    if (is) $('answer').focus();
  }

  /** A line that was typed for the program. It goes on the way that led to where it waits. */
  async enter(text) {
    this.typed += `${text}\n`;
    this.recorder.feed(`${text}\n`);
    await this.onward();
  }

  async noMore() {
    this.recorder.close();
    await this.onward();
  }

  async onward() {
    const {at, wanted = 'on'} = this;
    await this.working(async () => {
      const part = await this.recorder.record(Math.max(1, at - ROWS / 2), at + ROWS / 2);
      await this.put(part, at);
      $('steps').focus();
    });
    await this.go(['back', 'first'].includes(wanted) ? 'on' : wanted);
  }

  /** The page of `b show` alone, which asks what comes. */
  async askMe() {
    const {part, at} = this, chosen = [...this.places()].map(it => part.lineOf(it));
    this.isWhole = true;
    this.unmark();
    document.body.classList.add('whole');
    await this.put(part, at);
    this.post({ask: {stops: chosen, at: at - part.first}});
  }
}
