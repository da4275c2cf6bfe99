// The part of the page for a teacher: hand-ins are dropped, graded beside the page, and told as tables and pages.
import {$, button, element, save} from './dom.mjs';
import {zip} from './archive.mjs';
import {dialog} from './dialogs.mjs';
import {Grading, passes, sentence, testsOf} from './exercises.mjs';
import {parsed} from './findings.mjs';
import {studentsOf} from './handins.mjs';
import {canvasOf, firstOf, luckIn, moodleOf, mostFailed, pageOf, partOf, plainNames, pointsOf, tableOf, untaken}
  from './marks.mjs';
import {data, newMachine} from './state.mjs';
import {t} from './words.mjs';

const MOST_MACHINES = 4, MOST_TOLD = 12;
const GAP = 300; // milliseconds between two looks of the page at what goes on

/** What is dropped, as entries: folders give theirs in parts, and have to be asked at once. */
function droppedOf(transfer) {
  const dropped = [...transfer.items ?? []].map(it => [it.webkitGetAsEntry?.(), it.getAsFile()]);
  return Promise.all(dropped.filter(([folder, file]) => folder?.isDirectory || file).map(([folder, file]) =>
    folder?.isDirectory ? entryOf(folder) : {name: file.name, file}));
}

async function entryOf(entry) {
  if (entry.isFile) return {name: entry.name, file: await new Promise((done, failed) => entry.file(done, failed))};
  return {name: entry.name, entries: () => childrenOf(entry.createReader())};
}

async function childrenOf(reader) {
  const all = [];
  for (;;) {
    const some = await new Promise((done, failed) => reader.readEntries(done, failed));
    if (!some.length) return Promise.all(all.map(entryOf));
    all.push(...some);
  }
}

/** Files that were chosen: those of a folder have their path in it. */
function chosenOf(files) {
  const top = new Map();
  for (const file of files) {
    const parts = (file.webkitRelativePath || '').split('/').filter(Boolean), name = parts.pop() ?? file.name;
    let folder = top;
    for (const part of parts) {
      if (!folder.has(part)) folder.set(part, new Map());
      folder = folder.get(part);
    }
    folder.set(parts.length ? name : folder.size, {name, file});
  }
  const entriesIn = map => [...map].map(([name, it]) => it instanceof Map
    ? {name, entries: async () => entriesIn(it)} : it);
  return entriesIn(top);
}

/** Grades the hand-ins of a class, some at a time. One text of an exercise is graded once. */
class Queue {
  constructor() {
    Object.assign(this, {machines: [], active: new Set(), known: new Map(), isStopped: false});
  }

  /** Does all jobs, each a row and an exercise; `told(job)` hears of each that is done. */
  async run(jobs, told) {
    const count = Math.min(MOST_MACHINES, Math.max(1, (navigator.hardwareConcurrency ?? 2) - 1), jobs.length);
    while (this.machines.length < count) this.machines.push(newMachine());
    this.isStopped = false;
    const next = jobs[Symbol.iterator]();
    await Promise.all(this.machines.slice(0, count).map(it => this.work(it, next, told)));
  }

  async work(machine, jobs, told) {
    for (const job of jobs) {
      if (this.isStopped) return;
      const graded = await this.graded(machine, job).catch(it => ({refused: it.message}));
      if (!graded) return;
      job.row.works.set(job.exercise.name, graded);
      told(job);
    }
  }

  async graded(machine, {row, exercise}) {
    const source = await row.student.sourceOf(exercise.name), key = `${exercise.name}\n${source}`;
    if (source === null) return {isMissing: true};
    if (!this.known.has(key)) {
      const graded = await this.grade(machine, exercise, source);
      if (graded) this.known.set(key, graded);
      return graded;
    }
    return this.known.get(key);
  }

  async grade(machine, exercise, source) {
    const grading = new Grading(machine, exercise, source);
    this.active.add(grading);
    try {
      const graded = await grading.grade();
      if (!graded || graded.refused) return graded;
      return {...graded, source, ...await firstFinding(grading)};
    } finally {
      this.active.delete(grading);
    }
  }

  stop() {
    this.isStopped = true;
    for (const it of this.active) it.stop();
  }
}

/** What `check` says first, and else what a run came to. */
async function firstFinding(grading) {
  const [first] = grading.exercise.tests;
  const checked = await grading.run(grading.words('check', ['--json'], grading.hasMains ? first : null));
  const found = parsed(checked.text).find(it => it.file === grading.name || it.severity === 'error');
  if (!found) return {};
  const {file, line, message} = found;
  return {finding: t`${file}, line ${line}: ${message}`, line: file === grading.name && line};
}

class Classroom {
  constructor(box) {
    Object.assign(this, {entries: [], rows: [], set: new Set(), queue: new Queue(), serial: 0, shown: null});
    this.said = element('p', {role: 'status'});
    this.bar = element('progress', {max: 1, value: 0, hidden: true});
    this.bar.setAttribute('aria-label', t`How much is graded`);
    this.stopper = button(t`Stop`, () => this.stop(), {disabled: true});
    const part = className => element('div', {className});
    this.parts = {options: part('options'), table: part('table'), failed: part('failed'), student: part('student')};
    const {options, table, failed, student} = this.parts;
    student.tabIndex = -1;
    box.append(element('div', {className: 'bar'}, button(t`Back to the program`, closeClass),
      element('h2', {}, t`Grade a class`), this.said, this.bar, this.stopper));
    const left = element('div', {}, this.dropped(), options, table, failed);
    box.append(element('div', {className: 'class alone'}, left, student));
    this.say(t`Nothing is handed in here yet.`);
  }

  say(text, kind = '') {
    this.said.className = kind;
    this.said.textContent = text;
  }

  /** Where the hand-ins are dropped or chosen. */
  dropped() {
    const files = element('input', {type: 'file', multiple: true, hidden: true});
    const folder = element('input', {type: 'file', hidden: true, webkitdirectory: true});
    for (const it of [files, folder]) {
      it.onchange = async () => {
        await this.take(chosenOf([...it.files]));
        it.value = '';
      };
    }
    const text = t`Drop the hand-ins here: archives and folders, as students, Moodle or Canvas name them.`;
    return element('div', {className: 'drop'}, element('p', {}, text, ' ', t`They stay on this device.`),
      element('p', {className: 'row'}, button(t`Choose files ..`, () => files.click()),
        button(t`Choose a folder ..`, () => folder.click()), button(t`Begin anew`, () => this.beginAnew())),
      files, folder);
  }

  async beginAnew() {
    const text = t`This takes the table and the hand-ins off the page.`;
    if (!this.entries.length || await dialog(t`Begin anew`, t`Begin anew`, element('p', {}, text))) await this.clear();
  }

  async clear() {
    this.serial++;
    this.stop();
    await this.going;
    Object.assign(this, {entries: [], rows: [], shown: null});
    this.set.clear();
    this.show();
    this.say(t`Nothing is handed in here yet.`);
  }

  /** Takes what was dropped, beside what is there. */
  async take(entries) {
    this.stop();
    this.say(t`The hand-ins are read ..`);
    try {
      this.entries.push(...await entries);
      await this.read();
    } catch (it) {
      this.say(t`The hand-ins can't be read: ${it.message}`, 'bad');
    }
  }

  async read() {
    const students = await studentsOf(this.entries, data.exercises.map(it => it.name));
    const names = plainNames(students.map(it => it.name));
    this.rows = students.map((student, k) => ({student, label: names[k], works: new Map()}));
    for (const {name} of data.exercises) if (students.some(it => it.hasWork(name))) this.set.add(name);
    await this.grade();
  }

  get exercises() { return data.exercises.filter(it => this.set.has(it.name)); }

  /** Grades what isn't graded yet. Of calls that overlap the last one goes on. */
  async grade() {
    const serial = ++this.serial;
    this.stop();
    await this.going;
    if (serial !== this.serial) return;
    const lacking = row => this.exercises.filter(it => !row.works.has(it.name));
    const jobs = this.rows.flatMap(row => lacking(row).map(exercise => ({row, exercise})));
    Object.assign(this, {done: 0, count: jobs.length, looked: 0});
    Object.assign(this.bar, {hidden: false, max: jobs.length || 1, value: 0});
    this.stopper.disabled = false;
    this.show();
    await (this.going = this.queue.run(jobs, job => this.told(job)));
    this.bar.hidden = this.stopper.disabled = true;
    this.show();
    if (serial === this.serial) this.sayEnd();
  }

  told({row, exercise}) {
    this.bar.value = ++this.done;
    const now = performance.now();
    if (now - this.looked < GAP) return;
    this.looked = now;
    this.say(t`${this.done} of ${this.count} graded: ${row.label}, ${exercise.name}`);
    this.showTable();
  }

  sayEnd() {
    const isStopped = this.queue.isStopped, count = this.rows.length;
    const unread = this.rows.filter(it => it.student.unread.length || [...it.works.values()].some(one => one.refused));
    const names = unread.map(it => it.label).join(', ');
    if (isStopped) this.say(t`Stopped: ${this.done} of ${this.count} are graded.`, 'bad');
    else if (unread.length) this.say(t`${count} students. These have what can't be read: ${names}.`, 'bad');
    else this.say(t`${count} students are graded.`, 'good');
  }

  stop() { this.queue.stop(); }

  show() {
    this.showOptions();
    this.showTable();
    this.showFailed();
    this.showStudent(this.shown);
  }

  /** Which exercises were set, what files of no exercise are, and what can be saved. */
  showOptions() {
    const boxes = data.exercises.map(({name}) => {
      const box = element('input', {type: 'checkbox', checked: this.set.has(name)});
      box.onchange = () => {
        if (box.checked) this.set.add(name);
        else this.set.delete(name);
        this.grade();
      };
      return element('label', {}, box, ` ${name}`);
    });
    const [set, others] = [true, false].map(is => boxes.filter((_, k) => this.set.has(data.exercises[k].name) === is));
    const more = element('details', {}, element('summary', {}, t`Other exercises`), element('fieldset', {}, ...others));
    this.parts.options.replaceChildren(...this.rows.length ? [element('fieldset', {},
      element('legend', {}, t`Set were`), ...set), more, ...this.unnamed(), this.savers()] : []);
  }

  /** Files such as ken.b, whose name is that of a student: of which exercise they are. */
  unnamed() {
    const rows = this.rows.filter(it => it.student.isFile);
    if (!rows.length) return [];
    const names = data.exercises.map(it => new Option(it.name));
    const choice = element('select', {}, new Option(t`choose ..`, ''), ...names);
    choice.value = rows[0].student.exercise ?? '';
    choice.onchange = () => {
      for (const it of rows) {
        it.student.exercise = choice.value;
        it.works.clear();
      }
      if (choice.value) this.set.add(choice.value);
      this.grade();
    };
    const text = t`Files such as ${rows[0].student.files[0].path} are of the exercise`;
    return [element('p', {}, element('label', {}, text, ' ', choice))];
  }

  savers() {
    const of = this.exercises.reduce((sum, it) => sum + testsOf(it).length, 0);
    const most = element('input', {type: 'number', min: 1, value: this.most ?? of, className: 'points'});
    most.onchange = () => { this.most = Number(most.value) > 0 ? Number(most.value) : undefined; };
    const has = by => this.rows.some(it => it.student.by === by), points = () => Number(most.value) || of;
    const add = (text, name, made) => button(text, () => save(name, [made(this.rows, this.exercises, points())]));
    return element('p', {className: 'row'}, add(t`Save the table`, 'grades.csv', tableOf),
      button(t`Save all pages`, () => this.savePages()),
      ...has('moodle') ? [add(t`Save for Moodle`, 'moodle.csv', moodleOf)] : [],
      ...has('canvas') ? [add(t`Save for Canvas`, 'canvas.csv', canvasOf)] : [],
      ...has('moodle') || has('canvas') ? [element('label', {}, t`Points there at most`, ' ', most)] : []);
  }

  savePages() {
    const {rows, exercises} = this, folder = ({student}) => student.folder ? `${student.folder}/` : '';
    const page = it => [`${folder(it)}${it.label}.html`, pageOf(it, exercises)];
    save('grades.zip', zip([['grades.csv', tableOf(rows, exercises)], ...rows.map(page)]));
  }

  showTable() {
    const {rows, exercises} = this;
    const heads = [t`Student`, t`Points`, ...exercises.map(it => it.name), t`First finding`];
    const head = element('tr', {}, ...heads.map(it => element('th', {scope: 'col'}, it)));
    const table = element('table', {}, element('thead', {}, head),
      element('tbody', {}, ...rows.map(it => this.rowOf(it, exercises))));
    this.parts.table.replaceChildren(...rows.length ? [table] : []);
  }

  rowOf(row, exercises) {
    const {passed, of, isWhole} = pointsOf(row, exercises), {number, unread} = row.student;
    const name = button(row.label, () => this.showStudent(row, true), {className: 'name'});
    return element('tr', {}, element('th', {scope: 'row'}, name, number ? element('small', {}, ` ${number}`) : ''),
      element('td', {className: isWhole ? 'sum' : 'sum bad'}, t`${passed} of ${of}`),
      ...exercises.map(it => this.cellOf(row.works.get(it.name), testsOf(it).length, unread.length)),
      element('td', {className: 'note'}, firstOf(row, exercises)));
  }

  cellOf(graded, of, isUnread) {
    if (!graded) return element('td', {title: t`not graded yet`}, '..');
    if (graded.isMissing && isUnread) return element('td', {title: t`it may be in what isn't read`}, '?');
    if (graded.isMissing) return element('td', {title: t`nothing is handed in`}, '\u2013');
    if (graded.refused) return element('td', {className: 'bad', title: graded.refused}, t`not taken`);
    const passed = graded.results.filter(passes).length, luck = luckIn(graded);
    if (luck) return element('td', {className: 'some', title: sentence(luck)}, `${passed}/${of} `, t`luck`);
    return element('td', {className: passed === of ? 'good' : passed ? 'some' : 'bad'}, `${passed}/${of}`);
  }

  showFailed() {
    const failed = mostFailed(this.rows, this.exercises, MOST_TOLD);
    this.parts.failed.replaceChildren(...failed.length ? [element('h3', {}, t`The tests most failed`),
      element('ol', {}, ...failed.map(it => element('li', {}, element('b', {}, it.name),
        t`, by ${it.failed} of ${it.of}: ${it.why}`)))] : []);
  }

  /** The page of a student. */
  showStudent(row, isAsked = false) {
    this.shown = row;
    this.parts.student.parentElement.classList.toggle('alone', !row);
    this.parts.student.replaceChildren(...row ? [element('h3', {}, row.label),
      ...untaken(row, this.exercises).map(it => element('p', {className: 'bad'}, `${it}.`)),
      ...this.exercises.flatMap(it => this.partOf(row, it))] : []);
    if (!isAsked) return;
    this.parts.student.scrollTop = 0;
    this.parts.student.scrollIntoView({block: 'start'});
    this.parts.student.focus({preventScroll: true});
  }

  partOf(row, exercise) {
    const {head, told, lines} = partOf(row.works.get(exercise.name), exercise);
    const numbered = (text, k) => `${String(k + 1).padStart(4)}  ${text}\n`;
    const line = ({text, isMarked}, k) => isMarked ? element('b', {}, numbered(text, k)) : numbered(text, k);
    return [element('h4', {}, head), element('ul', {}, ...told.map(it => element('li', {}, it))),
      ...lines.length ? [element('pre', {tabIndex: 0}, ...lines.map(line))] : []];
  }
}

let classroom;
const isOpen = () => document.body.classList.contains('grading');

/** Shows the part for a teacher. */
export function openClass() {
  classroom ??= new Classroom($('grading'));
  document.body.classList.add('grading');
  $('grading').hidden = false;
  $('grading').querySelector('button').focus();
  return classroom;
}

/** Leaves the part for a teacher, if it is shown. */
export function closeClass() {
  if (!isOpen()) return;
  document.body.classList.remove('grading');
  $('grading').hidden = true;
  if (location.hash === '#grade') history.replaceState(null, '', location.pathname + location.search);
  $('file-menu').querySelector('summary').focus();
}

document.addEventListener('keydown', event => {
  if (isOpen() && event.key === 'Enter' && (event.ctrlKey || event.metaKey)) event.preventDefault(); // it runs nothing
}, true);

document.addEventListener('drop', event => {
  if (!isOpen()) return;
  event.preventDefault();
  event.stopImmediatePropagation();
  classroom.take(droppedOf(event.dataTransfer));
}, true);
