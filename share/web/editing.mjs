// The editor with its tabs, the options of the program, what is found while one types, and the runs.
import {$, button, bytesOf, element, say, textOf} from './dom.mjs';
import {copyOf, newFile} from './devices.mjs';
import {dialog} from './dialogs.mjs';
import {Editor} from './editor.mjs';
import {isCode, optionsIn, withOptions} from './files.mjs';
import {Findings} from './findings.mjs';
import {check, programOf} from './programs.mjs';
import {Runs} from './runs.mjs';
import {checker, data, files, isNarrow, output, runner, store} from './state.mjs';
import {Names} from './naming.mjs';
import {exerciseOf, typedInto} from './trying.mjs';
import {t} from './words.mjs';

const BOXES = ['print', 'strings', 'input', 'vectors', 'numbers'];
const MOST_BOXES = 3; // of open files that aren't ticked, beside those that a press shows
const WAIT = 250; // milliseconds after a key, before the program is checked
const KEEPING = 400; // and before it is kept

/** Which part of the page is shown where there is room for one. */
export function pane(name) {
  document.body.dataset.pane = name;
  const buttons = document.querySelectorAll('.panes button');
  for (const it of buttons) it.setAttribute('aria-current', it.dataset.pane === name);
  if (name !== 'course') editor.cm.refresh();
}

export function show(what) {
  const isSteps = what === 'steps';
  document.body.classList.toggle('stepping', isSteps);
  $('steps').hidden = !isSteps;
  if (!isSteps) runs.walk.close();
  pane(isSteps ? 'steps' : what);
}

export function showCourse(is) {
  document.body.classList.toggle('with-course', is);
  $('course-button').setAttribute('aria-expanded', is);
  store.put('with-course', is);
  editor.cm.refresh();
}

function tab(file) {
  const isCurrent = file === files.current;
  const place = file.place && ` (${file.place.replace('-', ' ')})`;
  const open = button(file.name, () => openFile(file), {title: file.name + place});
  open.setAttribute('aria-current', isCurrent);
  const close = button('\u00d7', () => closeFile(file), {title: t`Closes ${file.name}`});
  close.setAttribute('aria-label', t`Close ${file.name}`);
  return element('span', {className: isCurrent ? 'tab current' : 'tab'}, open, close);
}

const seeTab = () => $('tabs').querySelector('.current')?.scrollIntoView({block: 'nearest', inline: 'nearest'});
new ResizeObserver(seeTab).observe($('tabs'));

function showTabs() {
  const add = button('+', newFile, {title: t`New file`, className: 'add'});
  add.setAttribute('aria-label', t`New file`);
  $('tabs').replaceChildren(...files.open.map(tab), add);
  $('try').hidden = !exerciseOf(files.current);
  seeTab();
  document.title = `${files.program.name} - ${t`B of 1972`}`;
  $('run').title = t`Runs ${files.program.name} (Ctrl+Enter)`;
}

/** The box of a file that may come after the program. */
function boxOf(name) {
  const box = element('input', {type: 'checkbox', checked: files.program.libs.includes(name)});
  box.onchange = () => setLib(name, box.checked);
  return element('label', {}, box, ` ${name}`);
}

function showOptions() {
  const program = files.program;
  $('options').hidden = isCode(program.name);
  $('edition').value = program.edition;
  const names = [...files.beside(program).map(it => it.name), ...BOXES, ...program.libs];
  const others = names.filter(it => !BOXES.includes(it) && !program.libs.includes(it)).slice(MOST_BOXES);
  const boxes = [...new Set(names)].filter(it => !others.includes(it)).map(boxOf);
  const more = element('details', {}, element('summary', {}, t`${others.length} more`), ...others.map(boxOf));
  $('libs').replaceChildren(element('legend', {}, t`With`), ...boxes, ...others.length ? [more] : []);
  $('input').value = program.input;
  $('ends').checked = program.ends;
}

export function setLib(name, is) {
  const {program} = files;
  program.libs = is ? [...program.libs, name] : program.libs.filter(it => it !== name);
  if (optionsIn(program.text) || is && lacksIn(exerciseOf(program), name)) {
    const {libs} = program;
    retext(program, withOptions(program.text, program));
    program.libs = libs;
  }
  files.keep(program);
  recheck(0);
}

/** Whether the tests of an exercise take a file of the library only where the first line of the hand-in names it. */
function lacksIn(exercise, name) {
  return exercise && name in data.libs && !exercise.taught.includes(name) && !(`${name}.b` in exercise.libs);
}

/** Puts another text into a file, shown or not. */
export function retext(file, text) {
  const told = optionsIn(text);
  Object.assign(file, {text}, told && {edition: told.edition ?? file.edition, libs: told.libs});
  editor.follow(file);
  typedInto(file);
  files.keep(file);
}

/** Shows a file of its own, its options, and what is found in it. */
export function openFile(file) {
  files.show(file);
  editor.show(file);
  showTabs();
  showOptions();
  recheck(0);
}

// ---- What other windows of the page change

files.heard = file => {
  editor.follow(file);
  if (file === files.program) showOptions();
  recheck();
};

let isAsking = false;
/** Two windows have changed a file: which text stays? The other one is kept under another name. */
files.differs = async (file, other) => {
  if (isAsking) return;
  isAsking = true;
  const copy = copyOf(file);
  const isYes = await dialog(t`${file.name} was changed in another window, too`, t`Keep the text of this window`,
    element('p', {}, t`The other window has another text.`, ' ', t`Cancel takes that one.`, ' ',
      t`The one that goes is kept as ${copy.name}.`));
  isAsking = false;
  if (isYes) {
    copy.text = other.text;
    files.write(copy);
    files.write(file);
  } else {
    retextFrom(file, other);
  }
  say(t`The other text is in ${copy.name}.`);
};

function retextFrom(file, other) {
  Object.assign(file, other.toJSON());
  files.write(file);
  files.heard(file);
}

/** Opens files, the last one shown. What a chapter or an example opened before goes where nobody has changed it. */
export function openAll(given) {
  for (const it of given) openFile(files.find(it));
  const isDone = it => it.place !== files.current.place && it.base !== null && !it.isChanged;
  for (const it of files.open.filter(isDone)) {
    editor.forget(it);
    files.close(it);
  }
  showTabs();
  showOptions();
  if (isNarrow()) pane('program');
}

export function closeFile(file) {
  editor.forget(file);
  files.close(file);
  openFile(files.current ?? files.find(example('hello.b')));
  editor.cm.focus();
}

/** A program of examples/, as a file. */
export const example = name => ({place: 'examples', name, text: data.examples[name], base: data.examples[name],
  edition: /edition 2 of the language/.test(data.examples[name]) ? '2' : '1'});

// ---- Typing, and what is found

let timer, keeping, typed;
/** Keeps what was typed last. */
export function keepNow() {
  clearTimeout(keeping);
  if (typed) files.keep(typed);
  typed = null;
}

export function recheck(wait = WAIT) {
  clearTimeout(timer);
  timer = setTimeout(() => findings.update(files.program), wait);
}

function changed(change) {
  if (['setValue', 'follow'].includes(change.origin)) return;
  const file = files.current;
  file.text = editor.text;
  if (typed !== file) keepNow();
  typed = file;
  clearTimeout(keeping);
  keeping = setTimeout(keepNow, KEEPING);
  typedInto(file);
  if (change.from.line === 0) takeOptions(file);
  recheck();
}

/** Options in the first line of a program are those of the boxes. */
function takeOptions(file) {
  const told = file === files.program && optionsIn(file.text);
  if (!told) return;
  file.edition = told.edition ?? file.edition;
  file.libs = told.libs;
  showOptions();
}

export const names = new Names(data.words, data.libs);

export const findings = new Findings({
  check,
  apply(edit, file) {
    if (file !== files.current) openFile(file);
    const after = file.text.length - edit.to;
    if (edit.text !== undefined) editor.edit(edit);
    if (edit.lib && !file.libs.includes(edit.lib)) {
      setLib(edit.lib, true);
      showOptions();
    }
    editor.goToIndex(file.text.length - after);
    recheck(0);
  },
  go: it => goTo(it.file, it),
  found: found => editor.mark(found.filter(it => it.file === files.current.name)),
});

export function goTo(name, place) {
  const file = [files.program, ...files.withs(files.program)].find(it => it.name === name);
  if (!file) return;
  if (file !== files.current) openFile(file);
  pane('program');
  editor.go(place);
}

export const editor = new Editor($('editor'), data.words, {
  changed, run: () => runs.run(), names,
  use(lib) {
    if (files.current === files.program && !files.program.libs.includes(lib)) {
      setLib(lib, true);
      showOptions();
    }
  },
});

export const runs = new Runs({
  machine: runner, output, editor, show, program: () => programOf(files.program),
  care: () => store.get('wraps') ? '--careful=wraps' : '--careful',
  faults() {
    recheck(0);
    if (isNarrow()) pane('program');
  },
  forMain() {
    const [first] = names.functions(files.program.text);
    return first ? [button(t`Write a main that calls ${first.name}`, () => writeMain(first))] : [];
  },
  stopAt(name, line) {
    const file = [files.program, ...files.withs(files.program)].find(it => it.name === name);
    if (file && file !== files.current) openFile(file);
    if (file) editor.markStop(line);
  },
  docOf(name, isShown) {
    const file = [files.program, ...files.withs(files.program)].find(it => it.name === name);
    if (file && isShown && file !== files.current) openFile(file);
    return editor.docs.get(file);
  },
});

/** Puts a function main after the program that calls a function, with a number for each parameter. */
function writeMain({name, parameters}) {
  const {program} = files, given = parameters.map((_, k) => k + 1).join(', ');
  const main = `\nmain() {\n    printn(${name}(${given}), 10);\n    putchar('*n');\n}\n`;
  if (program !== files.current) openFile(program);
  retext(program, `${program.text.trimEnd()}\n${main}`);
  recheck(0);
  editor.go({line: editor.cm.lineCount() - 3, column: 12});
  say(t`Change the numbers, and run it.`);
}

export async function layOut() {
  const file = files.current;
  if (isCode(file.name)) return say(t`A code text has one item on each line.`);
  const words = ['format', `--edition=${file.edition}`, file.name];
  const ended = await checker.ask(words, {files: {[file.name]: bytesOf(file.text)}});
  if (ended.status !== 0) {
    recheck(0);
    return say(t`A program with a fault isn't laid out.`, 'bad');
  }
  const text = textOf(ended.output), isSame = text === file.text;
  if (!isSame) editor.put(text);
  return say(isSame ? t`${file.name} is laid out already.` : t`${file.name} is laid out.`, 'good');
}
