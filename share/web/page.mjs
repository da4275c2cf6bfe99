// The page that a student opens first: an editor with what `check` finds, Run, and the lessons. All of it runs here.
/* global page */
import {$, bytesOf, save, say, textOf} from './dom.mjs';
import {openClass} from './classroom.mjs';
import {newFile, putBack, readFile, removeFile, rename, saveAll, showKept} from './devices.mjs';
import {editor, example, findings, goTo, keepNow, layOut, openAll, openFile, pane, recheck, runs, setLib,
  show, showCourse} from './editing.mjs';
import {Grading} from './exercises.mjs';
import {lookAt} from './looking.mjs';
import {Replacing} from './replacing.mjs';
import {findPattern, ownRules} from './searching.mjs';
import {fillPrinted, link, openLink, printed} from './sharing.mjs';
import {checker, data, files, isNarrow, onWidth, output, store, testing} from './state.mjs';
import {begin, exerciseOf, grade, handIn, hearResult, stopTests} from './trying.mjs';
import {translatePage} from './words.mjs';

const IDLE = 500; // milliseconds after the page is ready
translatePage();
const course = begin(), replacing = new Replacing(editor.cm);

function colours(theme) {
  if (theme) document.documentElement.dataset.theme = theme;
  else delete document.documentElement.dataset.theme;
}

// What the buttons do, by their names.
const ACTS = {
  run: () => runs.run(),
  stop: () => stopTests() || runs.stopped(),
  step: () => runs.step({isWhole: files.program.place === 'asks'}),
  layout: layOut,
  new: newFile,
  open: () => $('chosen').click(),
  save: () => save(files.current.name, [files.current.text]),
  'save-all': saveAll,
  'save-now': saveAll,
  replacing: () => replacing.open(),
  rename,
  'put-back': putBack,
  delete: removeFile,
  find: findPattern,
  'own-rules': ownRules,
  link,
  print: () => printed('program'),
  'print-lesson': () => printed('lesson'),
  'hand-in': handIn,
  'grade-class': openClass,
  'save-output': () => runs.saveOutput(files.program.name),
  'no-more': () => runs.noMore(),
  skip: () => goTo(files.current.name, {line: 1}),
  try: () => grade(exerciseOf(files.current)),
  'course-button': () => showCourse(!document.body.classList.contains('with-course')),
  back() {
    show('program');
    editor.cm.focus();
  },
};

function wire() {
  for (const [id, act] of Object.entries(ACTS)) {
    $(id).addEventListener('click', () => {
      $('file-menu').open = false;
      act();
    });
  }
  for (const it of document.querySelectorAll('.panes button')) it.onclick = () => show(it.dataset.pane);
  $('ask').onsubmit = event => {
    event.preventDefault();
    runs.enter($('answer').value);
  };
  wireOptions();
  wireMenus();
  wireFiles();
  window.addEventListener('beforeprint', fillPrinted);
  window.addEventListener('afterprint', () => delete document.body.dataset.print);
  window.addEventListener('hashchange', () => openLink(course));
  wireKeeping();
}

/** What is typed is kept before the page goes, and what other windows of the page keep is heard. */
function wireKeeping() {
  window.addEventListener('pagehide', keepNow);
  window.addEventListener('beforeunload', event => {
    keepNow();
    if (store.isFull && [...files.all.values()].some(it => it.isAhead)) event.preventDefault();
  });
  document.addEventListener('visibilitychange', () => document.hidden ? keepNow() : files.refresh());
  window.addEventListener('pageshow', ({persisted}) => persisted && files.refresh());
  store.hear((name, text) => {
    const [, kind, key] = /^(\w+):(.*)$/.exec(name) ?? [];
    if (kind === 'file') files.hear(key, text);
    if (kind === 'result') hearResult(key, store.get(name));
  });
}

/** What belongs to a program: its edition and its input. */
function wireOptions() {
  for (const [name, event, part] of [['edition', 'change', 'value'], ['input', 'input', 'value'],
    ['ends', 'change', 'checked']]) {
    $(name).addEventListener(event, () => {
      files.program[name] = $(name)[part];
      files.keep(files.program);
      if (name === 'edition') recheck(0);
    });
  }
}

function wireFiles() {
  $('chosen').onchange = async () => {
    for (const it of $('chosen').files) await readFile(it);
    $('chosen').value = '';
  };
  document.addEventListener('dragover', event => event.preventDefault());
  document.addEventListener('drop', async event => {
    event.preventDefault();
    for (const it of event.dataTransfer?.files ?? []) await readFile(it);
  });
}

/** On a narrow page, what is needed less often stands in the menu. */
function place() {
  const rest = [$('layout'), document.querySelector('.example'), document.querySelector('.theme')];
  if (isNarrow()) $('narrow').append($('look-menu'), ...rest);
  else {
    $('file-menu').before($('look-menu'));
    document.querySelector('.actions').append(rest[0]);
    $('file-menu').after(rest[1], rest[2]);
  }
}

/** Begins the page anew in another language, where the browser keeps what was chosen. */
function speak(language) {
  keepNow();
  if (store.put('language', language)) location.reload();
}

function wireMenus() {
  onWidth(place);
  place();
  $('example').append(...Object.keys(data.examples).map(it => new Option(it)));
  $('example').onchange = () => {
    $('file-menu').open = false;
    openAll([example($('example').value)]);
    $('example').value = '';
  };
  $('theme').value = store.get('theme') ?? '';
  $('theme').onchange = () => {
    store.put('theme', $('theme').value);
    colours($('theme').value);
  };
  $('language').value = store.get('language') ?? '';
  $('language').onchange = () => speak($('language').value);
  $('wraps').checked = store.get('wraps') ?? false;
  $('wraps').onchange = () => store.put('wraps', $('wraps').checked);
  $('file-menu').ontoggle = () => $('file-menu').open && showKept();
  document.addEventListener('click', event => {
    for (const it of menus()) if (!it.contains(event.target)) it.open = false;
  });
  document.addEventListener('keydown', wireKeys);
  for (const it of document.querySelectorAll('[data-look]')) {
    it.onclick = () => {
      for (const menu of menus()) menu.open = false;
      lookAt(it.dataset.look);
    };
  }
  for (const it of document.querySelectorAll('.tab-left')) it.onkeydown = typeOn;
  editor.cm.addKeyMap({'Ctrl-F': () => replacing.open(), 'Cmd-F': () => replacing.open(),
    'Ctrl-H': () => replacing.open(), 'Cmd-Alt-F': () => replacing.open()});
}

const menus = () => document.querySelectorAll('details.menu');

/** A key right after Tab has left the editor is one for the editor. */
function typeOn(event) {
  const isText = event.key.length === 1 && !event.ctrlKey && !event.metaKey && !event.altKey;
  if (!isText && !['Enter', 'Backspace', 'Delete'].includes(event.key) || event.ctrlKey) return;
  event.preventDefault();
  editor.cm.focus();
  if (isText) editor.cm.replaceSelection(event.key);
}

function wireKeys(event) {
  const open = [...menus()].find(it => it.open);
  if (event.key === 'Escape' && open) {
    open.open = false;
    open.querySelector('summary').focus();
  }
  if (event.key === 'Enter' && (event.ctrlKey || event.metaKey) && !event.defaultPrevented && !$('dialog').open) {
    event.preventDefault();
    runs.run();
  }
}

/** Runs some steps beside the page, so that the engine has compiled the machine well before somebody presses Run. */
function warm() {
  const text = 'main() { auto i, j; i = 0; while(i < 10) { j = 0; while(j < 20000) j++; i++; } }';
  checker.ask(['go', 'warm.b'], {files: {'warm.b': bytesOf(text)}});
}

async function start() {
  colours(store.get('theme') ?? '');
  wire();
  const isNew = !files.restore();
  if (isNew) openFile(files.find(example('hello.b')));
  else openFile(files.current);
  showCourse(store.get('with-course') ?? true);
  pane(isNew ? 'course' : 'program');
  performance.mark('shown');
  await openLink(course);
  const ended = await checker.ask(['--version'], {files: {}});
  $('version').textContent = ended.failed ?? textOf(ended.output).split(',')[0];
  performance.mark('ready');
  setTimeout(warm, IDLE);
}

page.started = start();
page.started.catch(it => say(String(it), 'bad'));
// For the script that tries the page.
Object.assign(page, {
  data, files, editor, runs, course, output, setLib, readFile, Grading, openClass,
  open: given => openFile(files.find(given)),
  tester: testing,
  async checked() {
    while (!await findings.update(files.program));
  },
});
