// Links that hold a program, and what is printed.
import {$, element, say} from './dom.mjs';
import {addFile, nameFrom} from './devices.mjs';
import {closeClass, openClass} from './classroom.mjs';
import {openAll, pane, show, showCourse} from './editing.mjs';
import {packed, unpacked} from './link.mjs';
import {data, files} from './state.mjs';
import {t} from './words.mjs';

/** The names among those of With that a file of the library or of the program has. */
const existing = (libs, names) => libs.filter(it => Object.hasOwn(data.libs, it) || names.includes(it));

export async function link() {
  const {program} = files, {libs, edition, input, ends} = program;
  const all = [program, ...files.withs(program)].map(it => [it.name, it.text]);
  const there = existing(libs, all.map(([name]) => name));
  const fragment = await packed({files: all, libs: there, edition, input, ends});
  history.replaceState(null, '', `#${fragment}`);
  const isCopied = await navigator.clipboard?.writeText(location.href).then(() => true, () => false);
  const {length} = location.href;
  say(isCopied ? t`The link is in the address line, and copied: ${length} characters.`
    : t`The link is in the address line: ${length} characters.`, 'good');
}

/** Opens the program of the fragment, if there is one. */
export async function openLink(course) {
  const fragment = location.hash.slice(1);
  if (!fragment) return false;
  if (fragment === 'grade') {
    openClass();
    return true;
  }
  closeClass();
  show('program');
  if (data.chapters.some(it => it.name === fragment)) {
    showCourse(true);
    course.show(fragment, true);
    pane('course');
    return true;
  }
  try {
    const program = await unpacked(fragment);
    if (!program) throw new Error(t`it has another form`);
    const [[name, text], ...more] = program.files, {edition, input, ends} = program;
    const names = new Map(more.map(([other, its]) => [other, addFile(nameFrom(other), its)]));
    const libs = existing(program.libs.map(it => names.get(it) ?? it), [...names.values()]);
    const its = addFile(nameFrom(name), text, {edition, libs, input, ends: ends === true});
    say(t`${its} is from the link.`);
  } catch (it) {
    openAll([{name: files.freeName('prog.b')}]);
    say(t`This link holds no program: ${it.message}. Here is an empty file.`, 'bad');
  }
  history.replaceState(null, '', location.pathname + location.search);
  return true;
}

/** Prints the program with its output, or the lesson. */
export function printed(what) {
  document.body.dataset.print = what;
  print();
}

export function fillPrinted() {
  const {program} = files, texts = [program, ...files.withs(program)].map(it => [it.name, it.text]);
  const line = (text, k) => `${String(k + 1).padStart(4)}  ${text}`;
  const lines = text => text.replace(/\n$/, '').split('\n').map(line).join('\n');
  const parts = texts.flatMap(([name, text]) => [element('h2', {}, name), element('pre', {}, lines(text))]);
  const wrote = $('out').textContent;
  if (wrote) parts.push(element('h2', {}, t`Output`), element('pre', {}, wrote));
  $('printed').replaceChildren(...parts);
}
