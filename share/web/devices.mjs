// The menu of files: new ones, files from the device and to it, and all of them as one archive.
import {$, button, element, save, say} from './dom.mjs';
import {zip} from './archive.mjs';
import {askName, dialog} from './dialogs.mjs';
import {closeFile, editor, keepNow, openAll, openFile, retext} from './editing.mjs';
import {File, isCode, isName} from './files.mjs';
import {data, files, store} from './state.mjs';
import {exerciseOf, hearResult, startOf} from './trying.mjs';
import {filesOf, isZip} from './unzip.mjs';
import {t} from './words.mjs';

const MOST_BYTES = 4 << 20; // of a file that is opened
const MOST_FILES = 1000; // of an archive
const FOLDER = 'b-files', LIST = 'files.json'; // in the archive of all files: what is known of each, beside its text
const OPTIONS = ['edition', 'libs', 'input', 'ends']; // of a file, beside its text
const SOURCE = /\.(b|code|bt|txt)$/i;
const COPIED = /[\s_-]*(\(\d+\)|- ?cop(y|ie)|copy( \d+)?)$/i; // what a copy adds to the name of a file

export async function newFile() {
  const name = await askName(t`New file`, files.freeName('prog.b'));
  if (!name) return;
  const given = givenFor(name);
  if (here(given)) say(t`${name} was there already.`);
  openAll([given]);
  editor.cm.focus();
}

export async function rename() {
  const file = files.current, name = await askName(t`Rename ${file.name}`, file.name);
  if (!name || name === file.name) return;
  const given = {place: '', base: null, ...givenFor(name)}, libs = new Set([...given.libs ?? [], ...file.libs]);
  if (here(given)) return say(t`There is a file ${name} already.`, 'bad');
  keepNow();
  const made = new File({...file, ...given, text: file.text, libs: [...libs]});
  files.all.set(made.key, made);
  files.open = files.open.map(it => it === file ? made : it);
  editor.forget(file);
  if (!exerciseOf(file)) files.remove(file);
  if (files.program === file) files.program = made;
  openFile(made);
}

/** Puts a program of a lesson or an example back as it stands there. */
export function putBack() {
  editor.put(files.current.base);
  say(t`${files.current.name} is as it was.`);
}

export async function removeFile() {
  const file = files.current, gone = element('p', {}, t`It is gone from this browser then.`);
  if (!await dialog(t`Delete ${file.name}?`, t`Delete`, gone)) return;
  file.base = file.text;
  closeFile(file);
}

/** A name for a file from elsewhere. */
export function nameFrom(name) {
  if (isCode(name)) return `${plainName(name.replace(/\.code$/, ''))}.code`;
  return `${plainName(name.replace(/(\.(b|txt|bt|c))+$/i, '').replace(COPIED, ''))}.b`;
}

const plainName = stem => stem.replace(/[^\w.-]/g, '_').replace(/^[.-]+/, '').slice(0, 50) || 'prog';

/** Opens a file of the device: a source, a code, or an archive of them. */
export async function readFile(chosen) {
  try {
    if (isZip(chosen.name)) return await readArchive(chosen);
    const text = await textIn(chosen);
    await takeIn([givenOf(chosen.name, text)]);
    return say(text.includes('\r\n')
      ? t`${chosen.name}: its lines end as usual here now, without carriage returns.` : '');
  } catch (it) {
    return say(t`${chosen.name} isn't opened: ${it.message}.`, 'bad');
  }
}

async function textIn(file) {
  if (file.size > MOST_BYTES) throw new Error(t`it has more than ${MOST_BYTES >> 20} MB`);
  const bytes = await file.arrayBuffer();
  try {
    return new TextDecoder('utf-8', {fatal: true}).decode(bytes);
  } catch {
    throw new Error(t`it has bytes that are no text in UTF-8`);
  }
}

/** What is known of a file in an archive of this page, as far as it has the right form. */
function knownOf({place, name, base, edition, libs, input, ends} = {}) {
  const isText = it => typeof it === 'string';
  if (!isText(name) || !isName(name) || !/^[\w.-]*$/.test(place)) return null;
  return {place, name, base: isText(base) ? base : null, edition: edition === '2' ? '2' : '1', ends: ends === true,
    libs: Array.isArray(libs) ? libs.filter(isText).slice(0, MOST_FILES) : [], input: isText(input) ? input : ''};
}

/** A file of a name, as it begins: an exercise, where one has this name, or a file of one's own. */
function givenFor(name) {
  const exercise = data.exercises.find(it => `${it.name}.b` === name);
  return exercise ? startOf(exercise) : {name};
}

/** What is opened of a source from elsewhere. */
function givenOf(path, text, kept) {
  const name = nameFrom(path.split('/').at(-1));
  return {...knownOf(kept) ?? givenFor(name), text: text.replaceAll('\r\n', '\n')};
}

async function readArchive(archive) {
  const found = (await filesOf(archive)).slice(0, MOST_FILES);
  const list = found.find(it => it.name.endsWith(`/${LIST}`)), told = list ? JSON.parse(await textIn(list)) : {};
  const given = [], wrong = [];
  for (const it of found.filter(one => SOURCE.test(one.name))) {
    try {
      given.push(givenOf(it.name, await textIn(it), told.files?.[it.name]));
    } catch (fault) {
      wrong.push(t`${it.name} isn't opened: ${fault.message}.`);
    }
  }
  await takeIn(given);
  for (const [name, result] of Object.entries(told.results ?? {})) hearResult(name, result);
  say([t`Opened: ${given.map(it => it.name).join(', ') || '-'}.`, ...wrong].join(' '), wrong.length ? 'bad' : 'good');
}

const here = given => files.all.get(new File(given).key);
const differs = given => here(given)?.isChanged && here(given).text !== given.text;

/** Opens files from elsewhere. Where an exercise or a lesson has another text here, the person is asked which stays. */
async function takeIn(given) {
  const both = given.filter(it => it.place && differs(it));
  const rows = both.map(it => element('li', {}, it.name));
  const isYes = both.length > 0 && await dialog(t`Put them in place of what is here?`, t`Put them in place`,
    element('ul', {}, ...rows), element('p', {}, t`What is here now is kept under another name then.`, ' ',
      t`Cancel opens them under another name.`));
  for (const it of given) takeOne(it, isYes);
}

function takeOne(given, isYes) {
  const file = here(given);
  if (!file) return openAll([given]);
  if (differs(given)) {
    if (!given.place || !isYes) return openAll([{...given, place: '', base: null, name: files.freeName(given.name)}]);
    copyOf(file);
  }
  for (const part of OPTIONS) if (part in given) file[part] = given[part];
  retext(file, given.text);
  return openFile(file);
}

/** A copy of a file under another name, as a file of one's own. */
export function copyOf(file) {
  const copy = files.find({...file.toJSON(), place: '', base: null, name: files.freeName(file.name)});
  files.write(copy);
  return copy;
}

/** Whether a file is as another one would be, under its name or under that with a number. */
const isLike = (file, other) => [file.name, file.name.replace(/-\d+(?=\.\w+$)/, '')].includes(other.name)
  && ['text', ...OPTIONS].every(it => String(file[it]) === String(other[it]));

/** Opens a text as a file, under another name where one of the person's has this one and differs; the name it has. */
export function addFile(name, text, options = {}) {
  const made = new File({...givenFor(name), text, ...options}), free = files.freeName(name);
  const there = [...files.all.values()].find(it => it.isOwn && isLike(it, made));
  openAll([there ?? (free === name ? made : {name: free, text, ...options})]);
  return files.current.name;
}

/** Gives the device one archive with all that was written. It opens here again, as it was, and anywhere as texts. */
export function saveAll() {
  keepNow();
  const all = [...files.all.values()].filter(it => it.isChanged);
  const paths = all.map(it => [FOLDER, ...it.place ? [it.place] : [], it.name].join('/'));
  const known = all.map((it, k) => [paths[k], {...it.toJSON(), text: undefined}]);
  const results = store.names('result:').map(it => [it.slice('result:'.length), store.get(it)]);
  const list = JSON.stringify({files: Object.fromEntries(known), results: Object.fromEntries(results)});
  const name = `${FOLDER}-${new Date().toISOString().slice(0, 10)}.zip`;
  save(name, zip([...all.map((it, k) => [paths[k], it.text]), [`${FOLDER}/${LIST}`, list]]));
  say(t`${name} has ${all.length} files. Open it here, or on another device.`, 'good');
}

export function showKept() {
  const kept = [...files.all.values()].filter(it => it.isChanged && !files.open.includes(it));
  const title = it => it.place ? `${it.name} (${it.place.replace('-', ' ')})` : it.name;
  $('kept').replaceChildren(...kept.map(it => button(title(it), () => {
    $('file-menu').open = false;
    openFile(it);
  })));
  if (!kept.length) $('kept').append(element('p', {}, t`No others.`));
  $('put-back').hidden = files.current.base === null || !files.current.isChanged;
}
