// What a class hands in: folders and archives of students, as they name them, or as Moodle and Canvas give them. A
// student has files, and of those that aren't read it is known why. class/grade reads the same.
import {filesOf, isAdded, isZip} from './unzip.mjs';
import {t} from './words.mjs';

const MOST_NAME = 255; // characters of a name in an archive
const MOST_DEPTH = 20; // of folders and archives, one within the other
const MOST_PACKED = 64 << 20; // bytes of an archive within another one
const MOST_FILES = 20_000; // of an archive, with those in it
const MOST_OF_ALL = 200_000; // of one student, or of the archive of a class
const SOURCE_BYTES = 65536; // the longest hand-in
const OTHER_ARCHIVES = /\.(7z|bz2|gz|rar|tar|tgz|xz|zipx)$/i;
// What a copy adds to the name of a file: a number, the word copy, a second ending.
const COPIED = /[\s_-]{0,3}(\(\d+\)|- ?cop(y|ie)|copy( \d+)?)|-\d+(?=\.b)|\.txt$|\s/gi;
// How Moodle and Canvas name what is handed in: the student, the number of the student, and the file.
const SENT = {moodle: /^(.+?)_(\d+)_assignsubmission_[a-z]+_?(.*)$/is,
  canvas: /^(?=.*\.(?:b|txt|zip)$)(.+?)(?:_LATE)?_(\d+)_\d+_(.+)$/is};

export const isSource = name => /\.b(\.txt)?$/i.test(name);
const baseOf = path => path.slice(path.lastIndexOf('/') + 1);
const plainName = name => name.replace(COPIED, '').toLowerCase();
const isCopy = (name, exercise) => plainName(name) === `${exercise}.b`;
/** The parts of a name that Moodle or Canvas gave, if it is one. */
function sent(name) {
  for (const [by, form] of Object.entries(SENT)) {
    const found = form.exec(name);
    if (found) return {by, name: found[1], number: found[2], file: found[3]};
  }
  return null;
}

/** A source without the mark and the ends of lines that editors of other systems put into it. */
export function plainSource(bytes) {
  const starts = marks => marks.every((it, k) => bytes[k] === it);
  const coding = starts([0xff, 0xfe]) ? 'utf-16le' : starts([0xfe, 0xff]) ? 'utf-16be' : 'utf-8';
  return new TextDecoder(coding).decode(bytes).replace(/\r\n?/g, '\n');
}

/**
 * What is read of the files that were dropped, archives within archives too. An item has `items`, a file, or `why`.
 * What isn't read doesn't count, so no archive takes the room of another one.
 */
class Reading {
  constructor() {
    this.count = this.size = 0;
    this.most = MOST_OF_ALL;
  }

  counted() {
    const most = this.most < MOST_OF_ALL ? MOST_FILES : MOST_OF_ALL;
    if (++this.count > this.most) throw new Error(t`it has more than ${most} files`);
  }

  async item(name, file, depth = 0) {
    this.counted();
    if (isZip(name)) return this.archive(name, file, depth);
    const why = OTHER_ARCHIVES.test(name) ? t`it is an archive, and no zip` : file.fault;
    return {name: name.normalize('NFC'), file, why};
  }

  async archive(name, file, depth) {
    const {count, size, most} = this;
    this.most = file instanceof Blob ? most : Math.min(most, count + MOST_FILES);
    try {
      if (depth > MOST_DEPTH) throw new Error(t`it lies too deep`);
      const blob = file instanceof Blob ? file : await this.blobOf(file);
      return {name: name.normalize('NFC'), items: await this.itemsOf(blob, depth)};
    } catch (it) {
      Object.assign(this, {count, size});
      return {name: name.normalize('NFC'), why: it.message};
    } finally {
      this.most = most;
    }
  }

  async blobOf(file) {
    this.size += file.size;
    if (this.size > 8 * MOST_PACKED) throw new Error(t`it has more bytes than are read here, or those before it have`);
    return new Blob([await file.bytes(MOST_PACKED)]);
  }

  /** What lies at the top of an archive, with all that is in it. */
  async itemsOf(blob, depth) {
    const top = {items: []}, folders = new Map([['', top]]);
    for (const file of await filesOf(blob, true)) {
      const parts = file.name.split('/'), name = parts.at(-1).slice(-MOST_NAME);
      const isDeep = depth + parts.length > MOST_DEPTH || parts.some(it => it.length > MOST_NAME);
      if (file.isFolder) {
        this.counted();
        if (!isDeep && !parts.includes('..')) folderIn(folders, parts);
        continue;
      }
      if (isDeep) file.fault = t`its name leads out of the archive, or too deep into it`;
      const folder = folderIn(folders, isDeep ? ['..'] : parts.slice(0, -1));
      folder.items.push(await this.item(name, file, depth + parts.length));
    }
    return top.items;
  }
}

/** The folder of a path, which is made where it isn't there. */
function folderIn(folders, parts) {
  const path = parts.join('/');
  if (!folders.has(path)) {
    const made = {name: parts.at(-1).normalize('NFC'), items: []};
    folders.set(path, made);
    folderIn(folders, parts.slice(0, -1)).items.push(made);
  }
  return folders.get(path);
}

/** A student: the name, the number that Moodle or Canvas gives, and the files, each with its depth and its path. */
class Student {
  constructor(name, {by = '', number = '', folder = '', isFile = false} = {}) {
    Object.assign(this, {name, by, number, folder, isFile, files: []});
  }

  add(item, path = '', depth = 0) {
    if (!item.items) this.files.push({depth, path: path || item.name, ...item});
    for (const it of item.items ?? []) this.add(it, path ? `${path}/${it.name}` : it.name, depth + 1);
  }

  hasWork(exercise) { return this.files.some(it => isCopy(baseOf(it.path), exercise)); }

  /** The file of an exercise: the one nearest to the top, by its name before that of a copy. Throws where two are. */
  fileOf(exercise) {
    const alike = this.files.filter(it => isCopy(baseOf(it.path), exercise));
    const own = alike.filter(it => baseOf(it.path) === `${exercise}.b`), found = own.length ? own : alike;
    const nearest = found.filter(it => it.depth === Math.min(...found.map(one => one.depth)));
    if (nearest.length < 2) return nearest[0] ?? null;
    throw new Error(t`several files could be ${exercise}.b: ${nearest.map(it => it.path).join(', ')}`);
  }

  /** The source of an exercise, or nothing where none is handed in. Throws where it can't be taken. */
  async sourceOf(exercise) {
    const found = this.isFile && this.exercise === exercise ? this.files[0] : this.fileOf(exercise);
    if (!found) return null;
    if (found.why) throw new Error(found.why);
    const {file} = found;
    if (file.size > SOURCE_BYTES) throw new Error(t`the file has more than ${SOURCE_BYTES} bytes`);
    return plainSource(new Uint8Array(await file.arrayBuffer()));
  }

  /** What isn't read: an archive, in which something may be handed in, or a file of which nobody said what it is. */
  get unread() {
    if (this.isFile && !this.exercise) return [t`${this.files[0].path} isn't read: its exercise isn't chosen yet`];
    return this.files.filter(it => it.why && !isSource(it.path)).map(it => t`${it.path} isn't read: ${it.why}`);
  }

  /** The names of files of another kind, such as power.docx. */
  get others() { return this.files.filter(it => !it.why && !isSource(it.path)).map(it => baseOf(it.path)); }
}

function worksIn(item, exercises) {
  const plain = plainName(item.name);
  if (!item.items) return exercises.filter(it => `${it}.b` === plain);
  return [...new Set(item.items.flatMap(it => worksIn(it, exercises)))];
}

const hasOwn = ({items}, exercises) => items.some(it => !it.items && worksIn(it, exercises).length > 0);

/** Whether a folder is one of several students: two folders in it have one exercise, or one is a class by itself. */
function isClass(item, exercises) {
  if (!item.items?.length || sent(item.name)) return false;
  if (item.items.some(it => sent(it.name) || isClass(it, exercises))) return true;
  const within = item.items.flatMap(it => worksIn(it, exercises));
  return !hasOwn(item, exercises) && new Set(within).size < within.length;
}

/** Puts the students of a class into a table. Those of one name stay apart. */
function putStudents(students, items, exercises) {
  for (const item of items) {
    const parts = sent(item.name), key = parts && `${parts.name}/${parts.number}`;
    if (isClass(item, exercises)) putStudents(students, item.items, exercises);
    else if (parts) {
      const folder = item.items && !isZip(item.name) ? item.name : '';
      if (!students.has(key)) students.set(key, new Student(parts.name, {...parts, folder}));
      students.get(key).add(item, item.items ? '' : parts.file);
    } else {
      const name = item.name.replace(/\.b(\.txt)?$|\.zip$/i, ''), isFile = !item.items && isSource(item.name);
      const student = new Student(name, {isFile: isFile && !exercises.some(it => isCopy(item.name, it))});
      student.add(item);
      students.set(students.size, student);
    }
  }
}

/** What was dropped alone is the folder of a class. In an archive all may lie in a folder of its own. */
function withinAlone(items, exercises) {
  let isArchive = false;
  for (let k = 0; k < 2; k++) {
    const [only] = items;
    if (k && !isArchive) break;
    isArchive = isZip(only?.name ?? '');
    if (items.length > 1 || !only?.items?.length || sent(only.name) || hasOwn(only, exercises)) break;
    items = only.items;
  }
  return items;
}

const byName = (a, b) => a.name < b.name ? -1 : a.name > b.name ? 1 : 0;

/** A folder or a file that was dropped, as an item. `children(folder)` gives what is in a folder. */
async function dropped(reading, entry, depth = 0) {
  if (entry.file) return reading.item(entry.name, entry.file, depth);
  const items = [];
  if (depth > MOST_DEPTH) return {name: entry.name, why: t`it lies too deep`};
  const within = (await entry.entries()).filter(it => !isAdded(it.name)).sort(byName);
  for (const it of within) items.push(await dropped(reading, it, depth + 1));
  return {name: entry.name.normalize('NFC'), items};
}

/** Students by their names, without marks on letters, and those of one name by their numbers. */
function inOrder(students) {
  const plain = name => name.normalize('NFD').replace(/\p{M}/gu, '').toLowerCase();
  const keyed = students.map(it => ({name: plain(it.name), number: Number(it.number), it}));
  return keyed.sort((a, b) => byName(a, b) || a.number - b.number).map(({it}) => it);
}

/** The students of what was dropped: entries with a name and a file, or with `entries()`, which gives those within. */
export async function studentsOf(entries, exercises) {
  const items = [], students = new Map();
  for (const entry of entries.filter(it => !isAdded(it.name))) {
    try {
      items.push(await dropped(new Reading(), entry));
    } catch (it) {
      items.push({name: entry.name, why: it.message});
    }
  }
  putStudents(students, withinAlone(items.sort(byName), exercises), exercises);
  return inOrder([...students.values()]);
}
