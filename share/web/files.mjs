// The files of a person: those that are open, the one that is shown, and the program that Run runs.
// A file has a key, which is its place and its name: a lesson and an exercise may have files of one name.

const NAME = /^[A-Za-z0-9_][\w.-]*\.(?:b|code)$/;
export const MOST_LIBS = 20; // names that may come after a program
const OPTIONS = /^\/\* b:((?: --(?:edition [12]|with [\w./-]+))+) \*\//;
const UNREAD = /^\s*\/\*\s*b:.*--\w/; // what looks like them

export const isName = name => NAME.test(name) && name.length <= 60;
export const isCode = name => name.endsWith('.code');

/** The options that a comment in the first line of a source tells, as editors read it. */
export function optionsIn(text) {
  const given = OPTIONS.exec(text), options = {edition: null, libs: []};
  const words = given ? given[1].trim().split(' ') : [];
  for (let k = 0; k < words.length; k += 2) {
    if (words[k] === '--edition') options.edition = words[k + 1];
    else if (options.libs.length < MOST_LIBS) options.libs.push(words[k + 1].replace(/^\.\//, ''));
  }
  return given && options;
}

/** Where a source has options that nobody reads: in another line than the first one, or in another form. */
export function unreadOptions(text) {
  const isUnread = (line, k) => UNREAD.test(line) && (k > 0 || !OPTIONS.test(line));
  const at = text.split('\n').findIndex(isUnread);
  return at < 0 ? null : {line: at + 1, isFirst: at === 0};
}

/** A source with these options in its first line. */
export function withOptions(text, {edition, libs}) {
  const told = `${edition === '2' ? ' --edition 2' : ''}${libs.map(it => ` --with ${it}`).join('')}`;
  const rest = text.replace(OPTIONS, '').replace(text.match(OPTIONS) ? /^\n/ : '', '');
  return told ? `/* b:${told} */\n${rest}` : rest;
}

const KEPT = ['place', 'name', 'text', 'base', 'edition', 'libs', 'input', 'ends'];

export class File {
  constructor({place = '', name, text = '', base = null, edition = '1', libs = [], input = '', ends = false}) {
    Object.assign(this, {place, name, text, base, edition, libs, input, ends});
    const told = optionsIn(text);
    if (told) Object.assign(this, {edition: told.edition ?? edition, libs: told.libs});
  }

  get key() { return `${this.place}/${this.name}`; }
  get isChanged() { return this.text !== this.base; }
  get isOwn() { return this.place === '' || this.place === 'exercise' || this.isChanged; }

  toJSON() { return Object.fromEntries(KEPT.map(it => [it, this[it]])); }

  /** What is kept of this file in the browser is as it is here. */
  meets(kept) {
    this.kept = kept;
    this.met = JSON.stringify(this);
  }

  /** Whether something here isn't kept yet. */
  get isAhead() { return this.met ? JSON.stringify(this) !== this.met : this.isChanged; }

  /** Whether what is kept is what this window knows: what it saw, or wrote itself. */
  knows(kept) { return kept === (this.kept ?? null) || kept === this.written; }
}

/** A file of what is kept; nothing where that is no file. */
function fileOf(kept) {
  let told;
  try { told = JSON.parse(kept); } catch { return null; }
  if (typeof told?.text !== 'string' || !isName(told.name ?? '')) return null;
  return new File({...told, libs: Array.isArray(told.libs) ? told.libs.slice(0, MOST_LIBS) : []});
}

export class Files {
  /** `heard(file)` is called where another window of the page has changed a file, `differs` where both have. */
  constructor(store) {
    this.store = store;
    this.all = new Map();
    this.open = [];
    this.current = this.program = null;
    this.heard = this.differs = () => {};
    for (const name of store.names('file:')) this.take(store.text(name));
  }

  take(kept) {
    const file = fileOf(kept);
    if (!file) return;
    this.all.set(file.key, file);
    file.meets(kept);
  }

  /** What another window of the page has kept of a file. */
  hear(key, kept) {
    const file = this.all.get(key);
    if (!file) this.take(kept);
    else if (!file.isAhead) this.follow(file, kept);
  }

  /** Takes what another window has kept, where nothing was changed here. */
  follow(file, kept) {
    const newer = fileOf(kept);
    if (!newer && !this.open.includes(file)) this.all.delete(file.key);
    if (!newer || kept === file.kept) return;
    Object.assign(file, newer.toJSON());
    file.meets(kept);
    this.heard(file);
  }

  /** Opens again what was open. */
  restore() {
    const {open = [], current} = this.store.get('open') ?? {};
    this.open = open.map(key => this.all.get(key)).filter(Boolean);
    if (this.open.length) this.show(this.all.get(current) ?? this.open[0]);
    return this.open.length > 0;
  }

  /** The file with this place and name, as it was left, or else as it is given here. */
  find(given) {
    const key = new File(given).key;
    if (!this.all.has(key)) this.all.set(key, new File(given));
    return this.all.get(key);
  }

  /** Shows a file. The program stays the one before where that takes this file in, and else is this file. */
  show(file) {
    if (!this.open.includes(file)) this.open.push(file);
    this.current = file;
    if (!this.program || !this.withs(this.program).includes(file)) this.program = file;
    this.keep(file);
  }

  /** What other windows have kept, where none of them could tell it. */
  refresh() {
    for (const name of this.store.names('file:')) this.hear(name.slice('file:'.length), this.store.text(name));
  }

  close(file) {
    this.hear(file.key, this.store.text(`file:${file.key}`));
    const at = this.open.indexOf(file);
    this.open = this.open.filter(it => it !== file);
    if (!file.isChanged) this.remove(file);
    if (this.program === file) this.program = null;
    if (this.current === file) this.current = this.open[Math.max(0, at - 1)] ?? null;
    if (this.current) this.show(this.current);
    this.keepOpen();
  }

  remove(file) {
    this.all.delete(file.key);
    this.store.drop(`file:${file.key}`);
  }

  /** The other files that come after a program, and no name of the library. */
  withs(program) {
    return program.libs.map(name => this.known(program, name)).filter(Boolean);
  }

  /** The file that a name means for a program: one that is open, one of its place, or one of the person's own. */
  known(program, name) {
    const open = this.open.find(it => it !== program && it.name === name);
    const found = open ?? this.all.get(`${program.place}/${name}`) ?? this.all.get(`/${name}`);
    return found === program ? null : found;
  }

  /** What may come after a program: open files of its place and those that are a person's own, each name once. */
  beside(program) {
    const names = new Set([program.name]), places = new Set([program.place, '', 'exercise']);
    places.delete('examples');
    const sources = this.open.filter(it => places.has(it.place) && !isCode(it.name));
    return sources.filter(it => !names.has(it.name) && names.add(it.name));
  }

  /** Keeps a file, and never writes over what another window has kept since: that one is taken, or else asked for. */
  keep(file) {
    const name = `file:${file.key}`, kept = this.store.text(name);
    if (file.knows(kept) || fileOf(kept)?.text === file.text) this.write(file);
    else if (!file.isAhead) this.follow(file, kept);
    else if (!kept) this.write(file);
    else this.differs(file, fileOf(kept));
    this.keepOpen();
  }

  write(file) {
    file.written = JSON.stringify(file);
    if (this.store.put(`file:${file.key}`, file)) file.meets(file.written);
  }

  keepOpen() {
    this.store.put('open', {open: this.open.map(it => it.key), current: this.current?.key});
  }

  /** A name like this one that no file of the person has. */
  freeName(name) {
    const taken = new Set([...this.all.values()].filter(it => it.isOwn).map(it => it.name));
    const [stem, ending] = /^(.*?)(\.\w+)$/.exec(name).slice(1);
    for (let k = 1; ; k++) {
      const free = k === 1 ? name : `${stem}-${k}${ending}`;
      if (!taken.has(free)) return free;
    }
  }
}
