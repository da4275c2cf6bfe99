// What the names of a program mean: those of the language, of the library, and its own. The editor completes them, and
// tells of each what it is.
import {t} from './words.mjs';

const OWN = /^(\w+)[ \t]*\(([\w\s,]*)\)(?!\s*;)/gm; // where a function begins
const BEFORE = /\/\*((?:(?!\*\/)[^])*)\*\/\s*$/; // a comment right before it
const PUBLIC = /\/\* (\w+)(\([^)]*\)) ((?:(?!\*\/)[^])*?)\s*(?:Known from:(?:(?!\*\/)[^])*)?\*\//g;
const plain = text => text.trim().replace(/\s+/g, ' ');

/** The functions of a file of the library, as the comments before them tell. */
function inLibrary(lib, text) {
  return [...text.matchAll(PUBLIC)].map(([, name, call, says]) =>
    ({name, call: `${name}${call}`, says: plain(says), lib}));
}

export class Names {
  constructor({keywords, library}, libs) {
    const own = Object.entries(library).map(([name, told]) => {
      const [call, says] = told.split(/: (.*)/s);
      return {name, call, says};
    });
    const words = keywords.map(name => ({name, call: name, says: t`a word of the language`}));
    this.known = [...Object.entries(libs).flatMap(([lib, text]) => inLibrary(lib, text)), ...own, ...words];
    this.isKeyword = new Set(keywords);
  }

  /** All names that a source may use, each with its call and what it does. Its own ones come first. */
  in(source) {
    if (source === this.source) return this.all;
    const all = new Map(), add = it => all.has(it.name) || all.set(it.name, it);
    for (const it of this.functions(source)) add(it);
    for (const it of this.known) add(it);
    const code = source.replace(/\/\*[^]*?(?:\*\/|$)|"[^"\n]*"?|'[^'\n]*'?/g, ' ');
    for (const [name] of code.matchAll(/\b[A-Za-z_]\w+/g)) add({name, call: name, says: t`a name of this program`});
    Object.assign(this, {source, all});
    return all;
  }

  /** The functions of a source, each with its parameters, and the comment before it. */
  functions(source) {
    return [...source.matchAll(OWN)].filter(([, name]) => !this.isKeyword.has(name)).map(it => {
      const says = BEFORE.exec(source.slice(0, it.index))?.[1];
      return {name: it[1], call: `${it[1]}(${plain(it[2])})`, parameters: it[2].match(/\w+/g) ?? [],
        says: says ? plain(says) : t`a function of this program`};
    });
  }
}
