// Leaves the function main of a hand-in out, as class/grade does: the tests of a function have one of their own.
const TOKEN = /\/\*[^]*?(?:\*\/|$)|'(?:\*[^]|[^*'\n])*'?|"(?:\*[^]|[^*"\n])*"?|\w+|[^\s\w]/g;
const CLOSING = {'(': ')', '[': ']', '{': '}'};

/** The tokens of a source, as far as it takes to find where a definition ends. */
class Tokens {
  constructor(text) {
    this.all = [...text.matchAll(TOKEN)].filter(it => !it[0].startsWith('/*'));
  }

  at(at) {
    if (at >= this.all.length) throw new RangeError('the source ends here');
    return this.all[at][0];
  }

  /** The place after the next token `end`, past what is in parentheses before it. */
  after(at, end) {
    while (this.at(at) !== end) at = this.past(at);
    return at + 1;
  }

  past(at) {
    const close = CLOSING[this.at(at)];
    return close ? this.after(at + 1, close) : at + 1;
  }

  /** The place after the statement that begins at a place. */
  statement(at) {
    const first = this.at(at);
    if (first === '{') return this.after(at + 1, '}');
    if (first === 'switch') {
      while (this.at(at) !== '{') at = this.past(at);
      return this.after(at + 1, '}');
    }
    if (first === 'if' || first === 'while') {
      const end = this.statement(this.after(at + 2, ')'));
      return first === 'if' && this.all[end]?.[0] === 'else' ? this.statement(end + 1) : end;
    }
    if (first === 'auto' || first === 'extrn') return this.statement(this.after(at, ';'));
    if (first === 'case' || first === 'default' || this.at(at + 1) === ':') return this.statement(this.after(at, ':'));
    return this.after(at, ';');
  }

  /** Where the function of a name begins and ends in the text, if there is one. */
  function(name) {
    for (let at = 0; at < this.all.length;) {
      if (this.at(at + 1) !== '(') {
        at = this.after(at, ';');
        continue;
      }
      const end = this.statement(this.after(at + 2, ')')), last = this.all[end - 1];
      if (this.at(at) === name) return [this.all[at].index, last.index + last[0].length];
      at = end;
    }
    return null;
  }
}

/** A source with blanks in place of its function main, where it has one that ends. */
export function withoutMain(text) {
  let found = null;
  try {
    found = new Tokens(text).function('main');
  } catch (fault) {
    if (!(fault instanceof RangeError)) throw fault;
  }
  if (!found) return text;
  const [start, end] = found;
  return text.slice(0, start) + text.slice(start, end).replace(/[^\n]/g, ' ') + text.slice(end);
}
