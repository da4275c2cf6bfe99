// The editor: CodeMirror with the colours of B, its marks of findings, and the line where a run stopped.
// Ctrl+Space completes a name, and a title tells what it is.
// `CodeMirror` is there already, from the library of Debian's package libjs-codemirror.
/* global CodeMirror */
import {isCode} from './files.mjs';

function inQuotes(stream, state, escapes) {
  if (stream.match(/^\*./)) return escapes.includes(stream.current()[1]) ? 'string-2' : 'error';
  if (stream.next() === state.quote || stream.eol()) state.quote = '';
  else if (!stream.eol()) stream.match(/^[^*'"]+/);
  if (stream.eol()) state.quote = '';
  return 'string';
}

function inComment(stream, state) {
  if (stream.match(/^.*?\*\//)) state.isComment = false;
  else stream.skipToEnd();
  return 'comment';
}

/** The style of a token outside of quotes and comments; `styleOf` tells that of a name. */
function plain(stream, state, styleOf) {
  if (stream.eatSpace()) return null;
  if (stream.match('/*')) {
    state.isComment = true;
    return inComment(stream, state);
  }
  const character = stream.peek();
  if (character === '"' || character === "'") {
    state.quote = stream.next();
    return 'string';
  }
  const word = stream.match(/^\w+/)?.[0];
  if (word) return /^\d/.test(word) ? (/^0\d*[89]|\D/.test(word) ? 'error' : 'number') : styleOf(word);
  const mark = stream.next();
  return /[-+*/%&|=!<>?:]/.test(mark) ? 'operator' : /[()[\]{};,]/.test(mark) ? 'bracket' : 'error';
}

const indent = (state, after) => Math.max(0, state.depth - (/^\s*}/.test(after) ? 1 : 0)) * 4;

/** How a source is coloured. The words of the language are those that the other editors have. */
function language({keywords, second, escapes, library}) {
  const isKeyword = new Set([...keywords, ...second]), isLibrary = new Set(Object.keys(library));
  const styleOf = word => isKeyword.has(word) ? 'keyword' : isLibrary.has(word) ? 'builtin' : 'variable';
  return {
    startState: () => ({isComment: false, quote: '', depth: 0}),
    copyState: state => ({...state}),
    token(stream, state) {
      if (state.isComment) return inComment(stream, state);
      if (state.quote) return inQuotes(stream, state, escapes);
      const style = plain(stream, state, styleOf);
      if (style === 'bracket' && stream.current() === '{') state.depth++;
      if (style === 'bracket' && stream.current() === '}') state.depth = Math.max(0, state.depth - 1);
      return style;
    },
    indent,
    electricInput: /^\s*}$/,
    blockCommentStart: '/*',
    blockCommentEnd: '*/',
    closeBrackets: '()[]{}',
  };
}

/** Places of bytes in a line, from 1, as places of the editor, which counts units of 16 bits from 0. */
export function unitOf(line, column) {
  let units = 0, bytes = 1;
  for (const it of line) {
    if (bytes >= column) break;
    const point = it.codePointAt(0);
    bytes += point < 0x80 ? 1 : point < 0x800 ? 2 : point < 0x10000 ? 3 : 4;
    units += it.length;
  }
  return units;
}

export class Editor {
  /** `names` tells what names mean, and `use` takes a file of the library that has a name. */
  constructor(box, words, {changed, run, names, use}) {
    CodeMirror.defineMode('b', () => language(words));
    Object.assign(this, {names, use});
    this.docs = new Map();
    this.marks = [];
    this.cm = CodeMirror(box, {
      mode: 'b', lineNumbers: true, indentUnit: 4, tabSize: 4, matchBrackets: true, smartIndent: true,
      viewportMargin: 10, maxHighlightLength: 2000, workTime: 60, crudeMeasuringFrom: 2000,
      screenReaderLabel: 'Program', inputStyle: 'contenteditable', spellcheck: false, autocorrect: false,
      autocapitalize: false,
      extraKeys: {
        Tab: false, 'Shift-Tab': false, 'Ctrl-Enter': run, 'Cmd-Enter': run, 'Ctrl-]': 'indentMore',
        'Ctrl-[': 'indentLess', 'Ctrl-/': cm => this.remark(cm), 'Cmd-/': cm => this.remark(cm),
        'Ctrl-Space': () => this.complete(),
      },
    });
    box.addEventListener('mouseover', ({target}) => this.title(target));
    this.cm.on('change', (cm, change) => {
      if (change.origin !== 'setValue') this.unmarkStop();
      changed(change);
    });
    const field = this.cm.getInputField();
    for (const [name, value] of [['role', 'textbox'], ['aria-multiline', 'true'], ['aria-describedby', 'editor-keys']])
      field.setAttribute(name, value);
  }

  /** Shows a file, with the places and the steps back that it had before. */
  show(file) {
    if (!this.docs.has(file)) this.docs.set(file, CodeMirror.Doc(file.text, isCode(file.name) ? null : 'b'));
    this.clear();
    this.cm.swapDoc(this.docs.get(file));
  }

  /** Puts the text of a file into the editor, where that has another one. */
  follow(file) {
    const doc = this.docs.get(file), isShown = doc === this.cm.getDoc();
    if (!doc || doc.getValue('\n') === file.text) return;
    if (isShown) this.put(file.text, 'follow');
    else doc.replaceRange(file.text, {line: 0, ch: 0}, {line: doc.lastLine()}, 'follow');
  }

  /** Tells of a function, where the mouse is on its name, what it does. */
  title(token) {
    if (token.title || !/\bcm-(variable|builtin)\b/.test(token.className)) return;
    const known = this.names.in(this.text).get(token.textContent);
    if (known?.call.includes('(')) token.title = `${known.call}: ${known.says}`;
  }

  /** Shows the names that begin as the one before the cursor, to choose one. */
  complete() {
    CodeMirror.showHint(this.cm, () => {
      const at = this.cm.getCursor(), before = /\w*$/.exec(this.cm.getLine(at.line).slice(0, at.ch))[0];
      const fits = ({name}) => name.startsWith(before) && name !== before;
      const known = [...this.names.in(this.text).values()].filter(fits);
      const list = known.map(it => ({text: it.name, displayText: it.call, known: it}));
      const hints = {list, from: {line: at.line, ch: at.ch - before.length}, to: at};
      CodeMirror.on(hints, 'pick', ({known: {lib}}) => lib && this.use(lib));
      return hints;
    }, {completeSingle: true, closeCharacters: /[^\w]/});
  }

  forget(file) { this.docs.delete(file); }

  get text() { return this.cm.getValue('\n'); }

  /** Puts another text in place, as one step back. */
  put(text, origin = 'put') {
    const {left, top} = this.cm.getScrollInfo(), at = this.cm.getCursor();
    this.cm.operation(() => {
      this.cm.replaceRange(text, {line: 0, ch: 0}, {line: this.cm.lastLine()}, origin);
      this.cm.setCursor(at);
    });
    this.cm.scrollTo(left, top);
  }

  edit({from, to, text}) {
    this.cm.replaceRange(text, this.cm.posFromIndex(from), this.cm.posFromIndex(to), 'fix');
  }

  goToIndex(index) {
    this.cm.setCursor(this.cm.posFromIndex(index));
    this.cm.focus();
  }

  remark(cm) {
    const from = cm.getCursor('from'), to = cm.getCursor('to');
    if (!cm.uncomment(from, to)) cm.blockComment(from, to, {fullLines: false});
  }

  clear() {
    for (const it of this.marks) it();
    this.marks = [];
    this.unmarkStop();
  }

  /** Marks what `check` found in the file that is shown. */
  mark(found) {
    for (const it of this.marks) it();
    this.marks = [];
    this.cm.operation(() => found.slice(0, 100).forEach(it => this.markOne(it)));
  }

  markOne({line, column, end, severity, message}) {
    const text = this.cm.getLine(line - 1);
    if (text === undefined) return;
    const from = unitOf(text, column), to = Math.max(from + 1, unitOf(text, end ?? column + 1));
    const options = {className: `mark-${severity}`, attributes: {title: message}};
    const mark = this.cm.markText({line: line - 1, ch: Math.min(from, Math.max(0, text.length - 1))},
      {line: line - 1, ch: to}, options);
    const handle = this.cm.addLineClass(line - 1, 'gutter', `line-${severity}`);
    this.marks.push(() => {
      mark.clear();
      this.cm.removeLineClass(handle, 'gutter', `line-${severity}`);
    });
  }

  /** Marks the line where a run stopped. */
  markStop(line) {
    this.unmarkStop();
    if (line > this.cm.lineCount()) return;
    const handle = this.cm.addLineClass(line - 1, 'wrap', 'stopped');
    this.unmark = () => this.cm.removeLineClass(handle, 'wrap', 'stopped');
    this.cm.scrollIntoView({line: line - 1, ch: 0}, 60);
  }

  unmarkStop() {
    this.unmark?.();
    this.unmark = null;
  }

  go({line, column = 1}) {
    const text = this.cm.getLine(line - 1) ?? '';
    this.cm.focus();
    this.cm.setCursor({line: line - 1, ch: unitOf(text, column)});
    this.cm.scrollIntoView(null, 60);
  }
}
