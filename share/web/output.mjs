// The output of a run, as text. A part at its beginning is shown, and of a longer one the end as well; all of it can be
// saved. It stands in blocks of some lines each, so that a long one is laid out only where it is looked at.
import {element, shown} from './dom.mjs';
import {language, t} from './words.mjs';

const BLOCK = 4096; // characters of a block, after which the next line begins another one
const LINE = 1000; // characters of a line in a block; a longer one goes on in the next block
const SHOWN = 400_000; // characters at the beginning that are shown
const END = 4000; // and at the end
const KEPT = 256 << 20; // bytes that can be saved
const GAP = 15; // milliseconds for which output is gathered

export class Output {
  constructor(box) {
    this.box = box;
    this.clear();
  }

  clear() {
    clearTimeout(this.timer);
    this.decoder = new TextDecoder('utf-8', {ignoreBOM: true});
    Object.assign(this, {kept: [], size: 0, length: 0, end: '', block: null, room: 0, line: 0, more: null,
      waiting: '', timer: null});
    this.box.replaceChildren();
    this.box.classList.remove('table');
  }

  /** Bytes of the program. They are shown with the next picture of the page, since there may be many of them. */
  write(bytes) {
    this.size += bytes.length;
    if (this.size <= KEPT) this.kept.push(new Blob([bytes]));
    this.waiting += shown(this.decoder.decode(bytes, {stream: true}));
    if (this.waiting.length > SHOWN + 2 * END) this.flush();
    else this.timer ??= setTimeout(() => this.flush(), GAP);
  }

  flush() {
    clearTimeout(this.timer);
    const text = this.waiting;
    Object.assign(this, {timer: null, waiting: ''});
    if (text) this.put(text);
  }

  /** What a person typed for the program, as a terminal shows it. */
  typed(text) {
    this.flush();
    this.put(text, 'typed');
  }

  put(text, kind = '') {
    const follows = this.box.scrollHeight - this.box.scrollTop - this.box.clientHeight < 40;
    const first = text.slice(0, Math.max(0, SHOWN - this.length));
    this.length += text.length;
    for (let at = 0; at < first.length;) at += this.add(first, at, kind);
    if (first.length < text.length) this.cut(text.slice(first.length));
    if (follows) this.box.scrollTop = this.box.scrollHeight;
  }

  /** Adds a part of a text to the last block: up to the end of a line, and not too much of a long one. */
  add(text, at, kind) {
    if (this.room <= 0) {
      this.block = element('div');
      this.box.append(this.block);
      Object.assign(this, {room: BLOCK, line: LINE});
    }
    const newline = text.indexOf('\n', at), isWhole = newline >= 0 && newline < at + this.line;
    const end = isWhole ? newline + 1 : Math.min(text.length, at + this.line), part = text.slice(at, end);
    this.block.append(kind ? element('span', {className: kind}, part) : part);
    this.line = isWhole ? LINE : this.line - part.length;
    this.room = this.line <= 0 || isWhole && this.room <= part.length ? 0 : Math.max(1, this.room - part.length);
    return part.length;
  }

  cut(text) {
    this.end = (this.end + text).slice(-END);
    if (!this.more) {
      this.more = {said: element('p', {className: 'more'}), end: element('div')};
      this.box.append(this.more.said, this.more.end);
    }
    const hidden = this.length - SHOWN - this.end.length;
    const count = hidden.toLocaleString(language);
    this.more.said.textContent = hidden > 0 ? t`.. ${count} characters aren't shown here ..` : '';
    this.more.end.textContent = this.end;
  }

  /** All that was written, for a file. */
  get parts() { return this.kept; }
}
