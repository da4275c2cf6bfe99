// Search and replace in the editor, in a line above it. Elsewhere the keys are those of the browser.
import {$} from './dom.mjs';
import {t} from './words.mjs';

const MOST = 10_000; // matches that are counted

export class Replacing {
  constructor(cm) {
    this.cm = cm;
    $('search').onsubmit = event => {
      event.preventDefault();
      this.go(1);
    };
    $('search-text').oninput = () => this.go(0);
    $('search-previous').onclick = () => this.go(-1);
    $('replace').onclick = () => this.replace();
    $('replace-all').onclick = () => this.replaceAll();
    $('search-close').onclick = () => this.close();
    $('search').onkeydown = event => this.key(event);
  }

  key(event) {
    if (event.key === 'Escape') this.close();
    if (event.key === 'Enter' && event.shiftKey) {
      event.preventDefault();
      this.go(-1);
    }
  }

  /** Shows the line, with what is selected as the text to look for. */
  open() {
    const selected = this.cm.getSelection();
    if (selected && !selected.includes('\n')) $('search-text').value = selected;
    $('search').hidden = false;
    this.cm.refresh();
    $('search-text').focus();
    $('search-text').select();
    this.go(0);
  }

  close() {
    $('search').hidden = true;
    this.mark?.clear();
    this.cm.refresh();
    this.cm.focus();
  }

  /** The places of what is looked for. Capitals count where one was typed. */
  matches() {
    const text = $('search-text').value, found = [];
    if (!text) return found;
    const cursor = this.cm.getSearchCursor(text, {line: 0, ch: 0}, {caseFold: text === text.toLowerCase()});
    while (found.length < MOST && cursor.findNext()) found.push({from: cursor.from(), to: cursor.to()});
    return found;
  }

  /** Selects the next place, the one before, or with 0 the first one that isn't before the cursor. */
  go(by) {
    const all = this.matches(), start = this.cm.getCursor('from'), end = this.cm.getCursor('to');
    const isAfter = (one, place) => one.line > place.line || one.line === place.line && one.ch >= place.ch;
    const next = by < 0 ? all.findLastIndex(it => isAfter(start, it.to))
      : all.findIndex(it => isAfter(it.from, by ? end : start));
    this.select(all, next >= 0 ? next : by < 0 ? all.length - 1 : 0);
  }

  select(all, at) {
    const found = all[at];
    this.mark?.clear();
    if (found) {
      this.mark = this.cm.markText(found.from, found.to, {className: 'found'});
      this.cm.setSelection(found.from, found.to);
      this.cm.scrollIntoView(found, 60);
    }
    $('search-said').textContent = found ? t`${at + 1} of ${all.length}` : $('search-text').value ? t`nowhere` : '';
  }

  /** Replaces what is selected, if it was found, and goes on. */
  replace() {
    const from = this.cm.getCursor('from'), to = this.cm.getCursor('to');
    const isSame = (one, other) => one.line === other.line && one.ch === other.ch;
    if (this.matches().some(it => isSame(it.from, from) && isSame(it.to, to))) {
      this.cm.replaceRange($('search-by').value, from, to, 'replace');
      this.cm.setCursor(this.cm.posFromIndex(this.cm.indexFromPos(from) + $('search-by').value.length));
    }
    this.go(0);
  }

  replaceAll() {
    const all = this.matches();
    this.cm.operation(() => {
      for (const it of all.reverse()) this.cm.replaceRange($('search-by').value, it.from, it.to, 'replace all');
    });
    $('search-said').textContent = t`${all.length} replaced`;
  }
}
