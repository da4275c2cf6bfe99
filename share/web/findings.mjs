// What `check` finds while one types: marks at its lines, a list below the editor, and fixes to apply by a click. The
// program has tried the edits that it tells. Another one is tried before it is offered: with it the finding is gone, and
// no other one came before its place.
import {$, button, element, shown} from './dom.mjs';
import {edited, edits, presented, told} from './fixes.mjs';
import {t} from './words.mjs';

const MOST = 30; // findings in the list
const TRIED = 5; // findings for which edits are tried

export function parsed(text) {
  return text.split('\n').filter(Boolean).map(it => JSON.parse(it));
}

const isSame = (one, other) => one.message === other.message && one.file === other.file && one.code === other.code;
const errors = found => found.filter(it => it.severity === 'error');

export class Findings {
  /** `check(program, change)` runs the check of a program, with another text of its file if `change` has one. */
  constructor({check, apply, go, found}) {
    Object.assign(this, {check, apply, go, mark: found, serial: 0, found: []});
  }

  /**
   * Checks a program, shows what was found, and then the edits. Of checks that overlap the last one counts; the answer
   * says whether this one did.
   */
  async update(program) {
    const serial = ++this.serial, {text} = program, found = await this.check(program);
    if (serial !== this.serial || !found) return false;
    this.found = found;
    this.mark(found);
    const all = JSON.stringify([program.key, text, found]);
    if (all === this.shown) return true;
    this.shown = all;
    this.show(found, program, text, new Map());
    const offers = await this.tried(found, program, text, () => this.shown === all);
    if (this.shown === all && offers.size) this.show(found, program, text, offers);
    return true;
  }

  async tried(found, program, text, isShown) {
    const offers = new Map();
    for (const it of found.filter(one => one.file === program.name).slice(0, TRIED)) {
      for (const edit of edits(text, it)) {
        if (!isShown()) return offers;
        if (await this.holds(edit, it, found, program, text)) offers.set(it, [...offers.get(it) ?? [], edit]);
      }
    }
    return offers;
  }

  async holds(edit, finding, before, program, text) {
    if (edit.isTried || (edit.lib && edit.text === undefined)) return true;
    const after = await this.check(program, {text: edited(text, edit), lib: edit.lib});
    if (!after || after.some(it => isSame(it, finding) && it.line <= finding.line + 1)) return false;
    const [first] = errors(after), isWarning = finding.severity === 'warning';
    if (!first) return true;
    return !isWarning && (first.line > finding.line || errors(after).length < errors(before).length);
  }

  show(found, program, text, offers) {
    const items = found.slice(0, MOST).map(it => this.item(it, program, text, offers.get(it) ?? []));
    $('findings').replaceChildren(...items);
    if (found.length > MOST) $('findings').append(element('li', {}, t`.. and ${found.length - MOST} more`));
    $('findings').hidden = found.length === 0;
    this.tell(found, program.name, text);
  }

  tell(found, name, source) {
    const [first] = found, says = first && presented(first, first.file === name ? source : null).message;
    const text = !first ? '' : found.length === 1 ? t`One finding, line ${first.line}: ${says}`
      : t`${found.length} findings, line ${first.line}: ${says}`;
    if ($('found-said').textContent !== text) $('found-said').textContent = text;
  }

  item(it, program, text, offers) {
    const where = it.file === program.name ? t`Line ${it.line}` : t`${it.file}, line ${it.line}`;
    const says = presented(it, it.file === program.name ? text : null);
    const head = button('', () => this.go(it), {className: 'finding'});
    head.append(element('b', {}, `${where}: `), shown(says.message));
    const fix = element('small', {}, shown(says.fix));
    const buttons = offers.map(edit => button(t`Fix: ${told(text, edit)}`, () => {
      if (program.text === text) this.apply(edit, program);
      else this.update(program);
    }, {className: 'fix'}));
    const item = element('li', {className: it.severity}, head, fix);
    if (buttons.length) item.append(element('div', {}, ...buttons));
    return item;
  }
}
