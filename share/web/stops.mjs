// Stops, at the lines of the editor: a click beside a line's number sets one or takes it away. A stop goes with its
// line where lines come before it.
import {element} from './dom.mjs';
import {t} from './words.mjs';

const GUTTER = 'stops';

export class Stops {
  constructor(cm, told) {
    this.cm = cm;
    this.told = told;
    this.lines = new WeakMap(); // the lines with a stop, by the document of a file
    cm.setOption('gutters', [GUTTER, 'CodeMirror-linenumbers']);
    cm.on('gutterClick', (_, line, gutter, event) => {
      event.preventDefault();
      this.turn(line);
    });
    cm.addKeyMap({F9: () => this.turn(cm.getCursor().line)});
  }

  /** Sets a stop, or takes it away. */
  turn(line) {
    const doc = this.cm.getDoc(), isSet = !this.cm.lineInfo(line).gutterMarkers?.[GUTTER];
    const mark = isSet ? element('span', {className: 'stop', title: t`The steps stop here`}, '\u25cf') : null;
    const handle = this.cm.setGutterMarker(line, GUTTER, mark);
    if (!this.lines.has(doc)) this.lines.set(doc, new Set());
    if (isSet) this.lines.get(doc).add(handle);
    else this.lines.get(doc).delete(handle);
    this.told(isSet ? t`A stop is set in line ${line + 1}.` : t`The stop in line ${line + 1} is taken away.`);
  }

  /** The numbers of the lines with a stop in a document. */
  of(doc) {
    const lines = [...this.lines.get(doc) ?? []].map(it => doc.getLineNumber(it)).filter(it => it !== null);
    return lines.map(it => it + 1);
  }
}
