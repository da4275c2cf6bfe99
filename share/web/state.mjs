// What the parts of the page share: the files of the person, the machines, and what loader.js unpacked into `page`.
/* global page */
import {$, say} from './dom.mjs';
import {Files} from './files.mjs';
import {Machine} from './machine.mjs';
import {Output} from './output.mjs';
import {Store} from './store.mjs';
import {t} from './words.mjs';

/** The lessons, the exercises, the library, the examples, and the words of the language. */
export const {data} = page;
for (const it of data.exercises) it.library = data.libs;
export const store = new Store(is => {
  $('unkept').hidden = !is;
  if (is) say(t`This browser keeps nothing: save what you write as a file.`, 'bad');
});
export const files = new Files(store), output = new Output($('out'));

const module = page.module(), worker = URL.createObjectURL(new Blob([page.worker], {type: 'text/javascript'}));
export const runner = new Machine(module, worker), checker = new Machine(module, worker);
/** One more machine. */
export const newMachine = () => new Machine(module, worker);
let tester;
/** The machine for the tests of exercises, which is made when it is wanted first. */
export const testing = () => tester ??= newMachine();

const NARROW = matchMedia('(max-width: 999px)');
/** Whether there is room for one part of the page alone. */
export const isNarrow = () => NARROW.matches;
export const onWidth = act => NARROW.addEventListener('change', act);
