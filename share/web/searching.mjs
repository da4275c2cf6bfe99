// Patterns of B with holes: where one fits in the program, and rules of one's own for what `check` tells.
import {element, say} from './dom.mjs';
import {dialog} from './dialogs.mjs';
import {recheck, runs} from './editing.mjs';
import {faultOf, programOf} from './programs.mjs';
import {files, store} from './state.mjs';
import {t} from './words.mjs';

const HOLES = [t`A hole $x is any expression, $x:name a name, $k:num a number, and $$s any statement.`,
  t`Three dots are any arguments, and with a semicolon any statements.`].join(' ');
const PLAIN = {autocomplete: 'off', spellcheck: false, autocapitalize: 'off'};

/** Asks for a pattern, and shows each place of the program where it fits. */
export async function findPattern() {
  const input = element('input', {value: store.get('pattern') ?? 'while($c) $$s', required: true, ...PLAIN});
  const isYes = await dialog(t`Find by structure`, t`Find`,
    element('p', {}, element('label', {}, t`Pattern`, ' ', input)), element('p', {}, HOLES));
  const pattern = input.value.trim();
  if (!isYes || !pattern) return;
  store.put('pattern', pattern);
  const {name, files: given} = programOf(files.program);
  const words = ['find', `--edition=${files.program.edition}`, '--', pattern, name];
  const ended = await runs.command(`find ${pattern}`, {words, files: given, input: ''});
  if (ended?.status === 0) say(t`Found.`, 'good');
  else if (ended && !ended.told) say(t`It fits nowhere in ${name}.`);
}

/** Asks for rules, by which `check` looks at each program from then on. Rules with a fault are kept, and not used. */
export async function ownRules() {
  const text = element('textarea', {value: store.get('rules-typed') ?? '', rows: 10, cols: 60, ...PLAIN,
    placeholder: 'rule NoGoto\n  find goto $x;\n  says no goto in this exercise'});
  text.setAttribute('aria-label', t`Rules`);
  const isYes = await dialog(t`Rules of my own`, t`Use them`, element('p', {}, text),
    element('p', {}, t`What they find stands below the editor, too.`, ' ', HOLES));
  if (!isYes) return;
  const rules = text.value.trim() && `${text.value.trim()}\n`, fault = rules && await faultOf(rules);
  store.put('rules-typed', text.value);
  store.put('rules', fault ? '' : rules);
  if (fault) say(t`The rules aren't used: ${fault}`, 'bad');
  else say(rules ? t`The rules are used.` : t`There are no rules of your own.`, 'good');
  recheck(0);
}
