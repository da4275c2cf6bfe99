// Questions of the page.
import {$, element} from './dom.mjs';
import {isCode, isName} from './files.mjs';
import {t} from './words.mjs';

/** Asks in a dialog; whether the answer was yes. */
export function dialog(title, yes, ...body) {
  $('dialog-title').textContent = title;
  $('dialog-yes').textContent = yes;
  $('dialog-body').replaceChildren(...body);
  $('dialog').returnValue = '';
  $('dialog').showModal();
  return new Promise(done => {
    $('dialog').onclose = () => done($('dialog').returnValue === 'yes');
  });
}

/** The name of a file that somebody typed, or nothing. */
export async function askName(title, value) {
  const input = element('input', {value, required: true, pattern: '[A-Za-z0-9_][A-Za-z0-9_.\\-]{0,57}(\\.b)?',
    autocomplete: 'off', spellcheck: false, autocapitalize: 'off', title: t`letters, digits and _ . -`});
  const isYes = await dialog(title, 'OK', element('p', {}, element('label', {}, t`Name`, ' ', input)));
  const typed = input.value.trim(), name = isCode(typed) ? typed : typed.replace(/(\.b)?$/, '.b');
  return isYes && isName(name) ? name : '';
}
