// The page's own sentences, in the language that the person chose, or else the one of the browser.
import {german} from './german.mjs';
import {Store} from './store.mjs';

const TABLES = {de: german};
const ATTRIBUTES = ['title', 'aria-label', 'placeholder'], UNREAD = ['SCRIPT', 'STYLE', 'NOSCRIPT'];

/** The language that the page speaks. The lessons, and what the program itself tells, are English in each. */
export const language = Object.keys(TABLES).find(it => it === wanted().slice(0, 2)) ?? 'en';

const table = TABLES[language] ?? {};

function wanted() {
  return new Store().get('language') || navigator.language || '';
}

/** A sentence with its values: the English one is its key in the table of another language. */
export function t(parts, ...values) {
  const key = parts.reduce((text, part, k) => `${text}{${k - 1}}${part}`);
  return (table[key] ?? key).replace(/\{(\d)\}/g, (_, k) => values[k]);
}

const said = text => table[text.trim().replace(/\s+/g, ' ')];

/** The name of a button or a menu, which a lesson tells in English. */
export const nameHere = name => said(name) ?? name;

/** Whether the sentences of a paragraph have keys or names in them. */
const hasNames = it => it.nodeName === 'P' && !!it.querySelector(':scope > kbd, :scope > b');

/** Translates such a paragraph: the elements in it are the values of its sentences. */
function translateNames(paragraph) {
  const values = [...paragraph.children];
  const key = [...paragraph.childNodes].map(it => it.data ?? `{${values.indexOf(it)}}`).join('');
  const parts = said(key)?.split(/\{(\d+)\}/);
  if (parts) paragraph.replaceChildren(...parts.map((it, k) => k % 2 ? values[it] : it));
}

function translateAttributes(it) {
  for (const name of ATTRIBUTES) {
    const made = said(it.getAttribute(name) ?? '');
    if (made) it.setAttribute(name, made);
  }
}

/** Puts the words of the page as it was loaded into the language: its texts, titles, labels and placeholders. */
export function translatePage() {
  document.documentElement.lang = language;
  const walker = document.createTreeWalker(document.documentElement, NodeFilter.SHOW_ELEMENT | NodeFilter.SHOW_TEXT,
    it => UNREAD.includes(it.nodeName) ? NodeFilter.FILTER_REJECT : NodeFilter.FILTER_ACCEPT);
  for (let it = walker.nextNode(); it; it = walker.nextNode()) {
    if (it.nodeType === Node.TEXT_NODE) it.data = it.data.replace(/\S(?:[^]*\S)?/, text => said(text) ?? text);
    else if (hasNames(it)) translateNames(it);
    else translateAttributes(it);
  }
}
