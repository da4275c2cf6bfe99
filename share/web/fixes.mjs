// The edits for what `check` finds, which the page offers for a click: those that the program tells, and has tried; a
// file of the library, where a name lacks that it has; a main around statements that stand alone; and what writes texts.
import {t} from './words.mjs';

const LIBS = [
  [/^lib\/(\w+)\.b has it: /, lib => ({lib})],
  [/^lib\/(\w+)\.b has (?!it:)(\w+): /, (lib, text) => ({lib, text})],
];

const OUTSIDE = /^(?:outside of functions|this statement is outside)/; // of a statement that no function has
const FUNCTION = new RegExp('^(?!(?:if|while|switch|return)\\b)\\w+[ \\t]*\\((?:[A-Za-z_][\\w\\s,]*)?\\)'
  + '\\s*(?:\\{|(?:auto|extrn|if|while|switch|return|goto)\\b)', 'm');
const NO_PRINT = /^there is no \w+: printn writes a number|^nothing defines print: did you mean printn/;
const OF_TEXT = /^\w+\s*\(\s*("(?:\*.|[^"*\n])*")\s*\)/, OF_NUMBER = /^\w+\s*\(([^()",]+)\)/;

/** Whether a statement stands alone, in a source that has no function yet. */
const isAlone = (text, {message}) => text !== null && OUTSIDE.test(message) && !FUNCTION.test(text);

/** What a finding of a text says here: in the words of the page, where there is no command line. */
export function presented(finding, text) {
  const {message, fix = ''} = finding;
  if (isAlone(text, finding)) return {message: t`this stands in no function: write main() { } around it`, fix: ''};
  const tick = fix.replace(/(?:: | with )b go FILE --with (\w+)$/, (_, lib) => t`: tick ${lib} beside With`);
  return {message, fix: tick.replace(/, and b go FILE < from > to$/, '').replaceAll('--edition 2', t`edition 2`)};
}

/** The statements from a line on, put into a function main. */
function inMain(text, {line}) {
  const from = text.split('\n').slice(0, line - 1).reduce((sum, it) => sum + it.length + 1, 0);
  const body = text.slice(from).trimEnd().split('\n').map(it => it && `    ${it}`).join('\n');
  return {from, to: text.length, text: `main() {\n${body}\n}\n`, does: t`write main() { } around it`};
}

/** What writes a text or a number, in place of a print of another language. */
function written(text, finding) {
  const place = span(text, finding), rest = text.slice(place.from), {from} = place;
  const [of, inside] = OF_TEXT.exec(rest) ?? [], [number, value] = OF_NUMBER.exec(rest) ?? [];
  if (of) return [{from, to: from + of.length, text: `putstr(${inside})`, lib: 'print'}];
  return number ? [{from, to: from + number.length, text: `printn(${value.trim()}, 10)`}] : [];
}

/** A place in a text, of a line and columns in units of UTF-16 from 1. */
function span(text, {line, utf16_column: column, utf16_end: end}) {
  const start = text.split('\n').slice(0, line - 1).reduce((sum, it) => sum + it.length + 1, 0);
  return {from: start + column - 1, to: start + end - 1};
}

/** The edits for a finding, each {from, to, text} or {lib} or both; none where it is for a person to choose. */
export function edits(text, finding) {
  const told = (finding.edits ?? []).map(it => ({...span(text, it), text: it.text, isTried: true}));
  const libs = LIBS.map(([sentence, made]) => [sentence.exec(finding.fix ?? ''), made]).filter(([found]) => found);
  const alone = isAlone(text, finding) ? [inMain(text, finding)] : [];
  const writes = NO_PRINT.test(finding.message) ? written(text, finding) : [];
  const taken = libs.map(([found, made]) => ({...span(text, finding), ...made(...found.slice(1))}));
  return [...alone, ...writes, ...taken, ...told];
}

export function edited(text, {from, to, text: put}) {
  return put === undefined ? text : text.slice(0, from) + put + text.slice(to);
}

/** What an edit does, for its button. */
export function told(text, {from, to, text: put, lib, does}) {
  if (does) return does;
  if (put === undefined) return t`take ${lib} of the library`;
  const old = text.slice(from, to).trim(), line = text.slice(0, from).split('\n').length;
  if (!put) return t`take ${old} out`;
  if (!put.trim()) return t`put a blank in line ${line}`;
  return old ? t`put ${put.trim()} for ${old}` : t`put ${put.trim()} in line ${line}`;
}
