// What a command gets of a program: its words, its files and its input.
import {bytesOf, textOf} from './dom.mjs';
import {isCode, unreadOptions} from './files.mjs';
import {parsed} from './findings.mjs';
import {checker, data, files, store} from './state.mjs';
import {t} from './words.mjs';

const pathOf = name => name.endsWith('.b') ? name : `lib/${name}.b`;

/** What a command gets of a program, with another text or one LIB more where a change is tried. */
export function programOf(file, {text = file.text, lib} = {}) {
  if (isCode(file.name)) return codeOf(file);
  const withs = files.withs(file), libs = lib && !file.libs.includes(lib) ? [...file.libs, lib] : file.libs;
  const there = libs.filter(it => it in data.libs || withs.some(one => one.name === it));
  const given = {[file.name]: bytesOf(text)};
  for (const it of withs) given[it.name] = bytesOf(it.text);
  for (const it of there) if (it in data.libs) given[pathOf(it)] = bytesOf(data.libs[it]);
  const words = [`--edition=${file.edition}`, file.name, ...there.flatMap(it => ['--with', pathOf(it)])];
  return {name: file.name, words, files: given, input: file.input, ends: file.ends};
}

function codeOf({name, text, input, ends}) {
  return {name, words: ['--code', name], files: {[name]: bytesOf(text)}, input, ends};
}

/** The functions that the tests of an exercise have: they lack in a program for it, and that is no fault. */
function testedWith(file) {
  const exercise = file.place === 'exercise' && data.exercises.find(it => `${it.name}.b` === file.name);
  return (exercise && exercise.tests[0].source || '').match(/^\w+(?=\()/gm) ?? [];
}

/** What is found of options in a comment that count for nothing. */
function unread(name, text) {
  const {line, isFirst} = unreadOptions(text) ?? {};
  const message = isFirst ? t`these options aren't read: tick the files beside With`
    : t`options count in the first line alone: tick the files beside With`;
  return line ? [{file: name, line, column: 1, end: 200, severity: 'warning', message}] : [];
}

const RULES = 'own.rules';

/** Looks at a program by `check`, and by these rules. */
function checked(file, rules, change) {
  const {words, files: given} = programOf(file, change), by = rules ? [`--rules=${RULES}`] : [];
  return checker.ask(['check', '--json', ...by, ...words], {files: {...given, [RULES]: bytesOf(rules)}});
}

/** What is wrong with rules, or nothing. */
export async function faultOf(rules) {
  const {told = '', failed} = await checked(files.program, rules);
  return failed ?? told.split('\n').find(it => it.startsWith(RULES)) ?? '';
}

const LACKS = /^in (\S+) +place +\d+ +line +(\d+) +(.*)$/gm; // what verify tells of a place
const WANTED = /^at +line +(\d+)\n.*\n +wanted: (.*)$/m; // and a run of a line that is none of a code

/** What is wrong in a code text: a line that is none, or a place where an operand lacks. */
async function checkCode({name, text}) {
  const given = {files: {[name]: bytesOf(text)}}, places = await checker.ask(['verify', name], given);
  const finding = (line, message, severity) =>
    ({file: name, line: Number(line), column: 1, end: 200, severity, message});
  if (places.status <= 1) {
    return [...textOf(places.output).matchAll(LACKS)].map(([, where, line, says]) =>
      finding(line, `${where}: ${says}`, /^(takes|comes)/.test(says) ? 'error' : 'warning'));
  }
  const ran = await checker.ask(['run', '--where', '--steps=1', name], given);
  const [, line, wanted] = WANTED.exec(ran.told ?? '') ?? [];
  return line ? [finding(line, t`this line is none of a code text; wanted: ${wanted}`, 'error')] : [];
}

/** What `check` finds in a program, and the rules of one's own. */
export async function check(file, change) {
  if (isCode(file.name)) return checkCode(file);
  const ended = await checked(file, store.get('rules') ?? '', change), known = testedWith(file);
  const options = unread(file.name, change?.text ?? file.text);
  const lacks = it => /^nothing defines (\w+)$/.exec(it.message)?.[1];
  return ended.output ? [...options, ...parsed(textOf(ended.output))].filter(it => !known.includes(lacks(it))) : null;
}

/** The words of a command of a lesson, and the files of its chapter, as they are now. */
export function commandOf(line, set) {
  const [told, input] = line.split(' > ')[0].split(' < '), given = {};
  const words = told.match(/'[^']*'|\S+/g).map(it => it.replace(/^'(.*)'$/, '$1'));
  const text = name => files.all.get(`${set.place}/${name}`)?.text ?? set.files[name];
  words.forEach((word, k) => {
    if (words[k - 1] === '--with') words[k] = pathOf(word);
    if (word in set.files) given[word] = bytesOf(text(word));
    else if (words[k - 1] === '--with' && word in data.libs) given[pathOf(word)] = bytesOf(data.libs[word]);
  });
  return {words, files: given, input: set.files[input] ?? ''};
}
