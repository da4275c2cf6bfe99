// The marks of a class: points of each student, the tests most failed, tables for Moodle, Canvas and spreadsheets, and
// pages of students. Points are those of the exercises that were set: of one that wasn't handed in there are none.
import {passes, sentence, testsOf} from './exercises.mjs';
import {language, t} from './words.mjs';

const MOST_COMMENT = 2000; // characters of what a table tells a student
const MOST_LINES = 400; // of a source on a page

/** A name for each student that can stand in a table and name a file, as class/grade makes them. */
export function plainNames(names) {
  const taken = new Set();
  return names.map(name => {
    const some = [...name].map(it => /[\p{L}\p{N}_. '\u2019-]/u.test(it) ? it : '_').slice(0, 60).join('');
    const plain = some.replace(/^[ .]+|[ .]+$/g, '').replace(/^[-_. ]*$|^-/, '_');
    let own = plain;
    for (let k = 2; taken.has(own.toLowerCase()); k++) own = `${plain}-${k}`;
    taken.add(own.toLowerCase());
    return own;
  });
}

/** The points of a student in the exercises that were set. They aren't whole where something isn't read or graded. */
export function pointsOf({works, student}, exercises) {
  const graded = exercises.map(it => works.get(it.name));
  const passed = graded.map(it => it?.results?.filter(passes).length ?? 0);
  const of = exercises.map(it => testsOf(it).length), sum = numbers => numbers.reduce((a, b) => a + b, 0);
  return {each: passed, passed: sum(passed), of: sum(of),
    isWhole: !student.unread.length && graded.every(it => it && !it.refused)};
}

/** What came of a test that failed, in a sentence. */
export const why = (it, {finding}) => it.result === 'fault' && finding ? finding : sentence(it);

/** The first test that is right by luck. */
export const luckIn = graded => graded?.results?.find(it => it.result === 'luck');

/** What a student should know first. */
export function firstOf(row, exercises) {
  const {unread} = row.student;
  if (unread.length) return t`not taken: ${unread[0]}`;
  for (const {name} of exercises) {
    const graded = row.works.get(name), luck = luckIn(graded);
    if (graded?.refused) return `${name}: ${t`not taken: ${graded.refused}`}`;
    if (graded?.finding || luck) return `${name}: ${graded.finding ?? sentence(luck)}`;
  }
  return lackOf(row, exercises);
}

const missingOf = ({works}, exercises) => exercises.filter(it => works.get(it.name)?.isMissing).map(it => it.name);

/** What a student didn't hand in, and what isn't taken in its place. */
function lackOf(row, exercises) {
  const missing = missingOf(row, exercises), isAll = missing.length === exercises.length;
  if (row.student.unread.length || !missing.length && !isAll) return '';
  const lack = isAll ? t`nothing is handed in` : t`nothing is handed in of ${missing.join(', ')}`;
  return [lack, ...othersOf(row, exercises)].join('; ');
}

/** A file of another kind, such as power.docx, where something isn't handed in. */
function othersOf(row, exercises) {
  const [name] = row.student.others, isWhole = exercises.length && !missingOf(row, exercises).length;
  return name && !isWhole ? [t`${name} isn't taken: its name doesn't end in .b`] : [];
}

/** What of all that a student hands in isn't read or taken. */
export const untaken = (row, exercises) => [...row.student.unread, ...othersOf(row, exercises)];

/** What came of the tests that failed: a fault of the source once, and not for each test. */
const failuresOf = graded => [...new Set(graded.results.filter(it => it.result !== 'ok').map(it =>
  it.result === 'fault' && graded.finding ? graded.finding : `${it.test.name}: ${why(it, graded)}`))];

/** The tests that failed most often, each with the sentence that comes most often. */
export function mostFailed(rows, exercises, most) {
  const told = new Map();
  for (const exercise of exercises) {
    for (const {works} of rows) {
      const graded = works.get(exercise.name);
      for (const it of graded?.results ?? []) {
        const key = `${exercise.name}: ${it.test.name}`, text = why(it, graded);
        if (!told.has(key)) told.set(key, {name: key, failed: 0, of: 0, whys: new Map()});
        const row = told.get(key);
        row.of++;
        if (passes(it)) continue;
        row.failed++;
        row.whys.set(text, (row.whys.get(text) ?? 0) + 1);
      }
    }
  }
  const rowsOf = [...told.values()].filter(it => it.failed).sort((a, b) => b.failed - a.failed).slice(0, most);
  return rowsOf.map(it => ({...it, why: [...it.whys].sort((a, b) => b[1] - a[1])[0][0]}));
}

/** A field of a table. A text that a spreadsheet would reckon as a formula has an apostrophe before it. */
function field(it) {
  const text = typeof it === 'string' && /^[=+@\t\r-]./s.test(it) && isNaN(it) ? `'${it}` : `${it}`;
  return /[",\r\n]/.test(text) ? `"${text.replaceAll('"', '""')}"` : text;
}

const csv = rows => rows.map(row => `${row.map(field).join(',')}\r\n`).join('');

/** The table that class/grade writes, with a mark of UTF-8, which spreadsheets need. */
export function tableOf(rows, exercises) {
  const ids = rows.some(it => it.student.number) ? it => [it] : () => [];
  const tests = exercises.map(it => `${it.name} (${testsOf(it).length})`);
  return `\ufeff${csv([['name', ...ids('id'), 'passed', 'of', 'first finding', ...tests], ...rows.map(row => {
    const {each, passed, of} = pointsOf(row, exercises);
    return [row.label, ...ids(row.student.number), passed, of, firstOf(row, exercises), ...each];
  })])}`;
}

/** The points of a student for a course, of so many: none where they aren't whole. */
function gradeOf(row, exercises, most) {
  const {passed, of, isWhole} = pointsOf(row, exercises);
  const isNothing = exercises.every(it => row.works.get(it.name)?.isMissing);
  return isWhole && !isNothing ? `${Math.round(passed / of * most * 100) / 100}` : '';
}

function commentOf(row, exercises) {
  const lines = exercises.flatMap(({name}) => {
    const graded = row.works.get(name);
    if (!graded?.results) return graded?.refused ? [`${name}: ${t`not taken: ${graded.refused}`}`] : [];
    const head = t`${name}: ${graded.results.filter(passes).length} of ${graded.results.length} tests passed`;
    return [head, ...failuresOf(graded).slice(0, 3)];
  });
  return [...row.student.unread, ...lines, lackOf(row, exercises)].filter(Boolean).join('; ').slice(0, MOST_COMMENT);
}

/** What Moodle takes by `Upload grading worksheet` of an assignment: it knows a student by the number alone. */
export function moodleOf(rows, exercises, most) {
  const head = ['Identifier', 'Full name', 'Grade', 'Maximum grade', 'Last modified (grade)', 'Feedback comments'];
  const own = rows.filter(it => it.student.by === 'moodle').map(it => [`Participant ${it.student.number}`,
    it.student.name, gradeOf(it, exercises, most), most, '-', commentOf(it, exercises)]);
  return csv([head, ...own]);
}

/** What the Gradebook of Canvas takes by `Import`: the number of the student is the ID, and a title the last column. */
export function canvasOf(rows, exercises, most) {
  const head = ['Student', 'ID', 'SIS User ID', 'SIS Login ID', 'Section', t`Exercises in B`];
  const own = rows.filter(it => it.student.by === 'canvas').map(it => [it.student.name, it.student.number, '', '', '',
    gradeOf(it, exercises, most)]);
  return csv([head, ['    Points Possible', '', '', '', '', most], ...own]);
}

/** The lines of a source where something came that is told. */
export function linesOf({results = [], line}, name) {
  const told = results.filter(it => it.result !== 'ok').flatMap(({found, place, fits}) => [
    found?.file === name && found.line, place && (place.file ?? name) === name && place.line, fits]);
  return new Set([line, ...told].filter(Boolean));
}

const escaped = text => text.replace(/[&<>"]/g, it => `&#${it.charCodeAt(0)};`);
const STYLE = `body { max-width: 50rem; margin: 1rem auto; padding: 0 1rem; font: 1rem/1.4 system-ui, sans-serif }
pre { white-space: pre-wrap; font-size: .9rem } pre b { background: #ffe58a } section { break-inside: avoid-page }`;

/** What a page says of an exercise: a heading, sentences, and the source with its lines marked. */
export function partOf(graded, exercise) {
  const {name} = exercise, of = testsOf(exercise).length, results = graded?.results ?? [];
  const head = t`${name}: ${results.filter(passes).length} of ${of} tests passed`;
  if (!graded) return {head, told: [t`This isn't graded yet.`], lines: []};
  if (graded.isMissing) return {head, told: [t`Nothing is handed in.`], lines: []};
  if (graded.refused) return {head, told: [t`This hand-in isn't taken: ${graded.refused}.`], lines: []};
  const told = [...new Set([graded.note, graded.finding, ...failuresOf(graded)].filter(Boolean))];
  const marked = linesOf(graded, `${name}.b`);
  const lines = graded.source.split('\n').slice(0, MOST_LINES).map((text, k) => ({text, isMarked: marked.has(k + 1)}));
  return {head, told, lines};
}

/** The page of a student. */
export function pageOf(row, exercises) {
  const sections = exercises.map(it => partOf(row.works.get(it.name), it)).map(({head, told, lines}) => {
    const source = lines.map(({text, isMarked}, k) => {
      const line = escaped(`${String(k + 1).padStart(4)}  ${text}`);
      return isMarked ? `<b>${line}</b>` : line;
    });
    const list = told.length ? `<ul>${told.map(it => `<li>${escaped(it)}`).join('')}</ul>` : '';
    const pre = lines.length ? `<pre>${source.join('\n')}</pre>` : '';
    return `<section><h2>${escaped(head)}</h2>${list}${pre}</section>\n`;
  });
  const {passed, of} = pointsOf(row, exercises), name = escaped(row.label);
  const unread = untaken(row, exercises).map(it => `<p>${escaped(it)}.</p>\n`).join('');
  return `<!doctype html>\n<html lang="${language}"><meta charset="utf-8"><title>${name}</title>\n`
    + `<style>\n${STYLE}\n</style>\n<h1>${name}</h1>\n`
    + `<p>${escaped(t`${passed} of ${of} points`)}</p>\n${unread}${sections.join('')}</html>\n`;
}
