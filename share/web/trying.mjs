// The exercises: writing them, trying their tests, and handing them in.
import {element, save, say} from './dom.mjs';
import {zip} from './archive.mjs';
import {Course} from './course.mjs';
import {dialog} from './dialogs.mjs';
import {editor, openAll, runs} from './editing.mjs';
import {Grading, sentence} from './exercises.mjs';
import {showPicture} from './looking.mjs';
import {commandOf} from './programs.mjs';
import {data, files, output, store, testing} from './state.mjs';
import {t} from './words.mjs';

const ASKS = /^answers\(\)/m; // in the start of an exercise that asks what comes
let grading, course;

export const exerciseOf = file => file?.place === 'exercise' && data.exercises.find(it => `${it.name}.b` === file.name);

/** The file of an exercise, as it begins. */
export function startOf(exercise) {
  const text = exercise.start ?? `/* ${exercise.name} */\n`;
  const libs = Object.keys(exercise.libs).map(it => it.replace(/\.b$/, '')).filter(it => it !== 'test');
  return {place: 'exercise', name: `${exercise.name}.b`, text, base: text, edition: exercise.edition, libs};
}

function write(exercise) {
  openAll([startOf(exercise)]);
  editor.cm.focus();
  editor.cm.setCursor(editor.cm.lineCount(), 0);
}

export async function grade(exercise) {
  const file = files.all.get(`exercise/${exercise.name}.b`);
  if (!file) {
    write(exercise);
    say(exercise.start ? t`Change ${exercise.name}.b first.` : t`Write ${exercise.name}.b first.`);
    return;
  }
  if (grading) return;
  runs.stop();
  runs.begin(t`tests of ${exercise.name}`, t`They run ..`);
  if (!file.isChanged && ASKS.test(exercise.start)) {
    runs.ended(true);
    say(t`Nothing is answered in ${file.name} yet.`, 'bad');
    return;
  }
  grading = new Grading(testing(), exercise, file.text);
  let graded;
  try {
    graded = await grading.grade();
  } finally {
    grading = null;
    runs.ended(true);
  }
  if (graded) sayGraded(exercise, course.graded(exercise, graded), graded);
  else say(t`Stopped.`, 'bad');
}

function sayGraded(exercise, {passed, of, failed, refused}, {results, note = ''}) {
  const isRight = passed === of;
  const verdict = failed[0] ? t`${passed} of ${of}: ${failed[0][1]}.` : isRight ? t`${passed} of ${of}: well done.`
    : t`${passed} of ${of}.`;
  say(refused ? t`${exercise.name} isn't taken: ${refused}.` : verdict, isRight ? 'good' : 'bad');
  const told = results.map(it => `${it.test.name}: ${it.result === 'ok' ? 'ok' : sentence(it)}\n`).join('');
  output.put(note ? `${note}\n${told}` : told);
}

const exercises = () => data.exercises.map(it => files.all.get(`exercise/${it.name}.b`)).filter(it => it?.isChanged);

export async function handIn() {
  const done = exercises();
  if (!done.length) return say(t`No exercise is written yet.`, 'bad');
  const name = element('input', {value: store.get('person') ?? '', required: true, maxLength: 60, autocomplete: 'off'});
  const rows = done.map(it => {
    const result = course.results.get(exerciseOf(it).name);
    const isKnown = result && !result.isOld;
    return element('li', {}, isKnown ? t`${it.name}: ${result.passed} of ${result.of} tests`
      : t`${it.name}: not tried`);
  });
  const isYes = await dialog(t`Hand in exercises`, t`Make the file`,
    element('p', {}, element('label', {}, t`Your name`, ' ', name)),
    element('p', {}, t`The file has a folder of this name with:`), element('ul', {}, ...rows),
    element('p', {}, t`Give it to your teacher. Nothing is sent from here.`));
  const person = name.value.trim().replace(/[^\p{L}\p{N}_. -]/gu, '_').replace(/^[. -]+/, '_');
  if (!isYes || !person) return undefined;
  store.put('person', name.value.trim());
  save(`${person}.zip`, zip(done.map(it => [`${person}/${it.name}`, it.text])));
  return say(t`${person}.zip has ${done.map(it => it.name).join(', ')}.`, 'good');
}

/** Ends the tests that run, if any do. */
export function stopTests() {
  grading?.stop();
  return !!grading;
}

/** What was known of the tests of an exercise is of the text before. */
export function typedInto(file) {
  const exercise = exerciseOf(file);
  if (exercise) course.touch(exercise);
}

/** Shows the lessons. */
export function begin() {
  course = new Course(data, store, {
    open: openAll,
    async run(given) {
      openAll(given);
      await runs.run();
    },
    command: (line, set) => / > \S+\.svg$/.test(line) ? showPicture(line.split(' > ')[0], commandOf(line, set))
      : runs.command(line, commandOf(line, set)),
    step: () => runs.step(),
    async stepThrough({name, asks}) {
      openAll([{place: 'asks', name: `${name}-asks.b`, text: asks, base: asks}]);
      await runs.step({isWhole: true});
    },
    write, grade, handIn,
  });
  return course;
}

/** What came of the tests of an exercise elsewhere: in another window, or before this archive was made. */
export function hearResult(name, result) {
  const exercise = data.exercises.find(it => it.name === name);
  if (exercise && Array.isArray(result?.failed)) course.keep(exercise, result);
}
