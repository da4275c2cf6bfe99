// The lessons: chapters made of the pages of the repository, their programs with Run beside them, and the exercises.
import {$, button, element} from './dom.mjs';
import {passes, sentence, testsOf} from './exercises.mjs';
import {isName} from './files.mjs';
import {nameHere, t} from './words.mjs';

const COMMAND = /^\$? ?(?:\.\/)?b (?=\w+ )/; // before the words of a command of a lesson

export class Course {
  /** `acts` has what a press of a button does: open, run, command, write, grade, step, stepThrough, handIn. */
  constructor(data, store, acts) {
    Object.assign(this, {data, store, acts});
    this.results = new Map(data.exercises.map(it => [it.name, store.get(`result:${it.name}`)]));
    $('chapter').onchange = () => this.show($('chapter').value, true);
    $('previous').onclick = () => this.move(-1);
    $('next').onclick = () => this.move(1);
    this.list();
    this.show(store.get('chapter') ?? data.chapters[0].name);
  }

  exercisesOf(chapter) {
    return this.data.exercises.filter(it => chapter.name === `lesson-${it.lesson}`);
  }

  isPassed(name) {
    const result = this.results.get(name);
    return !!result && result.of > 0 && result.passed === result.of && !result.isOld;
  }

  /** The list of chapters, with a mark where all exercises are done. */
  list() {
    const current = $('chapter').value;
    $('chapter').replaceChildren(...this.data.chapters.map(it => {
      const all = this.exercisesOf(it), isDone = all.length > 0 && all.every(one => this.isPassed(one.name));
      return new Option(isDone ? `\u2713 ${it.title}` : it.title, it.name);
    }));
    if (current) $('chapter').value = current;
  }

  move(by) {
    const {chapters} = this.data, at = chapters.findIndex(it => it.name === this.chapter.name);
    this.show(chapters[Math.min(chapters.length - 1, Math.max(0, at + by))].name, true);
  }

  show(name, isAsked = false) {
    const {chapters} = this.data, at = Math.max(0, chapters.findIndex(it => it.name === name));
    this.chapter = chapters[at];
    $('chapter').value = this.chapter.name;
    $('previous').disabled = at === 0;
    $('next').disabled = at === chapters.length - 1;
    const text = $('chapter-text');
    text.innerHTML = this.chapter.html;
    for (const it of text.querySelectorAll('figure.file')) this.dressFile(it);
    for (const it of text.querySelectorAll('figure.command, figure.shown')) this.dressCommand(it);
    for (const it of text.querySelectorAll('p code, li code')) it.textContent = nameHere(it.textContent);
    for (const it of text.querySelectorAll('p > code, li > code')) this.dressWords(it);
    for (const it of text.querySelectorAll('a[data-chapter]')) it.onclick = event => this.follow(event, it);
    text.append(...this.exercisesOf(this.chapter).map(it => this.card(it)));
    if (at + 1 < chapters.length) text.append(this.onward(chapters[at + 1]));
    text.scrollTop = 0;
    if (isAsked) text.focus();
    this.store.put('chapter', this.chapter.name);
  }

  follow(event, link) {
    event.preventDefault();
    this.show(link.dataset.chapter, true);
  }

  onward(chapter) {
    return element('p', {className: 'onward'}, button(t`Next: ${chapter.title}`, () => this.show(chapter.name, true)));
  }

  setOf(figure) {
    const at = Number(figure.dataset.set), place = this.chapter.sets.length > 1 ? `${this.chapter.name}.${at + 1}`
      : this.chapter.name;
    return {...this.chapter.sets[at], place};
  }

  /** A program of a chapter, as a file with what its first command gives it. */
  fileOf(set, name) {
    const {libs = [], input = ''} = set.starts[name] ?? {}, text = set.files[name];
    return {place: set.place, name, text, base: text, libs, input: set.files[input] ?? '', ends: input !== ''};
  }

  dressFile(figure) {
    const set = this.setOf(figure), {file: name} = figure.dataset;
    const bar = element('figcaption', {}, element('b', {}, name));
    if (isName(name)) {
      const all = () => this.filesOf(set, name);
      bar.append(button(t`Edit`, () => this.acts.open(all()), {title: t`Opens ${name} in the editor`}),
        button(t`Run`, () => this.acts.run(all()), {title: t`Opens ${name} and runs it`}));
    }
    figure.prepend(bar);
    figure.querySelector('pre').tabIndex = 0;
  }

  /** A program with the files of its chapter that come after it, the program last. */
  filesOf(set, name) {
    const {libs = []} = set.starts[name] ?? {};
    return [...libs.filter(it => it in set.files), name].map(it => this.fileOf(set, it));
  }

  dressCommand(figure) {
    figure.prepend(this.commandButton(figure.querySelector('code').textContent, this.setOf(figure)));
    const out = figure.querySelector('pre');
    if (out) out.tabIndex = 0;
  }

  /** A button beside a command in the words of a lesson, where its program stands in the chapter. */
  dressWords(code) {
    const words = code.textContent.split(' ');
    const at = this.chapter.sets.findIndex(it => words.slice(2).some(word => isName(word) && word in it.files));
    if (!COMMAND.test(code.textContent) || at < 0) return;
    const place = this.chapter.sets.length > 1 ? `${this.chapter.name}.${at + 1}` : this.chapter.name;
    code.after(' ', this.commandButton(code.textContent, {...this.chapter.sets[at], place}, 'within'));
  }

  /** What a command of a lesson does here: a page of steps is shown beside the program, and a picture as one. */
  commandButton(text, set, className = '') {
    const line = text.replace(COMMAND, ''), name = line.split(' ').find(it => isName(it) && it in set.files);
    const isSteps = /^show\b.*> \S+\.html$/.test(line);
    const act = () => {
      this.acts.open(this.filesOf(set, name));
      return isSteps ? this.acts.step() : this.acts.command(line, set);
    };
    return button(isSteps ? t`Step through` : t`Run`, act, {title: t`Does this with ${name}`, className});
  }

  card(exercise) {
    const {name} = exercise, count = testsOf(exercise).length;
    const box = element('section', {className: 'exercise', id: `exercise-${name}`});
    box.innerHTML = exercise.html;
    box.prepend(element('h3', {}, t`Exercise`, ' ', element('em', {}, name)));
    const result = element('div', {className: 'result', role: 'status'});
    box.append(element('p', {className: 'row'},
      button(exercise.start ? t`Open ${name}.b` : t`Write ${name}.b`, () => this.acts.write(exercise)),
      button(count === 1 ? t`Try the test` : t`Try the ${count} tests`, () => this.acts.grade(exercise)),
      ...exercise.asks ? [button(t`Step through it`, () => this.acts.stepThrough(exercise))] : [],
      button(t`Hand in ..`, () => this.acts.handIn())), result);
    this.fill(result, exercise, this.results.get(name));
    return box;
  }

  fill(box, exercise, result) {
    if (!result) return;
    const {passed, of, refused, isOld} = result;
    const told = refused ? t`Not taken: ${refused}.`
      : isOld ? t`${passed} of ${of} tests passed before the last change.`
        : of === 1 ? t`${passed} of 1 test passed.` : t`${passed} of ${of} tests passed.`;
    const head = element('p', {className: passed === of ? 'good' : 'bad'}, told);
    box.replaceChildren(head, element('ul', {}, ...result.failed.map(([test, text]) => element('li', {},
      element('b', {}, `${test}: `), text))));
  }

  /** Keeps and shows what came of the tests of an exercise. */
  graded(exercise, {refused, results}) {
    const failed = results.filter(it => it.result !== 'ok').map(it => [it.test.name, sentence(it)]);
    const passed = results.filter(passes).length;
    return this.keep(exercise, {passed, of: testsOf(exercise).length, failed, refused, isOld: false});
  }

  keep(exercise, result) {
    this.results.set(exercise.name, result);
    this.store.put(`result:${exercise.name}`, result);
    const box = document.querySelector(`#exercise-${exercise.name} .result`);
    if (box) this.fill(box, exercise, result);
    this.list();
    return result;
  }

  /** A change of what was written for an exercise: what came of its tests was before it. */
  touch(exercise) {
    const result = this.results.get(exercise.name);
    if (result && !result.isOld) this.keep(exercise, {...result, isOld: true});
  }
}
