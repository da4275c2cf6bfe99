// Tries the sessions of b.mjs, under Node and in pages: tools/try-sessions starts it in each.
import {withMost} from './module_memory.mjs';

const NEXT = "n; main() { extrn n; auto c; while((c = getchar()) != '*e') { n++; putchar(c + 1); } exit(n); }";
const LOOP = 'main() { while(1) ; }';
const TRAPS = 'F main 0 0 0 0 3\nc 1\nc 0\nb /\nE\n';
// Writes, and puts one more operand each time.
const GROWS = 'F main 0 0 0 0 7\nx putchar\nv\nc 97\nk 1\np\nc 1\nj 0\nE\n';
const MOST_PAGES = 60, SOON = 50; // pages of 64 KB, and milliseconds
const MANY = 3000;

const text = bytes => new TextDecoder().decode(bytes);
const pause = milliseconds => new Promise(done => setTimeout(done, milliseconds));
const ended = (why, parts = {}) => ({status: 0, trap: '', of: '', text: '', at: null, ...parts, why});
const limit = ended('limit'), wants = ended('wants input'), halted = status => ended('halted', {status});

/** An object with its parts in the order of their names. */
const sorted = it => (it?.constructor === Object ? Object.fromEntries(Object.entries(it).sort()) : it);

/** The error that a call throws, or a promise. */
async function thrown(call) {
  try {
    await call();
    return null;
  } catch (error) {
    return error;
  }
}

const kindOf = async call => (await thrown(call))?.constructor.name;

/** A run that is fed, looked at and taken from. */
async function talks({sessions, expect}) {
  const it = sessions.load(NEXT);
  expect('one step', it.goOn(1), limit);
  expect('no input', it.goOn(), wants);
  expect('no input again', it.goOn(1000n), wants);
  it.feed('HA');
  expect('all read', it.goOn(), wants);
  expect('its output', text(it.output()), 'IB');
  expect('no more output', it.output().length, 0);
  expect('a word', it.word(7), 2);
  it.setWord(7, 5);
  const asked = ['L', new Uint8Array([77]).buffer, ''], told = [], output = part => void told.push(text(part));
  expect('a run', await it.run({input: async () => asked.shift(), output}), halted(7));
  expect('what it wrote', told.join(''), 'MN');
  expect('the end again', it.goOn(), halted(7));
  it.start('Z');
  expect('a run without input', await it.run(), halted(1));
  expect('its word', it.word(7), 1);
  it.free();
}

/** Steps and slices, and where a run stands. */
async function places({sessions, expect}) {
  const it = sessions.load('main() { f(); } f() { g(); } g() { putchar(7); }');
  const all = [...it], deepest = Math.max(...all.map(place => place.callers));
  expect('calls below', deepest, 2);
  expect('each step', all.map(place => place.steps), all.map((_, at) => at));
  expect('its functions', new Set(all.map(place => place.function)).size, 3);
  expect('the end', it.goOn(), halted(0));
  expect('all steps', [it.steps, it.callers], [it.place().steps, 0]);
  const loop = sessions.load(LOOP);
  expect('no steps', [loop.goOn(0), loop.steps], [limit, 0]);
  let slices = 0;
  for (const end of loop.slices(1000)) if (++slices === 5 || end.why !== 'limit') break;
  expect('slices', [slices, loop.steps], [5, 5000]);
  expect('slices up to an end', [...sessions.load(NEXT, {input: 'abc'}).slices(10)].at(-1), wants);
  expect('many steps', [await loop.run({steps: 3_000_001}), loop.steps], [limit, 3_005_001]);
  expect('no more steps', [await loop.run({steps: 0}), loop.steps], [limit, 3_005_001]);
}

/** Copies: each goes on as the run would have, and is started anew and freed on its own. */
async function copies({sessions, expect}) {
  const it = sessions.load(NEXT, {input: 'HA'});
  it.goOn(30);
  const copy = it.copy();
  expect('a copy', [copy.place(), copy.word(7)], [it.place(), it.word(7)]);
  it.setWord(7, 60);
  expect('words of its own', [copy.word(7), it.word(7)], [2, 60]);
  for (const one of [copy, it]) {
    one.feed('L');
    one.closeInput();
  }
  const ends = one => [one.goOn(), text(one.output())];
  expect('ends of both', [ends(copy), ends(it)], [[halted(3), 'IBM'], [halted(61), 'IBM']]);
  const again = copy.copy();
  again.start('Z');
  again.closeInput();
  expect('one anew', [again.goOn(), copy.goOn(), it.goOn()], [halted(1), halted(3), halted(61)]);
  copy.free();
  expect('one freed', [await kindOf(() => copy.copy()), text(again.output()), it.word(7)], ['Error', '[', 61]);
  const loop = sessions.load(LOOP), kept = [1, 2, 3].map(() => (loop.goOn(1000), loop.copy()));
  loop.free();
  kept[1].free();
  expect('others', [kept[0], kept[2]].map(one => (one.goOn(500), one.copy().steps)), [1500, 3500]);
}

/** Files after a source, faults of what is loaded, and names and lines. */
async function loads({sessions, expect}) {
  const source = 'main() { printn(six(), 10); }', libs = {'six.b': 'six() {\n  return(6);\n}'};
  const told = async call => (({status, line}) => [status, line])((await thrown(call)) ?? {});
  const it = sessions.load(source, {libs});
  expect('a file after it', [it.goOn(), text(it.output())], [halted(0), '6']);
  expect('no such file', await told(() => sessions.load(source)), [132, 'load 3\n']);
  expect('a fault', await told(() => sessions.load('main() {\nreturn(x); }')), [1, 'un x 2\n']);
  expect('no code text', await told(() => sessions.loadCode('F')), [132, 'code 1\n']);
  const code = 'F main 0 0 0 0 4\nc 7\np\nc 0\nr\nE\n', lines = '8\n8\n9\n9\n';
  const linesOf = options => [...sessions.loadCode(code, options)].map(place => place.line);
  expect('lines of a code text', linesOf({}), [2, 3, 4, 5]);
  expect('lines of its author', linesOf({lines, names: 'F main\n'}), [8, 8, 9, 9]);
  const columnsOf = lines => [...sessions.loadCode(code, {lines})].map(({line, column}) => [line, column]);
  expect('columns of its author', columnsOf('8 1\n8\n9 300\n9 2\n'), [[8, 1], [8, 0], [9, 300], [9, 2]]);
  expect('no columns', columnsOf(lines), [[8, 0], [8, 0], [9, 0], [9, 0]]);
  expect('a column of 0', (await told(() => sessions.loadCode(code, {lines: lines.replace('9', '9 0')})))[0], 135);
  expect('none in a source of B', it.place().column, 0);
  expect('too few lines', await told(() => sessions.loadCode(code, {lines: '8\n'})),
    [135, `error: line 2 of the file of lines has to be a number from 0 to ${2n ** 64n - 1n}, ` +
      'alone or with a column of it, for place 1 of main\n']);
  expect('a wrong name', (await told(() => sessions.loadCode(code, {names: 'F f\n'})))[0], 135);
  const calls = sessions.load('f(n) {\n  return(n);\n}\nmain() {\n  f(2);\n}');
  const seen = new Set([...calls].map(({name, line, callers}) => `${name} ${line} ${callers}`));
  expect('names and lines', ['main 5 0', 'f 2 1'].every(place => seen.has(place)), true);
  expect('a name', [calls.nameOf(calls.place().function), calls.nameOf(3)], ['main', '']);
}

/** Ends by a function `raise`: with its text, and the nearest caller that has a line of the source itself. */
async function raises({sessions, expect}) {
  const libs = {'at.b': 'at(i)\n  raise("no index", i);', 'raise.b': '\nraise(text, status)\n  exit(status);'};
  const told = source => {
    const {why, status, text, at} = sessions.load(source, {libs}).goOn();
    return [why, status, text, at && [at.name, at.line, at.file, at.fileLine]];
  };
  expect('in a file after it', told('main() {\n  at(3);\n}'), ['halted', 3, 'no index', ['main', 2, '', 2]]);
  expect('in itself', told('main()\n\nraise("", 1);'), ['halted', 1, '', ['main', 3, '', 3]]);
  expect('nothing raised', told('main()\n  exit(3);'), ['halted', 3, '', null]);
  const it = sessions.load('main() at(4);', {libs});
  it.goOn();
  expect('files of lines', [it.place(), ...it.frames()].map(({line, file, fileLine}) => [line, file, fileLine]),
    [[6, 'raise.b', 3], [6, 'raise.b', 3], [3, 'at.b', 2], [1, '', 1]]);
  it.free();
}

/** Names, by the layout of memory. */
async function symbols({sessions, expect}) {
  const source = 'n 4, 5; v[3]; f(x, y) {\n  auto w 3, i;\n  top: i = x;\n  goto top;\n}\nmain() f(1, 2);';
  const it = sessions.load(source), told = s => [s.name, s.kind, s.address, s.words];
  expect('all definitions', [...it.symbols()].map(told),
    [['n', 'simple', 7, 2], ['v', 'vector', 9, 5], ['f', 'function', 14, 1], ['main', 'function', 15, 1]]);
  const f = it.find('f');
  expect('a function', [f.function, f.parameters, f.frame, f.labels, f.line], [15, 2, 8, 1, 2]);
  expect('no names', ['g', '', '1', 'abcdefghi'].map(name => it.find(name)), [null, null, null, null]);
  expect('addresses', [0, 6, 8, 9, 13, 16].map(at => it.symbolAt(at)?.name ?? null), [null, null, 'n', 'v', 'v', null]);
  expect('words of a frame', [...it.locals(f.function)].map(told),
    [['x', 'parameter', 0, 1], ['y', 'parameter', 1, 1], ['w', 'automatic vector', 2, 5], ['i', 'automatic', 7, 1]]);
  expect('labels', [...it.labels(f.function)].map(({name, line}) => [name, line]), [['top', 3]]);
  const lines = [...it.instructions(f.function)].map(({line}) => line);
  expect('lines', [lines.length, lines[0], lines.at(-1)], [f.instructions, 2, 5]);
  expect('of no function', [...it.locals(3), ...it.labels(f.address), ...it.instructions(0)], []);
  it.free();
}

/** Breakpoints, calls, returns and watched words. */
async function breaks({sessions, expect}) {
  const it = sessions.load('n; f(k) {\n  extrn n;\n  if(k)\n    f(k - 1);\n  n++; }\nmain() f(3);');
  while (it.callers === 0) it.goOn(1);
  const at = it.place();
  for (const calls of [2, 3, 4]) {
    expect('a breakpoint', [it.goTo({places: [at]}).why, it.callers], ['stopped', calls]);
    expect('calls', it.frames().map(frame => frame.name), [...Array(calls).fill('f'), 'main']);
    expect('lines of calls', it.frames().slice(1).map(frame => frame.line), [...Array(calls - 1).fill(4), 6]);
    expect('a parameter', it.word(it.frames()[0].start), 4 - calls);
  }
  expect('a return', [it.goTo({returned: 4}).why, it.callers], ['stopped', 3]);
  expect('a watchpoint', [it.goTo({words: [{address: 7, word: it.word(7)}]}).why, it.word(7)], ['stopped', 2]);
  expect('a place near', [it.goTo({near: [it.frames()[2]], callers: 1}).why, it.callers], ['stopped', 1]);
  expect('the end', it.goTo({places: [at]}).why, 'halted');
  const far = {words: [{address: 65536, word: 0}]};
  expect('no such address', (await thrown(() => it.goTo(far))) instanceof RangeError, true);
}

/** What a run may hold between two slices. */
async function limits({sessions, expect}) {
  const writes = "main() { auto n; n = 60000; while(n--) putchar('ab'); }", whole = 'ab'.repeat(60000);
  for (const input of [7, true, {}]) {
    expect('no text', await kindOf(() => sessions.load(writes, {input})), 'TypeError');
  }
  const it = sessions.load(writes, {limits: {output: 100}});
  expect('output past its limit', it.goOn(), ended('has output'));
  const first = text(it.output()), parts = [];
  expect('so much of it', first.length > 100 && first.length < 65536, true);
  expect('the rest', await it.run({output: part => void parts.push(text(part))}), halted(0));
  expect('all of it', first + parts.join('') === whole, true);
  const grows = sessions.loadCode('F main 0 0 0 0 2\nc 1\nj 0\nE\n', {limits: {operands: 1000}});
  expect('operands past their limit', await grows.run(), ended('too large', {of: 'operands'}));
  grows.limit({operands: Infinity});
  expect('without a limit', await grows.run({steps: 200000}), limit);
  const fills = sessions.load('v[20000]; main() { extrn v; auto n; n = 0; while(n < 20000) v[n++] = 7; }');
  fills.limit({pages: 3});
  expect('pages past their limit', await fills.run(), ended('too large', {of: 'pages'}));
  fills.limit({operands: 1000});
  expect('a limit that stays', await fills.run(), ended('too large', {of: 'pages'}));
  fills.limit({pages: 256});
  expect('more pages', await fills.run(), halted(0));
  for (const most of [{pages: 257}, {pages: -1}, {operands: -1}, {output: 2 ** 64}, {operands: 1.5}]) {
    expect('a limit', await kindOf(() => fills.limit(most)), 'RangeError');
    expect('a limit of a load', await kindOf(() => sessions.load(writes, {limits: most})), 'RangeError');
  }
}

/** However a run is cut, it is the same run. */
async function cuts({sessions, expect}) {
  const source = "main() { auto n; n = 30000; while(n--) { putchar('ab'); putchar('cd'); putchar('*n'); } exit(9); }";
  const whole = 'abcd\n'.repeat(30000), once = sessions.load(source);
  expect('one slice', [once.goOn(Infinity), text(once.output()) === whole], [halted(9), true]);
  for (const steps of [1000, 77777]) {
    const it = sessions.load(source), parts = [];
    let end;
    for (end of it.slices(steps)) parts.push(text(it.output()));
    expect(`slices of ${steps}`, [end, parts.join('') === whole], [halted(9), true]);
  }
  const parts = [], written = sessions.load(source).outputs();
  for (;;) {
    const {done, value} = await written.next();
    if (done) expect('the end of the output', value, halted(9));
    if (done) break;
    parts.push(text(value));
  }
  expect('output as an iterator', parts.join('') === whole, true);
  const read = [];
  for await (const part of sessions.load(NEXT, {input: 'HAL'}).outputs()) read.push(text(part));
  expect('output of an input', read.join(''), 'IBM');
}

/** What is refused. */
async function refusals({sessions, expect, b}) {
  const it = sessions.load(NEXT), told = async call => (await thrown(call))?.status;
  expect('a fault', await told(() => sessions.load('main() {')), 1);
  expect('no main', await told(() => sessions.load('n;')), 132);
  const full = await thrown(() => sessions.load('v[32766]; w[32758]; main() { auto a; ; }'));
  expect('no room for a frame', `${full.status} ${full.line}`, '130 trap st\n');
  expect('no code text', await told(() => sessions.loadCode('E')), 132);
  for (const option of ['lines', 'names', 'limit'])
    expect(`${option} of a source`, await kindOf(() => sessions.load(NEXT, {[option]: ''})), 'TypeError');
  for (const option of ['edition', 'libs', 'line'])
    expect(`${option} of a code text`, await kindOf(() => sessions.loadCode(TRAPS, {[option]: ''})), 'TypeError');
  expect('no such limit', await kindOf(() => sessions.load(NEXT, {limits: {page: 1}})), 'TypeError');
  expect('no such stop', await kindOf(() => sessions.load(NEXT).goTo({place: []})), 'TypeError');
  expect('its kind', (await thrown(() => sessions.loadCode('E'))) instanceof b.Refused, true);
  expect('a trap', await sessions.loadCode(TRAPS).run(), ended('trapped', {trap: 'dz'}));
  for (const edition of [0, 3, 257, -1, 1.5, '2', NaN])
    expect(`edition ${edition}`, await kindOf(() => sessions.load(NEXT, {edition})), 'RangeError');
  for (const steps of [-1, 2 ** 64, 1.5, NaN, -Infinity, '1', -1n, 2n ** 64n]) {
    expect(`${steps} steps`, await kindOf(() => it.goOn(steps)), 'RangeError');
    expect(`a run of ${steps} steps`, await kindOf(() => it.run({steps})), 'RangeError');
  }
  for (const number of [-1, 65536, 1.5, NaN, '1']) {
    expect(`address ${number}`, await kindOf(() => it.word(number)), 'RangeError');
    expect(`word ${number}`, await kindOf(() => it.setWord(7, number)), 'RangeError');
  }
  it.closeInput();
  expect('bytes after the end', (await thrown(() => it.feed('x'))).message, 'the input of this session was closed');
  it.start('ab');
  const failing = () => { throw new SyntaxError('of the output'); };
  expect('an error of the output', await kindOf(() => it.run({output: failing})), 'SyntaxError');
  expect('it goes on', await it.run(), halted(2));
  it.free();
  it.free();
  for (const call of ['goOn', 'output', 'place', 'closeInput', 'start', 'run'])
    expect(`${call} after it was freed`, (await thrown(() => it[call]())).message, 'this session was freed');
  if (Symbol.dispose) {
    const held = sessions.load(LOOP);
    held[Symbol.dispose]();
    expect('disposed of', (await thrown(() => held.goOn())).message, 'this session was freed');
  }
}

/** A long run leaves the page alive, and stops soon. */
async function stopsSoon({sessions}) {
  const it = sessions.load(LOOP), stopper = new AbortController(), gaps = [];
  let last = performance.now(), pressed;
  const clock = setInterval(() => {
    gaps.push(performance.now() - last);
    last = performance.now();
  }, 5);
  setTimeout(() => {
    pressed = performance.now();
    stopper.abort();
  }, 300);
  const failure = await thrown(() => it.run({steps: Infinity, signal: stopper.signal}));
  const took = performance.now() - pressed;
  clearInterval(clock);
  const goesOn = it.goOn(10).why === 'limit', late = gaps.filter(gap => gap > SOON).length;
  it.free();
  const isRight = failure.name === 'AbortError' && goesOn && took < SOON && 10 * late < gaps.length;
  return isRight ? null : [failure.name, took, late, gaps.length];
}

async function stops(all) {
  const {sessions, expect} = all;
  let wrong = await stopsSoon(all);
  for (let tries = 0; wrong && tries < 5; tries++) wrong = await stopsSoon(all); // a busy machine may be late
  expect('an endless run: stopped, after milliseconds, and how many gaps of how many were long', wrong, null);
  const it = sessions.load(NEXT), stopper = new AbortController();
  const run = thrown(() => it.run({input: () => new Promise(() => {}), signal: stopper.signal}));
  await pause(20);
  expect('a second run beside it', (await thrown(() => it.run())).message, 'this session is running');
  expect('a start beside it', (await thrown(() => it.start())).message, 'this session is running');
  stopper.abort(new RangeError('by hand'));
  expect('stopped where it waits', (await run).message, 'by hand');
  it.feed('a');
  expect('it goes on', await it.run(), halted(1));
  const signal = AbortSignal.abort(new TypeError('before'));
  expect('stopped before', await kindOf(() => it.run({signal})), 'TypeError');
}

/** Several sessions in one memory, which stays as large as it is. */
async function many({sessions, expect, collect}) {
  const size = () => sessions.exports.memory.buffer.byteLength;
  const [one, other] = [sessions.load(NEXT, {input: 'HAL'}), sessions.load(NEXT, {input: '123'})];
  for (let at = 0; at < 50; at++) [one, other].map(it => it.goOn(2));
  expect('two sessions in turn', [one, other].map(it => text(it.output())), ['IBM', '234']);
  const makes = count => {
    for (let at = 0; at < count; at++) sessions.load(NEXT, {input: 'HAL'}).free();
  };
  makes(10);
  const before = size();
  makes(MANY);
  expect('memory after many sessions', size(), before);
  if (!collect) return;
  const forgets = () => {
    for (let at = 0; at < 200; at++) sessions.load(NEXT).goOn(5);
  };
  forgets();
  const grown = Math.max(size() - before, 1 << 20);
  for (let round = 0; round < 30; round++) {
    await collect();
    forgets();
  }
  expect('memory after sessions that nobody freed', size() - before <= 5 * grown, true);
}

/** Memories of each size: a session is whole, or it is refused, after the beginning of its output. */
async function memories({module, expect, b}) {
  const {least} = withMost(module, 0);
  let refused = 0, whole = 0;
  for (let pages = least; pages <= MOST_PAGES; pages++) {
    const parts = [];
    const failure = await thrown(async () => {
      const it = (await b.loadSessions(withMost(module, pages).bytes)).load(NEXT, {input: 'HAL'});
      const end = await it.run({output: part => void parts.push(text(part))});
      expect('a run in little memory', end, halted(3));
      it.free();
    });
    const out = parts.join('');
    if (failure) expect(`${pages} pages`, [failure.status, 'IBM'.startsWith(out)], [134, true]);
    else expect(`${pages} pages`, out, 'IBM');
    if (failure) refused++;
    else whole++;
  }
  expect('some were refused, and some were whole', refused > 0 && whole > 0, true);
}

/** A run that takes all memory: what its last slice wrote is handed on before that is told. */
async function lost({module, expect, b}) {
  const {least} = withMost(module, 0), {bytes} = withMost(module, least + 60), parts = [];
  const it = (await b.loadSessions(bytes)).loadCode(GROWS), goOn = it.goOn.bind(it);
  let before = -1;
  it.goOn = steps => {
    try {
      return goOn(steps);
    } catch (error) {
      before = parts.length;
      throw error;
    }
  };
  const failure = await thrown(() => it.run({output: part => void parts.push(part.length), steps: Infinity}));
  expect('memory is refused', [failure.status, parts.length], [134, before + 1]);
  expect('and again', (await thrown(() => goOn())).status, 134);
  expect('a place of a run that is lost', (await thrown(() => it.place())).status, 134);
  it.start();
  expect('another run', it.goOn(10).why, 'limit');
  it.free();
}

const downward = n => (n < 1 ? 0 : 2 * downward(n - 1) + n);

/** Calls of functions of the host, and by it. */
async function hosts({sessions, host, expect}) {
  const libs = {'host.b': host}, load = source => sessions.load(source, {libs});
  const adds = 'main() { auto c; while((c = getchar()) != \'*e\') putchar(host("add", c, 1)); exit(host("none")); }';
  let it = load(adds);
  const parts = ['H', 'AL', ''], told = [];
  const functions = {add: async (x, y) => x + y, none: () => {}};
  const how = {input: () => parts.shift(), output: part => void told.push(text(part))};
  expect('calls amid input', await it.serve(functions, how), halted(0));
  expect('what they gave', told.join(''), 'IBM');
  it = load('down(n) return(n < 1 ? 0 : host("up", n - 1) + n); stop(n) exit(n); main() { serve(); putchar(7); }');
  const up = {up: async n => 2 * (await it.call('down', [n]))};
  expect('not served yet', await kindOf(() => it.call('down', [1])), 'Error');
  expect('it waits', await it.serve(up), ended('serves'));
  for (const n of [0, 1, 2, 7, -1]) expect('both ways', await it.call('down', [n]), downward(n));
  expect('no such function', await kindOf(() => it.call('up')), 'RangeError');
  expect('too many words', await kindOf(() => it.call('down', [1, 2, 3, 4, 5, 6])), 'RangeError');
  expect('too large a word', await kindOf(() => it.call('down', [65536])), 'RangeError');
  expect('an end in a call', (await thrown(() => it.call('stop', [7]))).end, halted(7));
  it = load('main() { auto v 20; exit(host("put", v, 20)); }');
  const put = (to, size) => {
    it.setText(to, 'odd');
    it.setText(to, 'even');
    expect('its words', size, 20);
    return it.text(to).length;
  };
  expect('no function', await kindOf(() => it.serve({})), 'RangeError');
  expect('what it throws', await kindOf(() => it.serve({put: () => { throw new TypeError('no'); }})), 'TypeError');
  expect('a wrong answer', await kindOf(() => it.serve({put: () => 70000})), 'RangeError');
  expect('the same call again', await it.serve({put}), halted(4));
  expect('the words of a text', it.words(65535, 2).length, 2);
  it.setWords(-2, new Set([7, 8]));
  for (const wrong of [70000, 1.5]) expect('no word', await kindOf(() => it.setWords(-2, [9, wrong])), 'RangeError');
  expect('an address below 0', it.words(-2, 2), [7, 8]);
  it = load('some(n) { while(n--) ; return(7); } main() { host("x"); host("x"); while(1) ; }');
  const takesLong = {x: () => it.call('some', [1000])};
  expect('more steps in a call', await it.serve(takesLong, {steps: 2000}), ended('limit'));
  it = load(`f(x) return(host("g", x) + 100); one(x) return(x + 1); sub() serve();
    main() { printn(host("x", 5), 10); serve(); }`);
  let tries = 0;
  const g = x => { if (++tries === 1) throw new TypeError('no'); return x + 1; };
  const within = {g, x: async x => 2 * (await it.call('f', [x]))};
  expect('what it throws in a call', await kindOf(() => it.serve(within)), 'TypeError');
  expect('a call before it goes on', await it.call('one', [7]), 8);
  expect('it goes on', await it.serve(within, {output: part => told.push(text(part))}), ended('serves'));
  expect('with all calls', [tries, told.at(-1)], [3, '212']);
  const copy = it.copy();
  expect('a copy is served, too', [await copy.call('one', [1]), await it.call('one', [2])], [2, 3]);
  copy.free();
  const [one, other] = await Promise.allSettled([it.call('one', [1]), it.call('one', [2])]);
  expect('a call amid another', [one.value, other.status], [2, 'rejected']);
  expect('it waits in a call', (await thrown(() => it.call('sub'))).end, ended('serves'));
  it = load('main() { auto c; while((c = getchar()) != 4) { putchar(c); host("x"); } }');
  const more = ['abc', 'de', ''], talk = {input: () => more.shift(), output: part => void told.push(text(part))};
  expect('no function', await kindOf(() => it.serve({}, talk)), 'RangeError');
  expect('what was read ahead', (await it.serve({x: () => {}}, talk)).why, 'halted');
  expect('all of it', told.join('').slice(-5), 'abcde');
  it.start();
  expect('and none of it then', (await it.serve({x: () => {}}, {output: talk.output})).why, 'halted');
  expect('nothing more', told.join('').slice(-5), 'abcde');
  it = load('main() { printn(host("late"), 10); putchar(getchar()); }');
  const stop = new AbortController(), written = [];
  let late;
  const slow = {late: () => { setTimeout(() => stop.abort(), 1); return new Promise(done => void (late = done)); }};
  expect('a signal', (await thrown(() => it.serve(slow, {signal: stop.signal}))).name, 'AbortError');
  late(7);
  await null;
  const again = {input: () => 'Q', output: part => void written.push(text(part))};
  expect('a function that is late', await it.serve({late: () => 8}, again), halted(0));
  expect('it has no answer', written.join(''), '8Q');
  expect('no host', await kindOf(() => sessions.load('main() ;').serve()), 'Error');
  expect('another vector', await kindOf(() => sessions.load('hostq[1]; main() ;').serve()), 'Error');
  it.free();
}

const PARTS = [
  hosts, talks, places, copies, loads, raises, symbols, breaks, limits, cuts, refusals, stops, many, memories, lost,
];

/** Runs all rows over a module, with the text of lib/host.b, and tells how many there were and what was wrong.
    `collect` lets go of what nothing refers to, where that can be asked for. */
export async function tried(b, module, host, collect) {
  const wrong = [];
  let rows = 0;
  const expect = (what, got, wanted) => {
    const [is, should] = [got, wanted].map(it => JSON.stringify(it, (_, part) => sorted(part)));
    rows++;
    if (is !== should) wrong.push(`${what}: ${is}, and not ${should}`);
  };
  for (const part of PARTS) {
    try {
      await part({b, module, host, expect, collect, sessions: await b.loadSessions(module)});
    } catch (error) {
      wrong.push(`${part.name}: ${error.stack ?? error}`);
    }
  }
  return {rows, wrong};
}
