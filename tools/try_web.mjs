// Tries what tools/web has made: b.wasm by its host b.mjs, beside the native program. tools/try-web calls it.
//
//   node tools/try_web.mjs DIR PROGRAM [RUNS]
//
// Each case of crates/bcases/data is answered byte for byte as by PROGRAM. In the rows of tools/rows_to_fail.sh each
// open, read and write fails in turn, or moves one byte, and the memory has each size from that at the start on. The
// command line and each call of b.mjs answers as PROGRAM, and so does b.wasm as Node's own host of WASI runs it, and
// sessions.wasm in slices.
//
// RUNS is a list in JSON. Each run in it has `command`, `args`, `file` and `stdin`, which may be null, and its answer:
// `status`, `stdout` and `stderr`, of which null is any text but none.
import {spawnSync} from 'node:child_process';
import fs from 'node:fs';
import os from 'node:os';
import path from 'node:path';
import {fileURLToPath, pathToFileURL} from 'node:url';
import {withMost} from './module_memory.mjs';

const [folder, native, runsFile] = process.argv.slice(2).map(it => path.resolve(it));
const {load, loadSessions, Failed, Refused} = await import(pathToFileURL(path.join(folder, 'b.mjs')).href);
const TOP = fileURLToPath(new URL('..', import.meta.url)), DATA = path.join(TOP, 'crates/bcases/data');
const PAGE = 65536, MOST_PAGES = 32, MOST_TOLD = 10;
const module = fs.readFileSync(path.join(folder, 'b.wasm'));
const b = await load(module);
let wrong = 0;

function expect(is, told) {
  if (is) return;
  wrong += 1;
  if (wrong <= MOST_TOLD) console.error(`wrong: ${told}`);
}

const same = (one, other) => Buffer.compare(Buffer.from(one), Buffer.from(other)) === 0;
const begins = (one, whole) => same(one, whole.subarray(0, one.length));
const readOr = (name, other) => (fs.existsSync(name) && fs.statSync(name).isFile() ? fs.readFileSync(name) : other);

// ---- Runs ----

/** Gives bytes in pieces, one call after another. */
function inputOf(bytes) {
  let at = 0;
  return max => bytes.subarray(at, (at += Math.min(max, bytes.length - at)));
}

/** A run of the module: its status and what it wrote, or the text of what stopped it. */
function run(program, words, io) {
  const kept = {out: [], line: []};
  const keep = to => bytes => void kept[to].push(bytes);
  let status;
  try {
    status = program.command(words, {output: keep('out'), diagnostics: keep('line'), ...io(keep)});
  } catch (error) {
    status = String(error);
  }
  return {status, out: Buffer.concat(kept.out), line: Buffer.concat(kept.line)};
}

function runNative(words, input, cwd) {
  const {status, stdout, stderr} = spawnSync(native, words, {cwd, input, maxBuffer: 1 << 30});
  return {status, out: stdout, line: stderr};
}

const isSame = (one, other) => one.status === other.status && same(one.out, other.out) && same(one.line, other.line);
const shown = it => `${it.status}, ${it.out.length} and ${it.line.length} bytes: ${it.line.toString().slice(0, 80)}`;

function compare(name, words, input, cwd) {
  const files = file => readOr(path.resolve(cwd, file), undefined);
  const got = run(b, words, () => ({files, input: inputOf(input)})), wanted = runNative(words, input, cwd);
  expect(isSame(got, wanted), `${name}: ${words.join(' ')}: native ${shown(wanted)}; module ${shown(got)}`);
}

// ---- Cases and runs ----

function tryCase(args) {
  const at = kind => args.replace(/args$/, kind), words = fs.readFileSync(args, 'utf8').replace(/\n$/, '').split('\n');
  const given = {compile: 'b', migrate: 'code'}[words[0]] ?? 'in';
  const input = readOr(at('in'), readOr(at(given), Buffer.alloc(0)));
  const editions = words.includes('--edition=both') ? ['--edition=1', '--edition=2'] : ['--edition=both'];
  for (const edition of editions) {
    const now = words.map(it => (it === '--edition=both' ? edition : it));
    compare(path.relative(DATA, args), now, input, path.dirname(args));
  }
  return editions.length;
}

function tryCases() {
  const all = fs.readdirSync(DATA, {recursive: true}).filter(it => it.endsWith('.args')).sort();
  const runs = all.reduce((sum, it) => sum + tryCase(path.join(DATA, it)), 0);
  console.log(`${all.length} cases in ${runs} runs`);
}

function tryRuns() {
  const bytes = text => Buffer.from(text ?? '', 'latin1'), runs = JSON.parse(fs.readFileSync(runsFile, 'utf8'));
  for (const it of runs) {
    const files = it.file === null ? {} : {FILE: bytes(it.file)};
    const words = [it.command, ...it.args, ...Object.keys(files)];
    const got = run(b, words, () => ({files, input: inputOf(bytes(it.stdin))}));
    const is = (written, wanted) => (wanted === null ? written.length > 0 : same(written, bytes(wanted)));
    const isRight = got.status === it.status && is(got.out, it.stdout) && is(got.line, it.stderr);
    expect(isRight, `run ${it.id}: ${shown(got)}`);
  }
  console.log(`${runs.length} runs of ${runsFile}`);
}

// ---- Failures in turn ----

/** The rows of a command, a text and an input, with the files that they name. */
function rowsToFail() {
  const script = `row() { printf '%s\\0' "$1" "$2" "\${3-}"; }
lib=lib.b made='--made code --lines lines'; . tools/rows_to_fail.sh`;
  const parts = spawnSync('bash', ['-euc', script], {cwd: TOP}).stdout.toString('latin1').split('\0').slice(0, -1);
  const rows = [];
  for (let at = 0; at < parts.length; at += 3) rows.push(rowOf(...parts.slice(at, at + 3)));
  return rows;
}

function rowOf(command, text, input) {
  const files = {
    'lib.b': 'f(a) { printn(a, 10); }\n',
    code: 'F main 0 0 0 0 6\nx putchar\nv\nx getchar\nv\nk 0\nk 1\nE\n',
    lines: '1\n1\n1\n2\n2\n2\n',
  };
  const words = command.split(' '), readsText = ['compile', 'migrate'].includes(words[0]);
  if (!readsText) words.push('text');
  return {command, words, files: {...files, text}, input: readsText ? text : input, whole: undefined};
}

/** The bytes of a file, of which a read may move one, or fail. */
class FileOfPieces extends Uint8Array {
  static get [Symbol.species]() {
    return Uint8Array;
  }

  subarray(from, to) {
    return super.subarray(from, from + this.may(to - from));
  }
}

/** The system of a row, in which the Nth call of a kind fails (`io`), or the Nth large one moves one byte (`short`). */
class FailingSystem {
  constructor(row, kind, nth) {
    Object.assign(this, {row, kind, nth, calls: 0, given: inputOf(Buffer.from(row.input, 'latin1'))});
    this.may = this.may.bind(this);
  }

  /** How many of so many bytes a call moves. */
  may(count) {
    const counts = this.kind === 'io' || (this.kind === 'short' && count > 1);
    if (!counts || ++this.calls !== this.nth) return count;
    if (this.kind === 'io') throw new Failed('the call that fails');
    return 1;
  }

  open(name) {
    this.may(0);
    if (!Object.hasOwn(this.row.files, name)) return undefined;
    return Object.assign(new FileOfPieces(Buffer.from(this.row.files[name], 'latin1')), {may: this.may});
  }

  io(keep) {
    const writes = to => bytes => {
      const taken = this.may(bytes.length);
      keep(to)(bytes.subarray(0, taken));
      return taken;
    };
    const input = max => this.given(this.may(max));
    return {files: name => this.open(name), input, output: writes('out'), diagnostics: writes('line')};
  }
}

const isStopped = (got, whole) => begins(got.out, whole.out) && begins(got.line, whole.line);

/** What a run tells without what it tells of one that never ends, as where memory is refused for the search. What to do
    next stays. */
function unsearched(whole) {
  const rows = whole.out.toString('latin1'), line = whole.line.toString('latin1');
  const next = (line.match(/^next: .*\n/gm) ?? []).join('');
  const none = `  means: no end within so many steps; --steps N or --no-limit gives more\n${next}`;
  return {
    ...whole,
    out: Buffer.from(rows.replace(/^means  it never ends:[^]*/m, ''), 'latin1'),
    line: Buffer.from(line.replace(/^  means: it never ends:[^]*/m, none), 'latin1'),
  };
}

/** Whether nothing came but a line that names a file; run and go alone, without --where, write none. */
function isUnread(row, got) {
  const lines = Object.keys(row.files).map(it => `error: the file '${it}' can't be read\n`);
  return !['run', 'go'].includes(row.command) && got.out.length === 0 && lines.includes(got.line.toString());
}

/** Lets each call of one kind fail, and answers how many there were, and how many ended the run. */
function inTurn(row, kind) {
  for (let nth = 1, ended = 0; ; nth++) {
    const system = new FailingSystem(row, kind, nth), got = run(b, row.words, keep => system.io(keep));
    if (system.calls < nth) return {calls: nth - 1, ended};
    const isWhole = isSame(got, row.whole);
    const isRight = kind === 'io' && got.status === 133 && (isStopped(got, row.whole) || isUnread(row, got));
    expect(isWhole || isRight, `${kind} ${nth} of ${row.command} '${row.files.text.slice(0, 60)}': ${shown(got)}`);
    ended += isWhole ? 0 : 1;
  }
}

/** Runs all rows with a memory that can't grow, then with one page more, and so on. */
async function tryMemory(rows) {
  const {least} = withMost(module, 0);
  let runs = 0, ended = 0;
  for (let pages = least; pages <= MOST_PAGES; pages++) {
    const program = await load(withMost(module, pages).bytes);
    for (const row of rows) {
      const got = run(program, row.words, keep => new FailingSystem(row, 'none', 0).io(keep));
      const isWhole = isSame(got, row.whole) || isSame(got, unsearched(row.whole));
      const isRight = got.status === 134 && isStopped(got, row.whole);
      expect(isWhole || isRight, `${pages} pages for ${row.command} '${row.files.text.slice(0, 60)}': ${shown(got)}`);
      runs += 1;
      ended += isWhole ? 0 : 1;
    }
  }
  console.log(`memories of ${least} to ${MOST_PAGES} pages: ${runs} runs, of which ${ended} ended with 134`);
}

async function tryFailures() {
  const rows = rowsToFail();
  for (const row of rows) row.whole = run(b, row.words, keep => new FailingSystem(row, 'none', 0).io(keep));
  for (const kind of ['io', 'short']) {
    const all = rows.map(row => inTurn(row, kind)), sum = part => all.reduce((before, it) => before + it[part], 0);
    const ended = `opens, reads and writes: ${sum('calls')}, of which ${sum('ended')} ended the run with 133`;
    console.log(kind === 'io' ? ended : `reads and writes of several bytes: ${sum('calls')}`);
  }
  await tryMemory(rows);
}

// ---- The command line, the calls of b.mjs, and another host ----

const PRINTS = 'main() { auto c; printf("%d*n", 6*7); while((c = getchar()) != \'*e\') putchar(c); }\n';

/** Runs the native program with a file as its input: Node's own pipes are sockets, which can't be opened by a name. */
function nativeOfFile(words, name) {
  const input = fs.openSync(name, 'r');
  try {
    return spawnSync(native, words, {stdio: [input, 'pipe', 'pipe']});
  } finally {
    fs.closeSync(input);
  }
}

function tryCommandLine(room) {
  const host = path.join(folder, 'b.mjs');
  const started = (...words) => spawnSync(process.execPath, [host, ...words], {cwd: room, input: 'hi'});
  const expectStart = (words, status, out, line) => {
    const got = started(...words), said = `${got.status} ${got.stdout} ${got.stderr}`;
    const isRight = got.status === status && `${got.stdout}` === out && `${got.stderr}` === line;
    expect(isRight, `node b.mjs ${words.join(' ')}: ${said}`);
  };
  expectStart(['go', 'x.b', '--with', 'print'], 0, '42\nhi', '');
  expectStart(['go', '--with=print', '--', 'x.b'], 0, '42\nhi', '');
  expectStart(['go', 'x.b'], 132, '', 'load 3\n');
  expectStart(['run', 'none'], 133, '', '');
  const checked = nativeOfFile(['check', '/dev/stdin'], path.join(room, 'hi'));
  expectStart(['check', '-'], 1, `${checked.stdout}`, `${checked.stderr}`);
  const all = started('show', 'x.b', '--with', 'print', '--steps', '200');
  expect(all.status === 0 && `${all.stdout}`.endsWith('</html>\n'), 'node b.mjs show: the page is whole');
}

/** Each call of b.mjs for a source, beside the command. */
function tryCalls(room) {
  const native = (words, input = '') => runNative(words, input, room), source = fs.readFileSync(path.join(room, 'x.b'));
  const libs = {'print.b': fs.readFileSync(path.join(TOP, 'lib/print.b'))};
  const code = native(['compile', '--with', 'print.b'], source).out;
  const expectCall = (name, got, words, input) => {
    const wanted = native(words, input), is = {status: got.status, out: got.output, line: Buffer.from(got.diagnostics)};
    expect(isSame(is, wanted), `${name}: native ${shown(wanted)}; ${got.status} ${got.diagnostics}`);
  };
  const name = 'x.b', after = ['--with', 'print.b'];
  expectCall('compile', b.compile(source, {libs}), ['compile', ...after], source);
  const ran = b.run(code, {name: 'code', input: 'hi', where: true, steps: 50});
  expectCall('run', ran, ['run', '--where', '--steps', '50', 'code'], 'hi');
  const gone = b.go(source, {name, libs, input: 'hi', steps: Infinity});
  expectCall('go', gone, ['go', name, '--no-limit', ...after], 'hi');
  expectCall('go ./', b.go(source, {name: './x.b', where: true}), ['go', '--where', './x.b']);
  expectCall('format', b.format(source, {name}), ['format', name]);
  expectCall('show', b.show(source, {name, libs, input: 'hi', last: 9}), ['show', name, '--last', '9', ...after], 'hi');
  const made = {name, libs, input: 'hi'};
  expectCall('list', b.list(source, {name, libs}), ['list', name, ...after]);
  expectCall('map', b.map(source, {name, libs, edition: 2}), ['map', name, '--edition', '2', ...after]);
  expectCall('trace', b.trace(source, {...made, from: 7, steps: 20}),
    ['trace', name, '--from', '7', '--steps', '20', ...after], 'hi');
  expectCall('trace, a function', b.trace(source, {...made, function: 'main', last: 3}),
    ['trace', name, '--function', 'main', '--last', '3', ...after], 'hi');
  expectCall('count', b.count(source, made), ['count', name, ...after], 'hi');
  expectCall('count, json', b.count(source, {...made, json: true}), ['count', '--json', name, ...after], 'hi');
  expectCall('migrate', b.migrate(code), ['migrate'], code);
  expectCall('verify', b.verify(code, {name: 'code'}), ['verify', 'code']);
  expectCall('list, a code text', b.list(code, {name: 'code', code: true}), ['list', '--code', 'code']);
  const texts = {code: 'F main 0 0 0 0 4\nc 1\nc 0\nb /\nr\nE\n', lines: '1\n1 3\n1\n1\n', names: 'F main\n'};
  for (const [kind, text] of Object.entries(texts)) fs.writeFileSync(path.join(room, `made.${kind}`), text);
  const by = Object.keys(texts).flatMap(it => [it === 'code' ? '--made' : `--${it}`, `made.${it}`]);
  for (const call of ['list', 'map', 'trace', 'count', 'show'])
    expectCall(`${call}, of another compiler`, b[call](source, {name, made: texts}), [call, ...by, name]);
  expectCall('go, of another compiler', b.go(source, {name, made: texts, where: true}), ['go', '--where', ...by, name]);
  expectCall('a careful run', b.go(source, {name, libs, careful: 'warn'}), ['go', '--careful=warn', name, ...after]);
  const {status, findings} = b.check(source, {name}), wanted = native(['check', '--json', name]);
  const lines = findings.map(it => `${JSON.stringify(it)}\n`).join('');
  expect(status === wanted.status && lines === `${wanted.out}`, 'check');
}

/** Each kind of text, numbers that aren't in their range, and an output of some length. */
function tryTexts() {
  const source = 'main() { printn(6*7, 10); }', bytes = new TextEncoder().encode(source);
  const shifted = new Uint8Array([0, ...bytes, 0]);
  const views = [shifted.subarray(1, -1), new DataView(shifted.buffer, 1, bytes.length)];
  for (const text of [source, bytes, bytes.buffer, ...views]) expect(b.go(text).text === '42', 'a kind of text');
  const refused = (call, options, kind = RangeError) => {
    try {
      b[call](source, options);
      return false;
    } catch (error) {
      return error instanceof kind;
    }
  };
  for (const edition of [0, 3, 257, -1, 1.5, '2', NaN])
    for (const call of ['compile', 'go', 'check', 'format', 'list', 'map', 'trace', 'count', 'show'])
      expect(refused(call, {edition}), `${call}: edition ${edition}`);
  for (const number of [0, -1, 2 ** 64, 1.5, NaN, -Infinity])
    for (const name of ['steps', 'from', 'last'])
      expect(refused('trace', {[name]: number}), `trace: ${name} ${number}`);
  for (const call of ['compile', 'check', 'run', 'go', 'format', 'list', 'map', 'trace', 'count', 'show', 'verify'])
    expect(refused(call, {stpes: 1}, TypeError), `${call}: an option that isn't one`);
  expect(refused('list', {made: {line: ''}}, TypeError), 'list: a text that nothing would look at');
  const long = b.go("main() { auto n; n = 40000; while(n--) { putchar('ab'); putchar('cd'); } }", {steps: Infinity});
  expect(long.status === 0 && long.text === 'abcd'.repeat(40000), 'an output of 160000 bytes');
}

/** Runs the module by Node's own host of WASI, over the files of a folder. */
function tryWasi(room) {
  const script = `import fs from 'node:fs'; import {WASI} from 'node:wasi';
const [file, ...args] = process.argv.slice(1);
const wasi = new WASI({version: 'preview1', args: ['b', ...args], preopens: {'.': '.'}, returnOnExit: true});
const module = await WebAssembly.compile(fs.readFileSync(file));
process.exitCode = wasi.start(await WebAssembly.instantiate(module, wasi.getImportObject()));`;
  const inside = [['go', 'x.b', '--with', './print.b'], ['check', 'sub/y.b'], ['compile'], ['--help']];
  for (const words of [...inside, ['go', '../x.b'], ['go', '/x.b']]) {
    const given = ['--no-warnings', '--input-type=module', '-e', script, path.join(folder, 'b.wasm'), ...words];
    const {status, stdout, stderr} = spawnSync(process.execPath, given, {cwd: room, input: 'hi;'});
    const wanted = inside.includes(words) ? runNative(words, 'hi;', room) : {status: 133, out: '', line: ''};
    const isRight = isSame({status, out: stdout, line: stderr}, wanted);
    expect(isRight, `node:wasi ${words.join(' ')}: ${status} ${stdout} ${stderr}`);
  }
}

function tryHosts() {
  const room = fs.mkdtempSync(path.join(os.tmpdir(), 'try-web-'));
  try {
    fs.mkdirSync(path.join(room, 'sub'));
    fs.writeFileSync(path.join(room, 'x.b'), PRINTS);
    fs.writeFileSync(path.join(room, 'hi'), 'hi');
    fs.writeFileSync(path.join(room, 'sub/y.b'), 'main() { return(x); }\n');
    fs.copyFileSync(path.join(TOP, 'lib/print.b'), path.join(room, 'print.b'));
    fs.writeFileSync(path.join(room, 'code'), runNative(['compile', '--with', 'print.b'], PRINTS, room).out);
    for (const it of [tryCommandLine, tryCalls, tryTexts, tryWasi]) it(room);
  } finally {
    fs.rmSync(room, {recursive: true});
  }
  console.log('the command line, the calls of b.mjs, and node:wasi');
}

// ---- Sessions ----

const SLICE = 997, DEFAULT_STEPS = 10_000_000;

/** The program of a source in slices, and what the command `go` answers to it. */
function inSlices(sessions, source, edition, input) {
  const kept = [];
  try {
    const it = sessions.load(source, {edition, input});
    it.closeInput();
    let end;
    for (end of it.slices(SLICE)) {
      kept.push(it.output());
      if (it.steps > DEFAULT_STEPS - SLICE) break;
    }
    if (end.why === 'limit') end = it.goOn(DEFAULT_STEPS - it.steps);
    kept.push(it.output());
    it.free();
    const status = {halted: end.status, trapped: 130, limit: 131}[end.why];
    const line = {halted: '', trapped: `trap ${end.trap}\n`, limit: 'limit\n'}[end.why];
    return {status, out: Buffer.concat(kept), line: Buffer.from(line)};
  } catch (error) {
    if (!(error instanceof Refused)) throw error;
    return {status: error.status, out: Buffer.concat(kept), line: Buffer.from(error.line)};
  }
}

/** Each case of `go` with a source alone, as a session. */
async function trySessions() {
  const sessions = await loadSessions(fs.readFileSync(path.join(folder, 'sessions.wasm')));
  let runs = 0;
  for (const file of fs.readdirSync(DATA, {recursive: true}).filter(it => it.endsWith('.args')).sort()) {
    const at = kind => path.join(DATA, file).replace(/args$/, kind);
    const [command, ...words] = fs.readFileSync(at('args'), 'utf8').replace(/\n$/, '').split('\n');
    const [name, ...rest] = words.filter(it => !it.startsWith('--edition='));
    if (command !== 'go' || rest.length > 0 || !at('b').endsWith(`/${name}`)) continue;
    const given = words.find(it => it.startsWith('--edition='))?.slice('--edition='.length) ?? '1';
    for (const edition of given === 'both' ? [1, 2] : [Number(given)]) {
      const input = readOr(at('in'), Buffer.alloc(0)), got = inSlices(sessions, readOr(at('b')), edition, input);
      const wanted = runNative(['go', '--edition', `${edition}`, name], input, path.dirname(at('b')));
      expect(isSame(got, wanted), `${file}, a session: native ${shown(wanted)}; ${shown(got)}`);
      runs++;
    }
  }
  console.log(`${runs} cases in slices`);
}

tryCases();
await trySessions();
if (runsFile) tryRuns();
tryHosts();
await tryFailures();
console.log(`wrong answers: ${wrong}`);
process.exitCode = wrong === 0 ? 0 : 1;
