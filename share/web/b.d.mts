/** What a stream throws where a read or a write fails: the program then ends with 133. */
export class Failed extends Error {}
/** What is thrown where the engine itself stops the program, as when it has no stack left. */
export class Stopped extends Error {}

/** The status of a command. One below 128 that comes of a run is the program's own. */
export type Status = number;
/** Bytes, in a buffer or in any view of one, or a text in UTF-8. */
export type Text = ArrayBuffer | ArrayBufferView | string;
/** Answers at most `max` bytes, and none at the end. What it throws, but for `Failed`, ends the run. */
export type Input = (max: number) => Uint8Array;
/** Takes bytes, and may answer of how many. What it throws, but for `Failed`, ends the run. */
export type Output = (bytes: Uint8Array) => number | void;

/** What a run has of the system. Without an `input` there is none, and what no one takes is lost. */
export interface System {
  /** The files that can be opened, by their names as the command line has them. `/dev/stdin` reads `input`. */
  files?: Record<string, Uint8Array> | ((name: string) => Uint8Array | undefined);
  input?: Input;
  output?: Output;
  diagnostics?: Output;
  /** Whether each byte of output is written at once, as to a terminal. */
  atOnce?: boolean;
}

export interface SourceOptions {
  /** The name of the source in what is told of it; `source.b` if not given. */
  name?: string;
  edition?: 1 | 2;
  /** Sources that come after it, by their names: `{'print.b': ..}` is `--with print.b`. */
  libs?: Record<string, Text>;
}

/** What another compiler has made of a source: its code text, the line of each place of that, and names. */
export interface Made {
  code: Text;
  lines: Text;
  names?: Text;
}

export interface CodeOptions extends SourceOptions {
  /** Whether the source is a code text of any compiler. */
  code?: boolean;
  /** What the compiler of an author made of the source, in any language. */
  made?: Made;
}

export interface GoOptions extends CodeOptions, RunOptions {
  /** Whether the run stays at the first step with a finding, or how else `b go --careful` goes on. */
  careful?: boolean | 'warn' | 'wraps';
}

export interface RunOptions {
  input?: Text | Input;
  /** The most steps, up to 4000000000; `Infinity` for no limit. */
  steps?: number;
  /** Whether `diagnostics` tells where the run went wrong. */
  where?: boolean;
  /** Where these are given, they take what is written as it comes, and the answer has none of it. */
  output?: Output;
  diagnostics?: Output;
  atOnce?: boolean;
}

export interface ShowOptions extends CodeOptions {
  input?: Text | Input;
  steps?: number;
  from?: number;
  last?: number;
}

export interface TraceOptions extends ShowOptions {
  /** The name of the function whose steps are shown; all are, where it isn't given. */
  function?: string;
}

export interface CountOptions extends CodeOptions {
  input?: Text | Input;
  steps?: number;
  /** Whether `output` has an object for each line that has code, in place of a table. */
  json?: boolean;
}

export interface Answer {
  status: Status;
  /** What was written on standard output, as bytes and as text. */
  output: Uint8Array;
  readonly text: string;
  /** What was written on standard error. */
  diagnostics: string;
}

/** What `b check --json` tells of a place. Lines and columns count from 1, with a column for each byte. `utf16_column`
    and `utf16_end` are `column` and `end` in units of UTF-16, as strings of JavaScript count. */
export interface Finding {
  file: string;
  line: number;
  column: number;
  severity: 'error' | 'warning';
  code: string;
  message: string;
  fix: string;
  end: number;
  utf16_column: number;
  utf16_end: number;
  related?: {file?: string; line: number; column: number; utf16_column: number};
  /** Ways to mend it, each alone and tried: `text` goes into the place of `length` bytes from `offset` on. */
  edits?: {
    file?: string;
    line: number;
    column: number;
    end: number;
    utf16_column: number;
    utf16_end: number;
    offset: number;
    length: number;
    text: string;
  }[];
}

/** A number that isn't in its range is a `RangeError`: an edition, a number of steps, or a step from which rows are
    shown. An option that isn't one of these is a `TypeError`. All that a program writes comes, up to what the engine
    takes for one array of bytes. */
export interface Program {
  /** Runs a command line in memory of its own, and answers its status. */
  command(words: string[], system?: System): Status;
  /** The code text of a source is `output`. */
  compile(source: Text, options?: Omit<SourceOptions, 'name'>): Answer;
  check(source: Text, options?: SourceOptions): {status: Status; findings: Finding[]};
  /** Runs a code text. */
  run(code: Text, options?: RunOptions & {name?: string}): Answer;
  /** Compiles a source and runs it. */
  go(source: Text, options?: GoOptions): Answer;
  format(source: Text, options?: Omit<SourceOptions, 'libs'>): Answer;
  /** The code of a source beside its lines is `text`; where each name lies in memory; the steps of its run. */
  list(source: Text, options?: CodeOptions): Answer;
  map(source: Text, options?: CodeOptions): Answer;
  trace(source: Text, options?: TraceOptions): Answer;
  /** How often each line was made. */
  count(source: Text, options?: CountOptions): Answer;
  /** The page of a run is `text`. */
  show(source: Text, options?: ShowOptions): Answer;
  /** Where operands can lack in a code text. */
  verify(code: Text, options?: {name?: string}): Answer;
  migrate(code: Text): Answer;
  version(): string;
}

/** The program of b.wasm: of its bytes, of a response that has them, or of the module that was compiled of them. */
export function load(given: Source | Promise<Source>): Promise<Program>;
type Source = BufferSource | Response | WebAssembly.Module;

/** What a call for sessions has refused: `status` is one of `b_session.h`, and `line` what `b` writes of it, if any. */
export class Refused extends Error {
  status: Status;
  line: string;
}

/** Why a slice has ended. `status` is that of a program which has halted, `trap` has the two letters of a trap, and
    `of` tells what is too large. Where `raise` of lib/raise.b has halted it, `text` is what that was given, and `at` is
    the nearest caller that has a line of the source itself, if one has. */
export interface End {
  why: 'halted' | 'trapped' | 'limit' | 'wants input' | 'stopped' | 'serves' | 'has output' | 'too large';
  status: number;
  trap: string;
  of: '' | 'operands' | 'pages';
  text: string;
  at: Frame | null;
}

/** Where a run stands: its function, by the address of its first string word, and by its name; the place of its next
    instruction, and the line of that, or 0; the column in it, in bytes from 1 on, or 0 where no file of lines tells it;
    how many calls are below, and how many steps were made. Lines of files that follow a source count on: `file` is the
    name of the one that has it, or empty, and `fileLine` its line there. */
export interface Place {
  function: number;
  name: string;
  place: number;
  line: number;
  column: number;
  file: string;
  fileLine: number;
  callers: number;
  steps: number;
}

/** Before which steps a slice stops: at one of `places`, as at breakpoints; at one of `near`, where no more than
    `callers` calls are below, as where a step over ends; where fewer than `returned` calls are below, as where a
    function has returned; and where the word at an address is another one than `word`, as at a watchpoint. */
export interface Stops {
  places?: {function: number; place: number}[];
  near?: {function: number; place: number}[];
  callers?: number | bigint;
  returned?: number | bigint;
  words?: {address: number; word: number}[];
}

/** An active call: its function, by the address of its first string word, and by its name; the place of its next
    instruction; the address of its frame, where its parameters and then its automatic words lie; how many parameters it
    has; the line and the column of that instruction, or of the call that it has made, or 0. `file` and `fileLine` are
    as those of a `Place`. */
export interface Frame {
  function: number;
  name: string;
  place: number;
  start: number;
  parameters: number;
  line: number;
  column: number;
  file: string;
  fileLine: number;
}

/** What a name stands for: a definition, a word of a function's frame, a label or an instruction, which has no name.
    `address` is that of a definition, the offset of a word in its frame, or the place of a label or an instruction.
    `words` is how many words a definition takes, or a word of a frame with its vector. A function has so many
    parameters, words of its frame, labels and instructions, and `function` is the address of its first string word, by
    which `Place` and `Frame` tell it; 0 for all else. `line` and `column` are those of a label or an instruction, or of
    the first one of a definition, or 0. */
export interface NamedSymbol {
  name: string;
  kind:
    'function' | 'simple' | 'vector' | 'parameter' | 'automatic' | 'automatic vector' | 'label' | 'instruction';
  address: number;
  words: number;
  parameters: number;
  frame: number;
  labels: number;
  instructions: number;
  line: number;
  column: number;
  function: number;
}

/** How much a run may hold between two slices. What isn't given at the start has no limit. */
export interface Limits {
  operands?: number | bigint;
  /** Of 256 words of memory each that have another word than 0, up to 256. */
  pages?: number;
  /** In bytes. */
  output?: number | bigint;
}

/** How many steps: a whole number below 2 ** 64, or `Infinity`. */
export type Steps = number | bigint;

export interface OutputOptions {
  /** Is asked for more input where a byte lacks, and answers nothing at its end. Without it there is no more input. */
  input?: () => Text | undefined | null | Promise<Text | undefined | null>;
  /** The most steps; 100000000 if not given. */
  steps?: Steps;
  /** Stops the run between two slices, or where it waits for input, with the reason of the signal. It can go on. */
  signal?: AbortSignal;
}

export interface TalkOptions extends OutputOptions {
  /** Gets what the program writes, as it comes. */
  output?: (bytes: Uint8Array) => unknown;
}

/** A function of the host: it gets five words, from -32768 to 32767, and answers one; nothing is 0. */
export type HostFunction = (...words: number[]) => number | void | Promise<number | void>;

/** A program that stays in memory, and its run, in slices. However a run is cut into slices, it is the same run. */
export interface Session {
  /** Begins the run anew, with this much of its input. */
  start(input?: Text): void;
  /** Another session that stands where this one does: with the same words, input, output and limits. From here on each
      goes on as this one would have, whatever is done with the other, and is started anew and freed on its own. */
  copy(): Session;
  /** Makes so many steps at most, 1000000 if not given, and tells why it ends. */
  goOn(steps?: Steps): End;
  /** Makes at least one step and so many at most, 1000000 if not given, up to the first one after it before which it
      stops. */
  goTo(stops?: Stops, steps?: Steps): End;
  /** The active calls, the running one first: the backtrace. */
  frames(): Frame[];
  /** Runs on, in slices of some milliseconds, between which a page is drawn and other code runs. */
  run(options?: TalkOptions): Promise<End>;
  /** The same, with what the program writes as an iterator. Its value at the end is the `End`. */
  outputs(options?: OutputOptions): AsyncGenerator<Uint8Array, End, void>;
  /** Makes one slice after another, up to one that doesn't end at its limit. */
  slices(steps?: Steps): Generator<End, void, void>;
  /** Makes one step after another, and tells where the run stands before each, as long as it can go on. */
  [Symbol.iterator](): Generator<Place, void, void>;
  /** Adds to the input; tells that no more of it comes. */
  feed(text: Text): void;
  closeInput(): void;
  /** Takes what the program has written since. */
  output(): Uint8Array;
  /** Where the run stands; after its end the call that ran before the last step. */
  place(): Place;
  readonly steps: number;
  readonly callers: number;
  /** The name of the function whose first string word has this address; empty where none lies there. */
  nameOf(address: number): string;
  /** The definition of a name, or that of which the word at an address is one; null where there is none. */
  find(name: Text): NamedSymbol | null;
  symbolAt(address: number): NamedSymbol | null;
  /** All definitions, in the order of memory. */
  symbols(): Generator<NamedSymbol, void, void>;
  /** The named words of the frame of the function whose first string word has this address, parameters first; its
      labels; its instructions, with their lines and columns. A code text has names of words and labels by its author's
      file alone. */
  locals(address: number): Generator<NamedSymbol, void, void>;
  labels(address: number): Generator<NamedSymbol, void, void>;
  instructions(address: number): Generator<NamedSymbol, void, void>;
  /** Sets the limits of this run, and of those that `start` begins; one that isn't named stays, and `Infinity` is none.
      A slice is looked at after each 65536 steps. */
  limit(limits?: Limits): void;
  /** The word at an address; stores one. */
  word(address: number): number;
  setWord(address: number, word: number): void;
  /** Runs on, and answers each call of `host`, of lib/host.b, by the function of that name. Where the program waits in
      `serve`, the `End` is `serves`. What a function throws comes out, and the next `serve` calls it anew. */
  serve(functions?: Record<string, HostFunction>, options?: TalkOptions): Promise<End>;
  /** Calls a function of a program that waits, with five words at most, and gives its value. */
  call(name: string, words?: number[], options?: OutputOptions): Promise<number>;
  /** So many words from an address on; stores some. */
  words(address: number, count: number): number[];
  setWords(address: number, words: Iterable<number>): void;
  /** The string at an address, or so many characters of it; stores one and its `*e`. */
  text(address: number, most?: number): string;
  setText(address: number, text: Text): void;
  /** Gives all of it back. What nothing refers to any more is given back sooner or later without this. */
  free(): void;
  [Symbol.dispose](): void;
}

export interface BeginOptions {
  /** The beginning of the input. */
  input?: Text;
  limits?: Limits;
}

export interface LoadOptions extends BeginOptions {
  edition?: 1 | 2;
  /** Sources that come after it, by their names. */
  libs?: Record<string, Text>;
}

export interface LoadCodeOptions extends BeginOptions {
  /** The files of an author, as `b list` takes them by `--lines` and `--names`. */
  lines?: Text;
  names?: Text;
}

/** Loads programs into one memory, which their sessions share. A program that can't be loaded is a `Refused`, and an
    option that isn't one of these a `TypeError`. */
export interface Sessions {
  load(source: Text, options?: LoadOptions): Session;
  loadCode(code: Text, options?: LoadCodeOptions): Session;
}

/** The module for sessions, of the bytes of sessions.wasm, of a response that has them, or of the module that was
    compiled of them. Each call gives one with a memory of its own. */
export function loadSessions(given: Source | Promise<Source>): Promise<Sessions>;

declare global {
  interface SymbolConstructor {
    readonly dispose: unique symbol;
  }
}
