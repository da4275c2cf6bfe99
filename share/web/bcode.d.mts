/** A text: its bytes, or a string in UTF-8. */
export type Text = string | Uint8Array;
/** A place of a function: one that a call has answered, or the number of an instruction that is there. */
export type Target = Place | number;

/** What no code text can have, or what is missing in one, with the line of your source where that is known. */
export class CodeError extends Error {
  line: number | null;
}

/** The four kinds of `increment`: ++x, --x, x++ and x--. */
export const BEFORE_INC: 0, BEFORE_DEC: 1, AFTER_INC: 2, AFTER_DEC: 3;

/** A place to which instructions lead before it is known, or after: `put` sets it. */
export interface Place {
  /** Where it was set, or null. */
  readonly at: number | null;
  readonly line: number;
}

/** A place whose value a program can keep, and to which `goto` leads. */
export interface Label extends Place {
  readonly index: number;
}

/** An external word, or a vector, and the values that it has at first. */
export interface Data {
  readonly name: string;
  constant(given: number): void;
  /** The address of an external; of a string. */
  external(name: string): void;
  text(text: Text): void;
}

/** A function. Each method that is named as an instruction of docs/CODE.md adds it. */
export interface FunctionDefinition {
  readonly name: string;
  /** The place of the next instruction. */
  readonly here: number;
  /** How many parameters it has, and words of its frame, these among them. */
  readonly parameters: number;
  readonly frame: number;
  /** So many new words of the frame: the number of the first, which has the name. */
  words(count?: number, name?: unknown): number;
  /** A new word of the frame for the address of the so many words after it: its number. */
  vector(words: number, name?: unknown): number;
  label(name?: unknown): Label;
  /** Sets a place, which is the next instruction from now on. */
  put(place: Place): void;
  constant(given: number): void;
  external(name: string): void;
  automatic(index: number): void;
  text(text: Text): void;
  labelValue(label: Label): void;
  load(): void;
  store(): void;
  binary(sign: string): void;
  modify(sign: string): void;
  negate(): void;
  /** 1 of 0, and 0 of all else. */
  invert(): void;
  increment(kind: 0 | 1 | 2 | 3): void;
  /** These lead to a place, to a new one where none is given, which they answer. */
  jump(place?: null): Place;
  jump<To extends Target>(place: To): To;
  jumpIfZero(place?: null): Place;
  jumpIfZero<To extends Target>(place: To): To;
  jumpIfCase(given: number, place?: null): Place;
  jumpIfCase<To extends Target>(given: number, place: To): To;
  goto(): void;
  /** A call of the callee that stands below so many arguments. */
  callWith(count: number): void;
  /** Returns the topmost word; lets go of it. */
  give(): void;
  drop(): void;
  /** The word of an external, by its name, or of the frame, by its number. */
  variable(which: string | number): void;
  /** A call of an external function with constants, or with none, whose result is left. */
  call(name: string, ...constants: number[]): void;
  /** Adds the return of 0 with which a function ends, unless its end is never reached. */
  end(): void;
}

/** A whole code text of an edition, and the place in your source to which what is added next belongs. What no code text
    may have is a `CodeError`. */
export class Code {
  constructor(edition?: 1 | 2);
  readonly edition: 1 | 2;
  line: number;
  /** In bytes from 1 on; 0 where none is told. */
  column: number;
  simple(name: string): Data;
  vector(name: string, words: number): Data;
  /** A function with so many parameters, or with parameters of these names. */
  function(name: string, parameters?: number | readonly unknown[]): FunctionDefinition;
  /** Notes that a name is used, which may be defined later. */
  use(name: string): string;
  /** Takes in the definitions of a whole code text, as `b compile` writes it of a file of B's library. */
  take(text: string): void;
  /** The code text, which `b run` takes. */
  text(): string;
  /** The file of lines, of which the places are those of `text()`, after a call of that; the file of names. */
  lines(): string;
  names(): string;
}
