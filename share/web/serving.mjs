// The calls of lib/host.b: a program calls functions of its host, and the host those of the program. Both talk by the
// words of the vector `hostq`, and a byte of input tells the program to look there.
import {bytesOf} from './b.mjs';

const ASKS = [1, 5], WAITS = [2, 6], CALLS = 3, CALLED = [5, 6]; // what the program says in the first word
const NAME = 1, FIRST = 2, ANSWER = 7, MOST = 5; // the words of a name, of the first argument and of an answer
const QUEUE = 9; // how many words the vector takes, with the one of its address
const END = 4; // the character `*e`
const LOOKS = new Uint8Array([10]);

const signed = word => (word > 32767 ? word - 65536 : word);

/** The string at an address, or so many characters of it. */
export function textAt(session, address, most) {
  const bytes = [];
  while (bytes.length < most) {
    const word = session.word((address + (bytes.length >> 1)) % 65536);
    for (const byte of [word & 255, word >> 8]) {
      if (byte === END) return new TextDecoder().decode(new Uint8Array(bytes));
      bytes.push(byte);
    }
  }
  return new TextDecoder().decode(new Uint8Array(bytes.slice(0, most)));
}

/** Stores a string and its end from an address on. */
export function storeText(session, address, text) {
  const bytes = [...text, END];
  for (let at = 0; at < bytes.length; at += 2) {
    const place = (address + at / 2) % 65536, high = at + 1 < bytes.length ? bytes[at + 1] : session.word(place) >> 8;
    session.setWord(place, bytes[at] + 256 * high);
  }
}

/** What a program that waits throws, so that its run comes back to the host. */
class Waits extends Error {}

/** What a host answers to the program of a session. */
export class Serving {
  #session;
  #functions;
  #input;
  #ahead = new Uint8Array();
  #queue;

  /** What was read ahead for one before it is given first. */
  constructor(session, functions, input, before) {
    const queue = session.find('hostq');
    if (queue?.kind !== 'vector' || queue.words !== QUEUE) throw new Error('the program has no lib/host.b');
    this.#session = session;
    this.#functions = new Map(Object.entries(functions));
    this.#input = input;
    if (before) this.#ahead = before.#ahead;
    this.#queue = queue.address + 1;
  }

  /** The same for a copy of its session. */
  of(copy) {
    return new Serving(copy, Object.fromEntries(this.#functions), this.#input, this);
  }

  /** How a run ends, where a program that waits is an end, too. */
  async end(run) {
    try {
      return await run;
    } catch (error) {
      if (!(error instanceof Waits)) throw error;
      return {why: 'serves', status: 0, trap: '', of: '', text: '', at: null};
    }
  }

  /** What the program gets where it asks for a byte. In a call the end of that is one, too. */
  async reply(isCall, during) {
    const state = this.#session.word(this.#queue);
    if (WAITS.includes(state) || (isCall && CALLED.includes(state))) throw new Waits();
    if (ASKS.includes(state)) {
      await this.#answer(during);
      return LOOKS;
    }
    if (this.#ahead.length === 0) this.#ahead = bytesOf((await this.#input?.()) ?? '');
    const byte = this.#ahead.subarray(0, 1);
    this.#ahead = this.#ahead.subarray(1);
    return byte.length > 0 ? byte : new Uint8Array([END]);
  }

  /** Calls the function that the program asks for, and leaves its answer. */
  async #answer(during) {
    const asked = this.#session.words(this.#queue, ANSWER), name = textAt(this.#session, asked[NAME], 32767);
    const told = this.#functions.get(name);
    if (!told) throw new RangeError(`the host has no function ${name}`);
    const answer = await during(() => told(...asked.slice(FIRST, FIRST + MOST).map(signed)));
    this.#session.setWords(this.#queue + ANSWER, [wordOf(answer ?? 0)]);
    this.#session.setWord(this.#queue, 0);
  }

  /** Has a program that waits call one of its functions. */
  begin(name, words) {
    const it = this.#session.find(name), state = this.#session.word(this.#queue);
    if (it?.kind !== 'function') throw new RangeError(`the program has no function ${name}`);
    if (![...ASKS, ...WAITS].includes(state)) throw new Error("the program doesn't wait for a call");
    if (words.length > MOST) throw new RangeError('a call has five words at most');
    const given = Array.from({length: MOST}, (_, at) => wordOf(words[at] ?? 0));
    this.#session.setWords(this.#queue, [CALLS, this.#session.word(it.address), ...given]);
    this.#session.feed(LOOKS);
  }

  /** The value of that call. */
  value(end) {
    const has = end.why === 'serves' && CALLED.includes(this.#session.word(this.#queue));
    if (!has) throw Object.assign(new Error(`the run has ended: ${end.why}`), {end});
    return signed(this.#session.word(this.#queue + ANSWER));
  }
}

/** A number as a word. */
export function wordOf(number) {
  if (Number.isInteger(number) && number >= -32768 && number <= 65535) return number & 65535;
  throw new RangeError(`a word is ${String(number)}, and has to be a whole number from -32768 to 65535`);
}
