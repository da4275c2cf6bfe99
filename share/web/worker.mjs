// The worker of the page: runs the program on the words it is given. The page ends it where somebody presses Stop.
// It sends what the program writes as it comes, but not more often than the page can show.
import {load} from './b.mjs';

const TOLD_BYTES = 1 << 16; // of standard error
const BURST = 200, GAP = 10; // so many messages at once, and then one in so many milliseconds
const ROOM = 1 << 16;

const SINGLE = 4000, SOON = 3000; // characters that come singly; more of them in so many milliseconds come in blocks

class WantsInput extends Error {}
class Full extends Error {}
class Much extends Error {}
let program;

/** The input of a run: what was given, then its end, or a stop where more has to be asked for. */
function inputOf({input, closed}) {
  let at = 0;
  return most => {
    if (at === input.length && !closed) throw new WantsInput();
    const part = input.subarray(at, at + most);
    at += part.length;
    return part;
  };
}

/** What a run writes. `skip` bytes of it are known already, since a run is repeated with more input. */
class Written {
  constructor({id, skip, most, stream}) {
    Object.assign(this, {id, skip, most, stream, room: new Uint8Array(ROOM), size: 0, total: 0, sent: 0});
    this.began = performance.now();
    this.isSingle = stream;
  }

  put(bytes) {
    this.total += bytes.length;
    if (this.total > this.most) throw new Full();
    if (this.isSingle && this.total > SINGLE) this.change(bytes.length);
    const known = Math.min(this.skip, bytes.length);
    this.skip -= known;
    if (known === bytes.length) return;
    this.grow(bytes.length - known);
    this.room.set(known ? bytes.subarray(known) : bytes, this.size);
    this.size += bytes.length - known;
    if (this.stream && (this.sent < BURST || this.sent < BURST + (performance.now() - this.began) / GAP)) this.send();
  }

  /** Characters come one by one, so that each is seen at once. Where many come soon, the run is repeated in blocks. */
  change(size) {
    this.isSingle = false;
    this.known = this.total - size;
    if (performance.now() - this.began < SOON) throw new Much();
  }

  /** Begins again for a run that is repeated: what was put before is known. */
  repeat(skip) {
    this.skip = Math.max(skip, this.known);
    this.total = 0;
  }

  grow(more) {
    if (this.size + more <= this.room.length) return;
    const room = new Uint8Array(Math.max(2 * this.room.length, this.size + more));
    room.set(this.room.subarray(0, this.size));
    this.room = room;
  }

  taken() {
    const all = this.room.slice(0, this.size);
    this.size = 0;
    return all;
  }

  send() {
    if (this.size === 0) return;
    this.sent++;
    const bytes = this.taken();
    postMessage({id: this.id, bytes}, [bytes.buffer]);
  }
}

function toldOf() {
  const parts = [];
  let size = 0;
  return {
    put(bytes) {
      if (size < TOLD_BYTES) parts.push(bytes.slice());
      size += bytes.length;
    },
    text: () => parts.map(it => new TextDecoder().decode(it)).join(''),
  };
}

/** Runs a command, once more in blocks where it writes much. */
function run(program, request, written, told) {
  const {words, files} = request;
  const io = () => ({files, input: inputOf(request), output: it => written.put(it), diagnostics: it => told.put(it),
    atOnce: written.isSingle});
  try {
    return program.command(words, io());
  } catch (it) {
    if (!(it instanceof Much)) throw it;
    written.repeat(request.skip);
    return program.command(words, io());
  }
}

async function made(request) {
  const written = new Written(request), told = toldOf(), began = performance.now(), ended = {};
  try {
    ended.status = run(await program, request, written, told);
  } catch (it) {
    if (it instanceof WantsInput) ended.wants = true;
    else if (it instanceof Full) ended.full = true;
    else ended.failed = it.message ?? String(it);
  }
  if (written.stream) written.send();
  return {...ended, told: told.text(), output: written.stream ? null : written.taken(), total: written.total,
    took: performance.now() - began};
}

onmessage = async ({data}) => {
  if (data.module) {
    program = load(data.module);
    return;
  }
  postMessage({id: data.id, ended: await made(data)});
};
