// Unpacks what tools/make-page has packed: by LZMA, and then in letters.
//
// A text is the number of bytes, their sum by Adler, and letters. A letter has two bytes, the lower one first. A unit
// that a page in UTF-16 can't have comes after a mark, with its highest bit turned.
const MARK = 33, TURNED = 0x8000, TURN = 2 ** 17; // bytes after which the page goes on

/** The bytes of letters, and some more of which nobody asks. */
function bytesOf(letters) {
  const bytes = new Uint8Array(2 * letters.length);
  let count = 0;
  for (let at = 0; at < letters.length; at++) {
    const code = letters.charCodeAt(at), unit = code === MARK ? letters.charCodeAt(++at) ^ TURNED : code;
    bytes[count++] = unit;
    bytes[count++] = unit >> 8;
  }
  return bytes;
}

function adler(bytes) {
  let low = 1, high = 0;
  for (const byte of bytes) {
    low = (low + byte) % 65521;
    high = (high + low) % 65521;
  }
  return high * 65536 + low;
}

const EVEN = 1024, MOVE = 5, LEAST = 2 ** 24; // a chance of 2048, how fast it moves, and the least range
const chances = count => new Uint16Array(count).fill(EVEN);

/** The bits of a range coder, each of which has a chance that moves with those before it. */
class Coder {
  constructor(bytes) {
    this.bytes = bytes;
    this.at = 5;
    this.now = Uint32Array.of(2 ** 32 - 1, new DataView(bytes.buffer).getUint32(1)); // the range, and the code in it
  }

  bit(of, place) {
    const {now} = this, chance = of[place], bound = (now[0] >>> 11) * chance, bit = now[1] < bound ? 0 : 1;
    if (bit === 0) {
      now[0] = bound;
      of[place] = chance + ((2 * EVEN - chance) >> MOVE);
    } else {
      now[0] -= bound;
      now[1] -= bound;
      of[place] = chance - (chance >> MOVE);
    }
    if (now[0] < LEAST) this.shift();
    return bit;
  }

  shift() {
    this.now[0] <<= 8;
    this.now[1] = (this.now[1] << 8) | this.bytes[this.at++];
  }

  /** A number of so many bits, the highest first, each with a chance after those above it. */
  number(of, base, count) {
    let value = 1;
    for (let k = 0; k < count; k++) value = 2 * value + this.bit(of, base + value);
    return value - (1 << count);
  }

  /** The same with the lowest first. */
  turned(of, base, count) {
    let place = 1, value = 0;
    for (let k = 0; k < count; k++) {
      const bit = this.bit(of, base + place);
      place = 2 * place + bit;
      value += bit << k;
    }
    return value;
  }

  /** The same, the highest first, with even chances. */
  even(count) {
    const {now} = this;
    let value = 0;
    for (let k = 0; k < count; k++) {
      now[0] >>>= 1;
      const bit = now[1] < now[0] ? 0 : 1;
      now[1] -= bit * now[0];
      value = 2 * value + bit;
      if (now[0] < LEAST) this.shift();
    }
    return value;
  }
}

/** The lengths of copies: from 2 to 9, from there to 17, and from there to 273. */
class Lengths {
  constructor() {
    this.kinds = chances(2);
    this.numbers = [chances(8), chances(8), chances(256)];
  }

  next(coder) {
    const [low, middle, high] = this.numbers;
    if (coder.bit(this.kinds, 0) === 0) return 2 + coder.number(low, 0, 3);
    if (coder.bit(this.kinds, 1) === 0) return 10 + coder.number(middle, 0, 3);
    return 18 + coder.number(high, 0, 8);
  }
}

/** LZMA with four bits of context for a byte, and none of places. */
class Unpacking {
  constructor(bytes, size) {
    this.coder = new Coder(bytes);
    this.out = new Uint8Array(size);
    this.count = this.state = 0;
    this.last = [1, 1, 1, 1]; // the distances of copies
    this.isCopy = chances(12);
    this.isAgain = chances(12);
    this.isOther = [chances(12), chances(12), chances(12)];
    this.isLong = chances(12);
    this.bytes = chances(16 * 768);
    this.slots = chances(256);
    this.near = chances(128);
    this.low = chances(16);
    this.lengths = new Lengths();
    this.againLengths = new Lengths();
  }

  /** Goes on to a number of bytes. */
  upTo(count) {
    const {coder} = this;
    while (this.count < count) {
      if (coder.bit(this.isCopy, this.state) === 0) this.byte();
      else if (coder.bit(this.isAgain, this.state) === 0) this.copy();
      else this.copyAgain();
    }
  }

  byte() {
    const {out, coder, count, state} = this, base = count > 0 ? 768 * (out[count - 1] >> 4) : 0;
    let value = 1;
    if (state > 6) value = this.unlike(base, out[count - this.last[0]]);
    while (value < 256) value = 2 * value + coder.bit(this.bytes, base + value);
    out[this.count++] = value;
    this.state = state < 4 ? 0 : state - (state < 10 ? 3 : 6);
  }

  /** The bits of a byte up to the first one that another byte hasn't. */
  unlike(base, other) {
    let value = 1;
    for (let bits = 2 * other; value < 256; bits *= 2) {
      const like = bits & 256, bit = this.coder.bit(this.bytes, base + 256 + like + value);
      value = 2 * value + bit;
      if (like !== 256 * bit) break;
    }
    return value;
  }

  copy() {
    const length = this.lengths.next(this.coder);
    this.last = [this.distance(64 * Math.min(length - 2, 3)), ...this.last.slice(0, 3)];
    this.state = this.state < 7 ? 7 : 10;
    this.repeat(length);
  }

  distance(kind) {
    const {coder} = this, slot = coder.number(this.slots, kind, 6), count = (slot >> 1) - 1;
    if (slot < 4) return slot + 1;
    const base = (2 + (slot & 1)) * 2 ** count;
    if (slot < 14) return base + 1 + coder.turned(this.near, base - slot, count);
    return base + 1 + 16 * coder.even(count - 4) + coder.turned(this.low, 0, 4);
  }

  /** A copy from one of the last four distances. */
  copyAgain() {
    const {coder, state} = this, isOther = this.isOther.findIndex(it => coder.bit(it, state) === 0);
    if (isOther === 0 && coder.bit(this.isLong, state) === 0) {
      this.state = state < 7 ? 9 : 11;
      this.repeat(1);
      return;
    }
    this.last.unshift(...this.last.splice(isOther < 0 ? 3 : isOther, 1));
    const length = this.againLengths.next(coder);
    this.state = state < 7 ? 8 : 11;
    this.repeat(length);
  }

  repeat(length) {
    const {out, last: [distance]} = this;
    for (let k = 0; k < length; k++, this.count++) out[this.count] = out[this.count - distance];
  }
}

/** The bytes of a packed text. The page goes on between two parts of it. */
export async function unpacked(text) {
  const [head, size, sum] = /^(\d+) (\d+) /.exec(text), letters = text.slice(head.length);
  const unpacking = new Unpacking(bytesOf(letters), Number(size));
  for (let count = TURN; unpacking.count < unpacking.out.length; count += TURN) {
    unpacking.upTo(Math.min(count, unpacking.out.length));
    await new Promise(done => setTimeout(done));
  }
  if (adler(unpacking.out) !== Number(sum)) throw new Error('it is damaged');
  return unpacking.out;
}
