// A zip archive of texts, which are stored as they are.
import {bytesOf} from './dom.mjs';

const TABLE = Uint32Array.from({length: 256}, (_, n) => {
  for (let k = 0; k < 8; k++) n = n & 1 ? 0xedb88320 ^ n >>> 1 : n >>> 1;
  return n;
});

export function crc(bytes) {
  let sum = -1;
  for (const it of bytes) sum = TABLE[(sum ^ it) & 255] ^ sum >>> 8;
  return ~sum >>> 0;
}

/** Numbers as they stand in an archive: pairs of a number and its bytes, the lowest one first. */
function numbers(...pairs) {
  return pairs.flatMap(([value, size]) => Array.from({length: size}, (_, k) => value / 2 ** (8 * k) & 255));
}

function dosTime(date) {
  const day = Math.max(0, date.getFullYear() - 1980) << 9 | date.getMonth() + 1 << 5 | date.getDate();
  return [[date.getHours() << 11 | date.getMinutes() << 5 | date.getSeconds() >> 1, 2], [day, 2]];
}

/** The archive of files, which are pairs of a name and a text. */
export function zip(files, date = new Date()) {
  const bodies = [], index = [];
  let at = 0;
  for (const [name, text] of files) {
    const title = bytesOf(name), bytes = bytesOf(text);
    const about = [[20, 2], [0x800, 2], [0, 2], ...dosTime(date), [crc(bytes), 4], [bytes.length, 4],
      [bytes.length, 4], [title.length, 2], [0, 2]];
    const head = numbers([0x04034b50, 4], ...about);
    const entry = numbers([0x02014b50, 4], [20, 2], ...about, [0, 2], [0, 2], [0, 2], [0, 4], [at, 4]);
    bodies.push(Uint8Array.from(head), title, bytes);
    index.push(Uint8Array.from(entry), title);
    at += head.length + title.length + bytes.length;
  }
  const size = index.reduce((sum, it) => sum + it.length, 0);
  const count = index.length / 2;
  const end = numbers([0x06054b50, 4], [0, 2], [0, 2], [count, 2], [count, 2], [size, 4], [at, 4], [0, 2]);
  return [...bodies, ...index, Uint8Array.from(end)];
}
