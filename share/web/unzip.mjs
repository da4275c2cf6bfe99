// Reads zip archives, whoever made them. Of a file no more is unpacked than its limit, and nothing is where it isn't
// asked for. The files that systems add are left out.
import {crc} from './archive.mjs';
import {t} from './words.mjs';

const MOST_FILES = 20_000, MOST_INDEX = 4 << 20; // files of an archive, and bytes of the list of them
const MOST_BYTES = 16 << 20; // of a file, where no limit is given
const PIECE = 16_384; // of packed bytes at a time, of which 16 MB may come
const END = {mark: 0x06054b50, size: 22}, ENTRY = {mark: 0x02014b50, size: 46}, HEAD = {mark: 0x04034b50, size: 30};
const STORED = 0, DEFLATED = 8;
const LINK = 0xa; // of the kinds of files in Unix
const LARGE = 0xffffffff, LARGE_EXTRA = 1; // where the size doesn't fit, it stands in an extra part

const MADE_BY_SYSTEMS = /^(__MACOSX|Thumbs\.db|desktop\.ini|\..*)$/i;
// The characters from 128 to 255 of the code page 437, in which older programs write names.
const PAGE_437 = 'ÇüéâäàåçêëèïîìÄÅÉæÆôöòûùÿÖÜ¢£¥₧ƒáíóúñÑªº¿⌐¬½¼¡«»░▒▓│┤╡╢╖╕╣║╗╝╜╛┐└┴┬├─┼╞╟╚╔╩╦╠═╬╧╨╤╥╙╘╒╓╫╪┘┌█▄▌▐▀'
  + 'αßΓπΣσµτΦΘΩδ∞φε∩≡±≥≤⌠⌡÷≈°∙·√ⁿ²■\u00a0';

async function viewOf(blob, from, size) {
  if (from < 0 || from + size > blob.size) throw new Error(t`it is cut off`);
  return new DataView(await blob.slice(from, from + size).arrayBuffer());
}

/** The list of the files of an archive, which stands at its end, before a comment. */
async function indexOf(blob) {
  const size = Math.min(blob.size, END.size + 0xffff), end = await viewOf(blob, blob.size - size, size);
  let at = size - END.size;
  while (at >= 0 && end.getUint32(at, true) !== END.mark) at--;
  if (at < 0) throw new Error(t`it is no zip archive, or it is cut off`);
  const length = end.getUint32(at + 12, true), from = blob.size - size + at - length;
  if (length > MOST_INDEX) throw new Error(t`it has more than ${MOST_FILES} files`);
  return {index: await viewOf(blob, from, length), before: from - end.getUint32(at + 16, true)};
}

/** A name in UTF-8, or else in the code page 437. */
function nameOf(bytes) {
  try {
    return new TextDecoder('utf-8', {fatal: true}).decode(bytes);
  } catch {
    return Array.from(bytes, it => it < 128 ? String.fromCharCode(it) : PAGE_437[it - 128]).join('');
  }
}

/** Numbers of an entry that don't fit into its fields stand in its extra part, in the order of the fields. */
function enlarged(view, from, size, fields) {
  for (let at = from; at + 4 <= from + size; at += 4 + view.getUint16(at + 2, true)) {
    if (view.getUint16(at, true) !== LARGE_EXTRA) continue;
    let next = at + 4;
    return fields.map(it => it === LARGE && next + 8 <= view.byteLength
      ? Number(view.getBigUint64((next += 8) - 8, true)) : it);
  }
  return fields;
}

/** The entries of an archive as its list tells them, to the end of the list, whatever number is told beside it. */
function* entriesOf(index) {
  for (let at = 0, count = 1; at < index.byteLength; count++) {
    if (count > MOST_FILES) throw new Error(t`it has more than ${MOST_FILES} files`);
    const from = at + ENTRY.size, isEntry = from <= index.byteLength && index.getUint32(at, true) === ENTRY.mark;
    const [title, extra, comment] = [28, 30, 32].map(it => isEntry ? index.getUint16(at + it, true) : 0);
    if (!isEntry || from + title + extra + comment > index.byteLength) throw new Error(t`it is damaged`);
    const [size, packed, start] = enlarged(index, from + title, extra,
      [24, 20, 42].map(it => index.getUint32(at + it, true)));
    yield {title: nameOf(new Uint8Array(index.buffer, from, title)), size, packed, start,
      isLocked: (index.getUint16(at + 8, true) & 1) === 1, method: index.getUint16(at + 10, true),
      isLink: index.getUint8(at + 5) === 3 && index.getUint8(at + 41) >> 4 === LINK,
      sum: index.getUint32(at + 16, true)};
    at = from + title + extra + comment;
  }
}

/** The bytes of a blob, some at a time, so that a stream that grows much ends soon. */
function piecesOf(blob) {
  let at = 0;
  return new ReadableStream({
    async pull(control) {
      if (at >= blob.size) return control.close();
      control.enqueue(new Uint8Array(await blob.slice(at, at += PIECE).arrayBuffer()));
    },
  }, {highWaterMark: 0});
}

async function unpacked(blob, most) {
  const reader = piecesOf(blob).pipeThrough(new DecompressionStream('deflate-raw')).getReader(), parts = [];
  for (let size = 0; ;) {
    const {done, value} = await reader.read();
    if (done) return new Uint8Array(await new Blob(parts).arrayBuffer());
    size += value.length;
    if (size > most) {
      await reader.cancel();
      throw new Error(t`it is damaged`);
    }
    parts.push(value);
  }
}

/** A file of an archive. It is read as a file of a browser is; `name` is its path in the archive. */
class Packed {
  constructor(archive, before, entry) {
    const parts = entry.title.split(/[/\\]/).filter(it => it && it !== '.');
    Object.assign(this, {archive, before, entry, name: parts.join('/'), size: entry.size});
    this.isFolder = /[/\\]$/.test(entry.title) || !parts.length;
    this.isAdded = parts.some(it => it !== '..' && MADE_BY_SYSTEMS.test(it));
    this.fault = parts.includes('..') ? t`its name leads out of the archive, or too deep into it`
      : entry.isLink ? t`this is a link`
      : entry.isLocked ? t`it is locked by a password`
      : ![STORED, DEFLATED].includes(entry.method) ? `it is packed by the method ${entry.method}` : '';
  }

  /** All of its bytes, where there are no more than `most`. */
  async bytes(most = MOST_BYTES) {
    const {size, packed, start, method, sum} = this.entry, at = this.before + start;
    if (this.fault) throw new Error(this.fault);
    if (size > most) throw new Error(t`it has more than ${most} bytes`);
    const head = await viewOf(this.archive, at, HEAD.size);
    if (head.getUint32(0, true) !== HEAD.mark) throw new Error(t`it is damaged`);
    const from = at + HEAD.size + head.getUint16(26, true) + head.getUint16(28, true);
    if (from + packed > this.archive.size) throw new Error(t`it is cut off`);
    const body = this.archive.slice(from, from + packed);
    const bytes = method === STORED ? new Uint8Array(await body.arrayBuffer())
      : await unpacked(body, size).catch(() => { throw new Error(t`it is damaged`); });
    if (bytes.length !== size || crc(bytes) !== sum) throw new Error(t`it is damaged`);
    return bytes;
  }

  async arrayBuffer() { return (await this.bytes()).buffer; }
}

export const isZip = name => /\.zip$/i.test(name);
export const isAdded = name => MADE_BY_SYSTEMS.test(name);

/**
 * The files of an archive, and its folders where they are asked for: each has a `name`, which is its path there, a
 * `size`, and what it holds by `arrayBuffer()` or `bytes(most)`. These throw where the file can't be read, and this one
 * where the archive can't.
 */
export async function filesOf(blob, hasFolders = false) {
  const {index, before} = await indexOf(blob), all = [...entriesOf(index)].map(it => new Packed(blob, before, it));
  return all.filter(it => it.name && !it.isAdded && (hasFolders || !it.isFolder));
}
