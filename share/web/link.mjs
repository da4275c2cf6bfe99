// A program as the fragment of a link. What is packed stays in the link, and goes to no server.
import {MOST_LIBS} from './files.mjs';
import {t} from './words.mjs';

const MARK = 'p=';
const MOST = 4_000_000; // characters of what a link holds
const MOST_FILES = 20;

const through = (parts, stream) => new Response(new Blob(parts).stream().pipeThrough(stream));

/** The fragment for a program: {files: [[name, text]..], input, edition, libs}. */
export async function packed(program) {
  const answer = through([JSON.stringify(program)], new CompressionStream('deflate-raw'));
  const bytes = new Uint8Array(await answer.arrayBuffer());
  let text = '';
  for (let at = 0; at < bytes.length; at += 4096) text += String.fromCharCode(...bytes.subarray(at, at + 4096));
  return MARK + btoa(text).replaceAll('+', '-').replaceAll('/', '_').replaceAll('=', '');
}

/** Reads a stream up to a size, so that no link fills the memory. */
async function limited(response) {
  const reader = response.body.getReader(), decoder = new TextDecoder('utf-8', {fatal: true});
  let text = '';
  for (;;) {
    const {done, value} = await reader.read();
    if (done) return text + decoder.decode();
    text += decoder.decode(value, {stream: true});
    if (text.length > MOST) throw new Error(t`it is too long`);
  }
}

const isText = it => typeof it === 'string';
function isProgram({files, input, edition, libs}) {
  const isFile = it => Array.isArray(it) && it.length === 2 && it.every(isText);
  return Array.isArray(files) && files.length > 0 && files.length <= MOST_FILES && files.every(isFile)
    && isText(input) && ['1', '2'].includes(edition) && Array.isArray(libs) && libs.length <= MOST_LIBS
    && libs.every(isText);
}

/** The program of a fragment; nothing where the fragment is none of a program. Throws where it is damaged. */
export async function unpacked(fragment) {
  if (!fragment.startsWith(MARK)) return null;
  const text = atob(fragment.slice(MARK.length).replaceAll('-', '+').replaceAll('_', '/'));
  const bytes = Uint8Array.from(text, it => it.charCodeAt(0));
  const program = JSON.parse(await limited(through([bytes], new DecompressionStream('deflate-raw'))));
  if (!isProgram(program)) throw new Error(t`it has another form`);
  return program;
}
