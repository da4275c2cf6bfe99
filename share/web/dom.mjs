// Small helpers of the page. What comes from a program or a person is put into it as text, never as HTML.
export const $ = id => document.getElementById(id);

/** An element with properties, and texts or elements in it. */
export function element(tag, properties = {}, ...inside) {
  const made = document.createElement(tag);
  for (const [name, value] of Object.entries(properties)) {
    if (name in made && name !== 'list') made[name] = value;
    else made.setAttribute(name, value);
  }
  made.append(...inside);
  return made;
}

export const button = (text, act, properties = {}) =>
  element('button', {type: 'button', onclick: act, ...properties}, text);

const coder = new TextEncoder();
export const bytesOf = text => coder.encode(text);
/** The bytes of a text that has a character for each. */
export const bytesOfLatin = text => Uint8Array.from(text, it => it.charCodeAt(0));
export const textOf = bytes => new TextDecoder('utf-8', {ignoreBOM: true}).decode(bytes);

const TURNS = /[\u200e\u200f\u202a-\u202e\u2066-\u2069]/g;
const picture = it => String.fromCharCode(it === '\x7f' ? 0x2421 : 0x2400 + it.charCodeAt(0));
/** A text as it is shown: control characters by their pictures, and none that turns the direction of the text. */
export const shown = text => text.replace(/[\0-\x08\x0b-\x1f\x7f]/g, picture).replace(TURNS, '\ufffd');

/** Gives the browser a file to keep. */
export function save(name, parts) {
  const url = URL.createObjectURL(new Blob(parts, {type: 'application/octet-stream'}));
  const link = element('a', {href: url, download: name});
  document.body.append(link);
  link.click();
  link.remove();
  setTimeout(() => URL.revokeObjectURL(url), 60000);
}

/** Says something in the line of the page that a screen reader reads, too. */
export function say(text, kind = '', ...more) {
  $('said').className = kind;
  $('said').replaceChildren(text, ...more.flatMap(it => [' ', it]));
}

/** Says what is wrong after what was said. */
export function alsoSay(text) {
  $('said').className = 'bad';
  $('said').append(` ${text}`);
}
