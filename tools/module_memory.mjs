// The memory of a module of WebAssembly, for tries of what it does where memory is refused.
const MEMORIES = 5; // the number of the section

function numberAt(module, at) {
  let value = 0, shift = 0;
  for (;; shift += 7) {
    value += (module[at] & 127) << shift;
    if (module[at++] < 128) return {value, end: at};
  }
}

const numberOf = value => (value < 128 ? [value] : [(value & 127) | 128, ...numberOf(value >> 7)]);

function joined(parts) {
  const all = new Uint8Array(parts.reduce((sum, it) => sum + it.length, 0));
  let at = 0;
  for (const part of parts) {
    all.set(part, at);
    at += part.length;
  }
  return all;
}

/** The module with a memory of so many pages at most; and how many it has at the start. */
export function withMost(module, pages) {
  for (let at = 8; at < module.length; ) {
    const section = module[at], size = numberAt(module, at + 1), end = size.end + size.value;
    if (section !== MEMORIES) {
      at = end;
      continue;
    }
    const least = numberAt(module, size.end + 2);
    const body = [1, 1, ...module.subarray(size.end + 2, least.end), ...numberOf(pages)];
    const bytes = joined([module.subarray(0, at), [MEMORIES, body.length, ...body], module.subarray(end)]);
    return {bytes, least: least.value};
  }
  throw new Error('the module has no memory of its own');
}
