// Images: what one is, as far as a reader wants to know before it is written; and ELF made HEX, which the program reads.
// @ts-check
const hex = (/** @type {number} */ it, digits = 8) => it.toString(16).toUpperCase().padStart(digits, '0');

/** @param {number} kind @param {number} offset @param {Uint8Array} data */
function record(kind, offset, data) {
  const all = [data.length, offset >> 8, offset & 255, kind, ...data], sum = all.reduce((a, b) => a + b, 0);
  return `:${all.map((it) => hex(it, 2)).join('')}${hex(-sum & 255, 2)}\n`;
}

/** The loadable bytes of an ELF for ARM, at the addresses where they are stored.
 * @param {Uint8Array} bytes */
export function segmentsOf(bytes) {
  const view = new DataView(bytes.buffer, bytes.byteOffset, bytes.length);
  if (bytes.length < 52 || bytes[4] !== 1 || bytes[5] !== 1) throw new Error('this ELF isn\'t one of 32 bits with the low byte first');
  if (view.getUint16(18, true) !== 40) throw new Error('this ELF isn\'t for ARM');
  const found = [];
  for (let i = 0, at = view.getUint32(28, true); i < view.getUint16(44, true); i++, at += view.getUint16(42, true)) {
    const [kind, from, , to, size] = [0, 4, 8, 12, 16].map((it) => view.getUint32(at + it, true));
    if (kind !== 1 || !size) continue;
    if (from + size > bytes.length) throw new Error('this ELF ends too soon');
    found.push({ at: to, bytes: bytes.subarray(from, from + size) });
  }
  if (!found.length) throw new Error('this ELF has nothing to load');
  return found;
}

/** @param {{ at: number, bytes: Uint8Array }[]} segments */
export function hexOf(segments) {
  const out = [];
  for (const { at, bytes } of segments) {
    for (let i = 0, high = -1; i < bytes.length;) {
      const place = at + i, size = Math.min(16 - (place & 15), bytes.length - i);
      if (high !== place >>> 16) out.push(record(4, 0, Uint8Array.of((high = place >>> 16) >> 8, high & 255)));
      out.push(record(0, place & 0xffff, bytes.subarray(i, i + size)));
      i += size;
    }
  }
  return `${out.join('')}:00000001FF\n`;
}

/** The bytes of a HEX, record by record: what it means where it is sound, which the program looks at.
 * @param {string} text */
export function recordsOf(text) {
  const found = [];
  let base = 0, room = Infinity;
  for (const [, body] of text.matchAll(/:([0-9A-Fa-f]+)/g)) {
    const [size, kind, offset] = [body.slice(0, 2), body.slice(6, 8), body.slice(2, 6)].map((it) => parseInt(it, 16));
    if (kind === 4 || kind === 2) [base, room] = [parseInt(body.slice(8, 12), 16) * (kind === 4 ? 65536 : 16), kind === 4 ? Infinity : 65536];
    if (kind === 1) break;
    if (kind !== 0 || !size) continue;
    const bytes = Uint8Array.from({ length: size }, (_, i) => parseInt(body.slice(8 + 2 * i, 10 + 2 * i), 16));
    found.push({ at: base + offset, bytes: bytes.subarray(0, room - offset) });
    // a segment goes on at its begin
    if (offset + size > room) found.push({ at: base, bytes: bytes.subarray(room - offset) });
  }
  return found;
}

/** From where to where they lie.
 * @param {{ at: number, bytes: Uint8Array }[]} parts */
export const spanOf = (parts) => parts.reduce(({ low, high }, { at, bytes }) => ({ low: Math.min(low, at), high: Math.max(high, at + bytes.length) }), { low: Infinity, high: 0 });

/** What the program is handed for a file, a line on it, and its bytes; of raw ones, as if they began at 0.
 * @param {string} name @param {Uint8Array} bytes */
export function imageOf(name, bytes) {
  const isElf = [0x7f, 0x45, 0x4c, 0x46].every((it, i) => bytes[i] === it), isHex = bytes[0] === 0x3a;
  if (!bytes.length) throw new Error('it has no bytes');
  if (!isElf && !isHex && bytes.length > 2 ** 21) throw new Error('it is larger than any flash of these chips');
  if (!isElf && !isHex) return { bytes, isRaw: true, says: `${name}: ${bytes.length} raw bytes`, parts: [{ at: 0, bytes }] };
  const text = isElf ? hexOf(segmentsOf(bytes)) : new TextDecoder().decode(bytes), parts = recordsOf(text), count = parts.reduce((sum, it) => sum + it.bytes.length, 0);
  const { low, high } = spanOf(parts), where = count ? ` from ${hex(low)} to ${hex(high - 1)}` : '';
  return { bytes: isElf ? new TextEncoder().encode(text) : bytes, isRaw: false, says: `${name}: ${isElf ? 'ELF' : 'Intel HEX'}, ${count} bytes${where}`, parts };
}
