// The program's memory: bytes, texts and numbers at its addresses. An address comes as a BigInt.
// @ts-check
/** @typedef {bigint | number} Address */

export class Memory {
  /** @type {{ buffer: ArrayBuffer }} */
  of = { buffer: new ArrayBuffer(0) };

  /** @param {Address} at @param {Address} size */
  bytes(at, size) { return new Uint8Array(this.of.buffer, Number(at), Number(size)); }

  view() { return new DataView(this.of.buffer); }

  /** A text that a 0 ends.
   * @param {Address} at */
  text(at) {
    const all = new Uint8Array(this.of.buffer), end = all.indexOf(0, Number(at));
    return new TextDecoder().decode(all.slice(Number(at), end));
  }

  /** Puts a text there: its length; -1 where there is none, -2 where it doesn't fit, and then the room is full.
   * @param {string | undefined} text @param {Address} at @param {Address} room */
  put(text, at, room) {
    if (text === undefined) return -1n;
    const bytes = new TextEncoder().encode(text), into = this.bytes(at, room), fits = bytes.length <= into.length;
    into.set(fits ? bytes : bytes.subarray(0, into.length));
    return fits ? BigInt(bytes.length) : -2n;
  }
}
