// The files of the page: journals in a pool of files on the disk, all else in memory.
//
// What is below the folder of the journals is on the disk. A browser answers no question whether a file's *name* is there. So the files of the pool
// are made beforehand, and a journal's name is inside its file, in one of two heads, in turn. Each head has a number, which rises, and
// a sum. The newest whole head counts, so that one write of 512 bytes gives a name, takes it, or moves it over another's.
// @ts-check
import { E, Fault } from './faults.js';

/** @typedef {{ read(bytes: Uint8Array, how: { at: number }): number, write(bytes: Uint8Array, how: { at: number }): number,
 *   truncate(size: number): void, getSize(): number, flush(): void, close(): void }} Handle */

export const JOURNALS = '/boards', IMAGES = '/images';
const HEAD = 512, SIDE = 4096, HEADS = 2 * SIDE, MARK = 'stmpool1', NAME_AT = 18, SUM_AT = HEAD - 4, FOLDERS = ['/', JOURNALS, IMAGES];

/** @param {Uint8Array} bytes */
function sumOf(bytes) {
  let sum = 0x811c9dc5;
  for (const it of bytes) sum = Math.imul(sum ^ it, 0x01000193) >>> 0;
  return sum;
}

/** @param {string} name @param {number} number */
function headOf(name, number) {
  const head = new Uint8Array(HEAD), view = new DataView(head.buffer), text = new TextEncoder().encode(name);
  if (NAME_AT + text.length > SUM_AT) throw new Fault(E.INVAL);
  head.set(new TextEncoder().encode(MARK));
  view.setBigUint64(8, BigInt(number), true);
  view.setUint16(16, text.length, true);
  head.set(text, NAME_AT);
  view.setUint32(SUM_AT, sumOf(head.subarray(0, SUM_AT)), true);
  return head;
}

/** The name and the number of a whole head; none of another.
 * @param {Uint8Array} head */
function read(head) {
  const view = new DataView(head.buffer), text = new TextDecoder();
  if (text.decode(head.subarray(0, 8)) !== MARK || view.getUint32(SUM_AT, true) !== sumOf(head.subarray(0, SUM_AT))) return undefined;
  return { name: text.decode(head.subarray(NAME_AT, NAME_AT + view.getUint16(16, true))), number: Number(view.getBigUint64(8, true)) };
}

/** A handle of bytes in memory.
 * @returns {Handle} */
export function inMemory(held = new Uint8Array()) {
  return {
    read: (bytes, { at }) => {
      const part = held.subarray(at, at + bytes.length);
      bytes.set(part);
      return part.length;
    },
    write(bytes, { at }) {
      if (at + bytes.length > held.length) this.truncate(at + bytes.length);
      held.set(bytes, at);
      return bytes.length;
    },
    truncate: (size) => {
      const cut = new Uint8Array(size);
      cut.set(held.subarray(0, size));
      held = cut;
    },
    getSize: () => held.length,
    flush() {},
    close() {},
  };
}

/** A file: a handle, from where on it has the file's bytes, and which name it has; none once that is gone. */
class Slot {
  /** @type {object | undefined} */
  holder;
  name = '';
  number = 0;
  side = 0;
  uses = 0;

  /** @param {Handle} handle @param {number} ino @param {number} base */
  constructor(handle, ino, base) {
    this.handle = handle;
    this.ino = ino;
    this.base = base;
  }

  size() { return Math.max(0, this.handle.getSize() - this.base); }
  /** @param {Uint8Array} bytes @param {number} at */
  read(bytes, at) { return this.handle.read(bytes, { at: this.base + at }); }
  /** @param {Uint8Array} bytes @param {number} at */
  write(bytes, at) { return this.handle.write(bytes, { at: this.base + at }); }
  /** @param {number} size */
  truncate(size) { this.handle.truncate(this.base + size); }
  flush() { this.handle.flush(); }
  close() { this.uses--; }

  /** Gives the file a name, which is on the disk then; '' takes it.
   * @param {string} name @param {number} number */
  call(name, number) {
    if (this.base) {
      const side = 1 - this.side;
      if (this.handle.write(headOf(name, number), { at: side * SIDE }) !== HEAD) throw new Fault(E.NOSPC);
      this.handle.flush();
      this.side = side;
    }
    this.name = name;
    this.number = number;
  }
}

export class Store {
  // 1 is what the line and the streams have (files.js): a journal that had it too was taken for the line
  next = 2;
  /** @type {Map<string, Slot>} */
  named = new Map();
  /** @type {Slot[]} */
  pool = [];

  /** Takes up the files of the pool.
   * @param {Handle[]} handles */
  constructor(handles) { this.adopt(handles); }

  /** Of two files of one name the newer one has it, and the other none, also on the disk.
   * @param {Handle[]} handles */
  adopt(handles) {
    const older = [];
    for (const handle of handles) {
      const slot = new Slot(handle, this.next++, HEADS);
      this.pool.push(slot);
      for (const side of [0, 1]) {
        const head = new Uint8Array(HEAD), found = handle.read(head, { at: side * SIDE }) === HEAD ? read(head) : undefined;
        if (found && found.number > slot.number) Object.assign(slot, found, { side });
      }
      const other = this.named.get(slot.name), isOlder = other && other.number > slot.number;
      if (other) older.push(isOlder ? slot : other);
      if (slot.name && !isOlder) this.named.set(slot.name, slot);
    }
    for (const it of older) it.call('', this.count());
  }

  /** How many files the pool has left. */
  free() { return this.pool.filter((it) => !it.name && !it.uses).length; }

  /** @param {string} path */
  whole(path) { return `/${path.split('/').filter((it) => it && it !== '.').join('/')}`; }

  /** @param {string} path */
  real(path) { return this.look(path) && this.whole(path); }

  /** @param {string} path @returns {import('./files.js').Told | undefined} */
  look(path) {
    const whole = this.whole(path), slot = this.named.get(whole);
    if (path === '') return undefined;
    if (FOLDERS.includes(whole)) return { kind: 'folder', ino: 2 ** 40 + FOLDERS.indexOf(whole) };
    return slot && { kind: 'file', size: slot.size(), ino: slot.ino };
  }

  /** @param {string} path */
  list(path) {
    const folder = this.whole(path), begins = folder === '/' ? '/' : `${folder}/`;
    /** @type {(import('./files.js').Told & { name: string })[]} */
    const found = [...this.named.values()].filter((it) => it.name.startsWith(begins) && !it.name.slice(begins.length).includes('/'))
      .map((it) => ({ kind: 'file', name: it.name.slice(begins.length), ino: it.ino, size: it.size() }));
    if (folder === '/') found.push({ kind: 'folder', name: JOURNALS.slice(1), ino: 2 ** 40 + 1 });
    return found;
  }

  /** @param {string} path @param {{ creates: boolean, writes?: boolean }} how */
  open(path, { creates }) {
    const whole = this.whole(path), slot = this.named.get(whole) ?? (creates ? this.make(whole) : undefined);
    if (!slot) throw new Fault(E.NOENT);
    slot.uses++;
    return slot;
  }

  /** @param {string} whole */
  make(whole) {
    const folder = whole.slice(0, whole.lastIndexOf('/')) || '/';
    if (!FOLDERS.includes(folder)) throw new Fault(E.NOENT);
    if (folder === IMAGES) this.list(IMAGES).forEach(({ name }) => this.remove(`${IMAGES}/${name}`));
    const slot = whole.startsWith(`${JOURNALS}/`) ? this.pool.find((it) => !it.name && !it.uses) : new Slot(inMemory(), this.next++, 0);
    if (!slot) throw new Fault(E.NOSPC);
    // what another journal left in it is gone, also on the disk, before it has a name
    slot.truncate(0);
    slot.flush();
    slot.call(whole, this.count());
    slot.ino = this.next++;
    this.named.set(whole, slot);
    return slot;
  }

  count() { return 1 + Math.max(0, ...this.pool.map((it) => it.number)); }

  /** What is open stays open, and is on no disk by a name any more.
   * @param {string} path */
  remove(path) {
    const whole = this.whole(path), slot = this.named.get(whole);
    if (!slot) throw new Fault(this.look(path) ? E.ISDIR : E.NOENT);
    slot.call('', this.count());
    this.named.delete(whole);
  }

  /** @param {string} from @param {string} to */
  rename(from, to) {
    const old = this.whole(from), whole = this.whole(to), slot = this.named.get(old), other = this.named.get(whole);
    if (!slot) throw new Fault(E.NOENT);
    if (this.look(to)?.kind === 'folder') throw new Fault(E.ISDIR);
    if (old.startsWith(`${JOURNALS}/`) !== whole.startsWith(`${JOURNALS}/`)) throw new Fault(E.PERM);
    if (slot === other) return;
    slot.call(whole, this.count());
    this.named.delete(old);
    this.named.set(whole, slot);
    // the newer one counts from here on, whatever comes of this
    if (other) other.call('', this.count());
  }
}
