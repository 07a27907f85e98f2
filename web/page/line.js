// The line to the board: a port of Web Serial, or what has its shape. 8 data bits, even parity, one stop bit.
//
// A byte that came wrong ends the line, also for what came before it and wasn't taken: nobody knows which byte it was. What was sent
// goes out, and what comes is taken as it comes.
// @ts-check
import { E, Fault } from './faults.js';

const SOCKET_LEVEL = 1, RECEIVE_TIME = 20, OPENED = { dataBits: 8, parity: 'even', stopBits: 1, bufferSize: 65536, flowControl: 'none' };

/** @typedef {{ open(how: object): Promise<void>, close(): Promise<void>, setSignals(signals: object): Promise<void>,
 *   readable: ReadableStream, writable: WritableStream }} Port */

export class Line {
  /** @type {Uint8Array[]} */
  came = [];
  /** @type {string | undefined} */
  ended;
  isOpen = false;
  sent = 0;
  wake = () => {};

  /** It ends behind `stopAt` bytes that are sent: a trial's stop.
   * @param {Port} port @param {number} baud @param {{ entry: import('./wiring.js').Step[], leave: import('./wiring.js').Step[] }} [wiring] */
  constructor(port, baud, wiring, name = '/dev/board', stopAt = Infinity) {
    this.port = port;
    this.baud = baud;
    this.wiring = wiring;
    this.name = name;
    this.stopAt = stopAt;
  }

  /** @param {import('./wiring.js').Step[]} steps */
  async play(steps) {
    for (const { signals, wait } of steps) {
      if (signals) await this.port.setSignals(signals);
      if (wait) await new Promise((resolve) => setTimeout(resolve, wait));
    }
  }

  /** Opens the port, and resets the board into its bootloader where the wiring can. What its program sent by then, the port drops. */
  async connect() {
    await this.port.open({ baudRate: this.baud, ...OPENED });
    this.isOpen = true;
    this.came = [];
    this.ended = undefined;
    if (this.wiring) await this.play(this.wiring.entry);
    await this.port.readable.cancel().catch(() => {});
    this.writer = this.port.writable.getWriter();
    this.reader = this.port.readable.getReader();
    this.sending = Promise.resolve();
    this.reading = this.take(this.reader);
  }

  /** @param {ReadableStreamDefaultReader<Uint8Array>} reader */
  async take(reader) {
    try {
      for (let it; !(it = await reader.read()).done; this.wake()) this.came.push(it.value);
      if (this.isOpen) this.end('closed');
    } catch (thrown) {
      this.end(/** @type {any} */ (thrown)?.name ?? 'failed');
    }
  }

  /** @param {string} why */
  end(why) {
    this.ended ??= why;
    if (this.ended !== 'closed') this.came = [];
    this.wake();
  }

  /** @param {Uint8Array} bytes */
  send(bytes) {
    if (this.ended) throw new Fault(E.IO);
    const part = bytes.subarray(0, this.stopAt - this.sent);
    this.sent += part.length;
    this.sending = /** @type {WritableStreamDefaultWriter} */ (this.writer).write(part).catch((thrown) => this.end(thrown?.name ?? 'failed'));
    if (part.length < bytes.length) this.end('stopped');
  }

  /** What came, so many bytes at most; none where the line was closed; nothing where none came in so many milliseconds, 0: never.
   * @param {number} most @param {number} millis @returns {Promise<Uint8Array | undefined>} */
  async receive(most, millis) {
    if (!this.came.length && !this.ended) {
      await new Promise((resolve) => {
        const timer = millis ? setTimeout(resolve, millis) : undefined;
        this.wake = () => { clearTimeout(timer); resolve(undefined); };
      });
      this.wake = () => {};
    }
    const first = this.came.shift();
    if (first && first.length > most) this.came.unshift(first.subarray(most));
    if (first) return first.subarray(0, most);
    if (this.ended && this.ended !== 'closed') throw new Fault(E.IO);
    return this.ended ? new Uint8Array() : undefined;
  }

  /** Closes the port once all that was sent has gone out, and lets the board's program run where the wiring can. */
  async close() {
    if (!this.isOpen) return;
    this.isOpen = false;
    await this.sending;
    await this.reader?.cancel().catch(() => {});
    await this.reading;
    this.reader?.releaseLock();
    this.writer?.releaseLock();
    if (this.wiring) await this.play(this.wiring.leave).catch(() => {});
    await this.port.close().catch(() => {});
  }
}

/** The calls of a line: all but these of `files` take any descriptor.
 * @param {import('./memory.js').Memory} memory @param {import('./files.js').Files} files @param {Line | undefined} line */
export function lineCalls(memory, files, line) {
  const none = () => { throw new Fault(E.NOSYS); };
  // a line in node has calls that wait by themselves, and no promises (disk.mjs)
  const after = (/** @type {any} */ it, /** @type {(it: any) => any} */ next, /** @type {() => void} */ failed = () => {}) =>
    (it instanceof Promise ? it.then(next, failed) : next(it));
  return {
    socket: () => files.add({ kind: 'line', at: 0, access: 2, appends: false, number: 0, left: [], uses: 1, wait: 0 }),
    connect: (/** @type {number} */ number, /** @type {bigint} */ address, /** @type {number} */ size) => {
      files.at(number, 'line');
      const name = new TextDecoder().decode(memory.bytes(address, size).slice(2)).replace(/\0.*$/s, '');
      if (name !== line?.name) throw new Fault(E.CONNREFUSED);
      return after(line.connect(), () => 0, () => { throw new Fault(E.CONNREFUSED); });
    },
    // a read waits so long; nothing that is sent waits
    setsockopt: (/** @type {number} */ number, /** @type {number} */ level, /** @type {number} */ name, /** @type {bigint} */ value) => {
      const it = files.at(number, 'line'), view = memory.view(), at = Number(value);
      if (level === SOCKET_LEVEL && name === RECEIVE_TIME) it.wait = Number(view.getBigInt64(at, true)) * 1000 + Number(view.getBigInt64(at + 8, true)) / 1000;
      return 0;
    },
    send: (/** @type {number} */ number, /** @type {bigint} */ at, /** @type {bigint} */ size) => {
      files.at(number, 'line');
      line?.send(memory.bytes(at, size).slice());
      return size;
    },
    recv: (/** @type {number} */ number, /** @type {bigint} */ at, /** @type {bigint} */ size) => after(line?.receive(Number(size), files.at(number, 'line').wait), (got) => {
      if (!got) throw new Fault(E.AGAIN);
      memory.bytes(at, size).set(got);
      return BigInt(got.length);
    }, () => { throw new Fault(E.IO); }),
    close: (/** @type {number} */ number) => after(files.close(number) === 'line' && line?.close(), () => 0),
    // a page serves nobody
    bind: none, listen: none, accept4: none,
  };
}

/** The port that was chosen: a page can't hand it on, so it is known by what it is.
 * @param {any[]} ports @param {{ usbVendorId?: number, usbProductId?: number }} info */
export function portOf(ports, info) {
  const same = ports.map((it) => it.getInfo()).flatMap((it, i) => (it.usbVendorId === info.usbVendorId && it.usbProductId === info.usbProductId ? [ports[i]] : []));
  if (same.length === 1) return same[0];
  throw new Error(same.length ? 'two adapters of this kind are plugged in: unplug the other one' : 'the adapter is gone: plug it in, and choose it again');
}

/** A WebSocket in the shape of a port, for tests. After so many bytes one comes with a wrong parity, the adapter is gone, or no more come. */
export class SocketPort {
  /** @param {string} url @param {{ wrongAt?: number, lostAt?: number, holdAt?: number, held?: () => void }} [plan] */
  constructor(url, plan = {}) {
    this.url = url;
    this.plan = { wrongAt: Infinity, lostAt: Infinity, holdAt: Infinity, ...plan };
  }

  async open() {
    const socket = this.socket = new WebSocket(this.url);
    let count = 0;
    socket.binaryType = 'arraybuffer';
    await new Promise((resolve, reject) => { socket.onopen = resolve; socket.onerror = reject; });
    const anew = () => { this.readable = new ReadableStream({ cancel: anew, start: (into) => {
      let isOver = false;
      const over = (/** @type {() => void} */ how) => { if (!isOver) how(); isOver = true; };
      socket.onclose = () => over(() => into.close());
      socket.onmessage = ({ data }) => {
        count += data.byteLength;
        if (count >= this.plan.wrongAt) over(() => into.error(new DOMException('a wrong parity', 'ParityError')));
        else if (count >= this.plan.lostAt) { over(() => into.error(new DOMException('the device has been lost', 'NetworkError'))); socket.close(); }
        else if (count >= this.plan.holdAt) this.plan.held?.();
        else if (!isOver) into.enqueue(new Uint8Array(data));
      };
    } }); };
    anew();
    this.writable = new WritableStream({ write: (it) => socket.send(it) });
  }

  async close() { this.socket?.close(); }

  async setSignals(/** @type {object} */ signals) { this.socket?.send(JSON.stringify(signals)); }
}
