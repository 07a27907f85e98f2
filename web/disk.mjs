// The module in node, with the files of this machine: for the program's own tests, as far as they need no more of a system.
//
//     node --experimental-wasm-memory64 web/disk.mjs MODULE WORD..
//     node --experimental-wasm-memory64 web/disk.mjs --serve MODULE
//
// It stands where web/page/worker.js stands in a browser; all else is the page's own. A device is sim:ID:FILE, or a socket. With
// --serve each client of the socket that is its standard input hands over its folder, words, variables and input, and gets the status
// and both streams: so the module is compiled once for many calls (web/under-node, web/rows).
import * as fs from 'node:fs';
import * as net from 'node:net';
import { MessageChannel, Worker, isMainThread, receiveMessageOnPort, workerData } from 'node:worker_threads';
import { E, Fault } from './page/faults.js';
import { run } from './page/program.js';

const NUMBERS = { ENOENT: E.NOENT, EACCES: E.ACCES, EPERM: E.PERM, EEXIST: E.EXIST, ENOTDIR: E.NOTDIR, EISDIR: E.ISDIR, EINVAL: E.INVAL, ENOSPC: E.NOSPC,
  EROFS: 30, EFBIG: 27, ELOOP: 40, ENAMETOOLONG: 36 };

/** What node answers, or the program's fault. */
function of(call) {
  try {
    return call();
  } catch (thrown) {
    throw new Fault(NUMBERS[thrown.code] ?? E.IO);
  }
}

const kindOf = (it) => (it.isDirectory() ? 'folder' : it.isFile() ? 'file' : it.isSocket() ? 'line' : 'stream');

const store = {
  real: (name) => { try { return fs.realpathSync(name); } catch { return undefined; } },
  look(name) {
    const it = of(() => fs.statSync(name, { throwIfNoEntry: false }));
    return it && { kind: kindOf(it), size: it.size, ino: it.ino };
  },
  list: (name) => of(() => fs.readdirSync(name, { withFileTypes: true })).map((it) => ({ name: it.name, kind: kindOf(it) })),
  open(name, { creates, writes, mode }) {
    const number = of(() => fs.openSync(name, creates ? 'wx+' : writes ? 'r+' : 'r', mode)), it = fs.fstatSync(number);
    const at = (place) => (it.isFile() ? place : null);
    return { ino: it.ino, size: () => fs.fstatSync(number).size, read: (bytes, place) => of(() => fs.readSync(number, bytes, 0, bytes.length, at(place))),
      write: (bytes, place) => of(() => fs.writeSync(number, bytes, 0, bytes.length, at(place))), truncate: (size) => of(() => fs.ftruncateSync(number, size)),
      flush: () => of(() => fs.fsyncSync(number)), close: () => fs.closeSync(number) };
  },
  remove: (name) => of(() => fs.unlinkSync(name)),
  rename: (from, to) => of(() => fs.renameSync(from, to)),
};

/** A line to a socket, whose calls wait by themselves: a thread beside has the socket. */
class Line {
  left = [];

  constructor(name) { this.name = name; }

  connect() {
    const { port1, port2 } = new MessageChannel(), turn = new Int32Array(new SharedArrayBuffer(4));
    Object.assign(this, { port: port1, turn, thread: new Worker(new URL(import.meta.url), { workerData: { name: this.name, port: port2, turn }, transferList: [port2] }) });
    if (this.next(0) === null) throw new Fault(E.CONNREFUSED);
  }

  /** What the thread says next; nothing where that is nothing in so many milliseconds, 0: never. */
  next(millis) {
    for (const ends = performance.now() + (millis || Infinity);;) {
      const seen = Atomics.load(this.turn, 0), it = receiveMessageOnPort(this.port), more = ends - performance.now();
      if (it) return it.message;
      if (more <= 0) return undefined;
      Atomics.wait(this.turn, 0, seen, more);
    }
  }

  receive(most, millis) {
    const it = this.left.shift() ?? this.next(millis);
    if (it === null) throw new Fault(E.IO);
    // an end stays one
    if (it && (it.length > most || !it.length)) this.left.unshift(it.subarray(most));
    return it?.subarray(0, most);
  }

  send(bytes) { this.port.postMessage(bytes); }

  close() { this.port?.postMessage(null); }
}

/** The thread of a line. It says nothing once it is there, what comes, nothing at the end, and null where the line failed. */
function carry({ name, port, turn }) {
  const tell = (it) => { port.postMessage(it); Atomics.add(turn, 0, 1); Atomics.notify(turn, 0); }, socket = net.connect(name, () => tell(new Uint8Array()));
  socket.on('data', (it) => tell(new Uint8Array(it))).on('end', () => tell(new Uint8Array())).on('error', () => tell(null)).on('close', () => port.close());
  port.on('message', (it) => (it ? socket.write(it) : socket.end()));
}

/** Runs the module once: its status. */
function once(module, words, variables, input, say) {
  const name = words[words.indexOf('--device') + 1 || words.length] ?? variables.STMFLASH_DEVICE, isLine = name && fs.existsSync(name) && fs.statSync(name).isSocket();
  return run(module, { words: ['stmflash', ...words], variables, store, input, say, line: isLine ? new Line(name) : undefined });
}
const compiled = (name) => new WebAssembly.Module(fs.readFileSync(name));

/** Each call by itself: they share this process's folder. */
function serve(module) {
  let last = Promise.resolve();
  net.createServer({ allowHalfOpen: true }, (client) => {
    const came = [];
    client.on('error', () => {});
    client.on('data', (it) => came.push(it));
    client.on('end', () => { last = last.then(async () => {
      const all = Buffer.concat(came), said = [[], [], []];
      let at = 0;
      const next = () => { const size = all.readUInt32BE(at); at += 4 + size; return all.subarray(at - size, at); };
      const some = () => Array.from({ length: Number(next().toString()) }, () => next().toString());
      process.chdir(next().toString());
      const words = some(), variables = Object.fromEntries(some().map((it) => it.split(/=(.*)/s).slice(0, 2)));
      const status = await once(module, words, variables, new Uint8Array(next()), (stream, bytes) => said[stream].push(bytes));
      const answer = [Buffer.from(`${status}`), Buffer.concat(said[1]), Buffer.concat(said[2])];
      client.end(Buffer.concat(answer.flatMap((it) => [Buffer.from(Uint32Array.of(it.length).buffer).swap32(), it])));
    }).catch(() => client.destroy()); });
  }).listen({ fd: 0 });
}

const [first, ...rest] = process.argv.slice(2);
if (!isMainThread) carry(workerData);
else if (first === '--serve') serve(compiled(rest[0]));
else {
  const isPiped = rest.includes('/dev/stdin');
  process.exitCode = await once(compiled(first), rest, process.env, isPiped ? fs.readFileSync(0) : undefined,
    (stream, bytes) => { for (let at = 0; at < bytes.length;) at += fs.writeSync(stream, bytes, at); });
}
