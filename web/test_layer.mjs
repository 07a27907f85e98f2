// Tries what the page answers to the program, noun by noun: node web/test_layer.mjs [FOLDER [MODULE]]
//
// FOLDER has the files to be tried, web/page where none is given: test_layer.py hands over copies with a fault planted in one. It
// ends with 0 where all holds; behind --first at once where something doesn't: so what takes long comes last. With a MODULE it compares what that asks for with answers.
import * as fs from 'node:fs';
import * as os from 'node:os';
import { pathToFileURL } from 'node:url';
import { tryImages } from './test_images.mjs';

const folder = pathToFileURL(`${process.argv[2] ?? new URL('page', import.meta.url).pathname}/`);
const from = (name) => import(new URL(name, folder));
const [{ E, Fault }, { callsOf }, { Store, inMemory, JOURNALS }, { Line, portOf }, { stepsOf, WIRINGS }, { clockCalls }] = await Promise.all(['faults', 'program', 'store', 'line', 'wiring', 'clock'].map((it) => from(`${it}.js`)));

let held = 0, all = 0;
const same = (one, other) => JSON.stringify(one, said) === JSON.stringify(other, said);
const said = (_, it) => (typeof it === 'bigint' ? `${it}n` : it instanceof Uint8Array ? [...it] : it === undefined ? 'undefined' : it);
function holds(what, one, other = true) {
  all++;
  if (same(one, other)) return void held++;
  console.log(`FAILED: ${what}: ${JSON.stringify(one, said)}, not ${JSON.stringify(other, said)}`);
  if (process.argv.includes('--first')) process.exit(1);
}
const soon = (millis = 0) => new Promise((resolve) => setTimeout(resolve, millis));
/** A promise that has to end: `late` where it doesn't. */
const ends = (it) => Promise.race([it, soon(3000).then(() => 'late')]);
const bytesOf = (text) => new TextEncoder().encode(text);
const thrownBy = (does) => { try { return does(); } catch (thrown) { return thrown; } };

// The calls over a memory of one page, and names and texts in it.
function machine({ words = ['stmflash'], variables = {}, store = new Store([]), line, input } = {}) {
  const out = [], { memory, env } = callsOf({ words, variables, store, line, input, say: (stream, bytes) => out.push([stream, ...bytes]) });
  memory.of = { buffer: new ArrayBuffer(65536) };
  const path = (name, at = 100n) => { memory.bytes(at, 4096).fill(0); memory.put(name, at, 4000n); return at; };
  return { env, memory, store, out, path, fault: () => env.rattle_errno(), open: (name, flags) => env.open(path(name), flags, 0n),
    write: (fd, text) => { memory.put(text, 9000n, 1000n); return env.write(fd, 9000n, BigInt(bytesOf(text).length)); },
    read: (fd, room) => { const got = env.read(fd, 9000n, BigInt(room)); return got < 0n ? got : new TextDecoder().decode(memory.bytes(9000n, got).slice()); },
    told: (fd, name = '') => env.statx(fd, path(name), name ? 0 : 0x1000, 0, 20000n) === 0 && { mode: memory.view().getUint16(20028, true) >> 12,
      ino: Number(memory.view().getBigUint64(20032, true)), size: Number(memory.view().getBigUint64(20040, true)), links: memory.view().getUint32(20016, true) } };
}

{
  const { env, memory, path } = machine({ words: ['stmflash', '', 'zwei Wörter'], variables: { FIRST: 'one', EMPTY: '' } });
  memory.bytes(0, 16).fill(7);
  holds('a word', [env.rattle_arg(0n, 0n, 8n), new TextDecoder().decode(memory.bytes(0, 8))], [8n, 'stmflash']);
  holds('nothing is put behind it', memory.bytes(8, 8).every((it) => it === 7));
  holds('an empty word, a length in bytes, and no word', [env.rattle_arg(1n, 0n, 8n), env.rattle_arg(2n, 0n, 100n), env.rattle_arg(3n, 0n, 8n)], [0n, 12n, -1n]);
  holds('no room', [env.rattle_arg(0n, 0n, 3n), new TextDecoder().decode(memory.bytes(0, 3))], [-2n, 'stm']);
  holds('a variable, an empty one, and none', ['FIRST', 'EMPTY', 'NONE', 'toString'].map((it) => env.rattle_env(path(it), 0n, 8n)), [3n, 0n, -1n, -1n]);
  holds('entries', [env.rattle_env_at(0n, 0n, 20n), env.rattle_env_at(1n, 0n, 20n), env.rattle_env_at(2n, 0n, 20n)], [9n, 6n, -1n]);
  holds('the last fault, until another comes, and what one says', [env.rattle_set_errno(17), env.rattle_errno(), env.rattle_errno(), env.__xpg_strerror_r(28, 0n, 100n), memory.text(0n)], [undefined, 17, 17, 0, 'No space left on device']);
  holds('memory that grew', [memory.view().byteLength, memory.of = { buffer: new ArrayBuffer(131072) }, memory.view().byteLength, memory.bytes(131070, 2).length], [65536, { buffer: {} }, 131072, 2]);
}

{
  const { memory } = machine(), calls = clockCalls(memory, { now: () => 1999.5, timeOrigin: 1.8e12 }), at = (which) => [calls.clock_gettime(which, 8n), memory.view().getBigInt64(8, true), memory.view().getBigInt64(16, true)];
  holds('the steady clock', at(1), [0, 1n, 999500000n]); holds('the time of day', at(0), [0, 1800000001n, 999500000n]); clockCalls(memory, { now: () => 1999.9999999998 }).clock_gettime(1, 8n); holds('the last of a second', memory.view().getBigInt64(16, true), 999999999n);
}

const [CREATE, EXCLUSIVE, TRUNCATE, APPEND] = [0x40, 0x80, 0x200, 0x400];
holds('numbers of faults are the system\'s', Object.entries(E).filter(([name, number]) => os.constants.errno[`E${name}`] !== number), []);
const disks = (count) => Array.from({ length: count }, () => inMemory());
{
  const it = machine({ store: new Store(disks(4)), input: bytesOf('given') }), { env } = it;
  holds('no file', [it.open('none', 0), it.fault()], [-1, E.NOENT]); const fd = it.open('/boards/a', 2 | CREATE | EXCLUSIVE);
  holds('a new file', [fd, it.write(fd, 'hello'), it.told(fd).size, it.told(fd).mode, it.told(fd).links], [3, 5n, 5, 8, 1]);
  holds('what is told ends', [it.memory.bytes(20000, 257).fill(7).length, it.told(fd).size, ...it.memory.bytes(20255, 2)], [257, 5, 0, 7]);
  const only = it.open('/boards/only', 1 | CREATE);
  holds('what is only written', [it.write(only, 'ab'), env.lseek(only, 0n, 0), it.write(only, 'c'), it.told(only).size, env.close(only), env.unlink(it.path('/boards/only'))], [2n, 0n, 1n, 2, 0, 0]);
  holds('it is there', [it.open('/boards/a', 2 | CREATE | EXCLUSIVE), it.fault()], [-1, E.EXIST]);
  holds('back, and read', [env.lseek(fd, 1n, 0), it.read(fd, 3), it.read(fd, 9), it.read(fd, 9)], [1n, 'ell', 'o', '']);
  holds('places', [env.lseek(fd, -2n, 2), env.lseek(fd, 1n, 1), env.lseek(fd, -9n, 0), it.fault()], [3n, 4n, -1n, E.INVAL]);
  const more = it.open('boards/./a', 1 | CREATE | APPEND);
  holds('added at the end', [it.write(more, '!'), it.write(fd, '?'), it.write(more, '+'), it.told(fd).size], [1n, 1n, 1n, 7]);
  holds('what may not be read', [it.read(more, 3), it.fault()], [-1n, E.BADF]); const looks = it.open('/boards/a', 0);
  holds('what may not be written', [it.write(looks, 'x'), it.fault(), env.ftruncate(looks, 0n), it.told(fd).size], [-1n, E.BADF, -1, 7]);
  holds('one file', [it.told(fd).ino === it.told(more).ino, it.told(0, '/boards/a').ino === it.told(fd).ino], [true, true]);
  holds('a lock', [env.flock(fd, 6), env.flock(fd, 6), env.flock(more, 6), it.fault()], [0, 0, -1, E.AGAIN]);
  const copy = env.fcntl(fd, 1030, 0n); env.close(fd); holds('a copy holds it', [env.flock(more, 6), it.read(copy, 0)], [-1, '']);
  holds('closed, it is free', [env.close(copy), env.flock(more, 6), env.close(copy), it.fault()], [0, 0, -1, E.BADF]); holds('shortened', [env.ftruncate(more, 2n), it.told(more).size], [0, 2]);
  holds('closed and removed, its place is free', Array.from({ length: 5 }, () => [env.close(it.open('/boards/x', 1 | CREATE)), env.unlink(it.path('/boards/x'))]).flat(), Array(10).fill(0));
  const inos = [1, 2].map(() => { const made = it.open('/boards/x', 1 | CREATE), { ino } = it.told(made); env.close(made); env.unlink(it.path('/boards/x')); return ino; });
  holds('what is made in its place is another file', inos[0] !== inos[1]); holds('emptied as it is opened', [it.told(it.open('/boards/a', 1 | TRUNCATE)).size], [0]);
  holds('a folder', [it.told(0, '/boards').mode, it.open('/boards', 1), it.fault(), env.rattle_open_dir_at(-100, it.path('/boards/a')), it.fault(), it.read(env.rattle_open_dir_at(-100, it.path('/boards')), 1), it.fault()], [4, -1, E.ISDIR, -1, E.NOTDIR, -1n, E.ISDIR]);
  const second = it.open('/boards/zwei 二三四', 2 | CREATE);
  holds('another file', [it.told(second).ino !== it.told(more).ino, it.told(0, '/boards/zwei 二三四').ino === it.told(second).ino], [true, true]);
  const [list, both, top] = ['/boards', '/boards', '/'].map((folder) => env.rattle_open_dir_at(-100, it.path(folder))), names = [], view = it.memory.view();
  for (const [fd, room] of [[list, 40n], [list, 40n], [both, 80n], [top, 40n]]) for (let at = 30000, end = it.memory.bytes(at, 96).fill(7) && at + Number(env.getdents64(fd, 30000n, room)); at < end; at += view.getUint16(at + 16, true)) names.push([view.getUint8(at + 18), it.memory.text(BigInt(at + 19))]);
  holds('names and kinds, once', [names, env.getdents64(list, 30000n, 1000n)], [[[8, 'a'], [8, 'zwei 二三四'], [8, 'a'], [8, 'zwei 二三四'], [4, 'boards']], 0n]);
  holds('no room for a name', [env.getdents64(env.rattle_open_dir_at(-100, it.path('/boards')), 30000n, 4n), it.fault()], [-1n, E.INVAL]);
  holds('a real path, and none of none', [env.realpath(it.path('boards//./a'), 40000n), it.memory.text(40000n), env.realpath(it.path('/dev/stdout'), 40000n), it.memory.text(40000n), env.realpath(it.path('boards/none'), 40000n), it.fault()], [40000n, '/boards/a', 40000n, '/dev/stdout', 0n, E.NOENT]);
  holds('no links', [env.readlink(it.path('/boards/a'), 0n, 9n), it.fault(), env.readlink(it.path('/none'), 0n, 9n), it.fault()], [-1n, E.INVAL, -1n, E.NOENT]);
  holds('what isn\'t there, or is no file', [env.unlink(it.path('/boards/none')), it.fault(), env.rename(it.path('/boards/none'), it.path('/boards/b', 5000n)), it.fault(), env.fsync(99), it.fault(), env.lseek(list, 0n, 0), it.fault(), env.flock(list, 6), it.fault(), env.ftruncate(list, 0n), it.fault(), env.fcntl(99, 1030, 0n), it.fault(), env.fcntl(more, 3, 0n), it.fault()], [-1, E.NOENT, -1, E.NOENT, -1, E.BADF, -1n, E.INVAL, -1, E.INVAL, -1, E.ISDIR, -1, E.BADF, -1, E.INVAL]); holds('no second names', [env.link(it.path('/boards/a'), it.path('/boards/b', 5000n)), it.fault(), it.told(0, '/boards/a') !== false, it.told(0, '/boards/b')], [-1, E.PERM, true, false]);
  holds('a journal stays among them, and where it is', [env.rename(it.path('/boards/a'), it.path('/a', 5000n)), it.fault(), env.rename(it.path('/boards/a'), it.path('boards/./a', 5000n)), it.store.list('/boards').length], [-1, E.PERM, 0, 2]);
  holds('no terminal', [env.isatty(0), env.isatty(1), env.isatty(2)], [0, 0, 0]); holds('no pipe that waits', env.poll(0n, 0n, 0), 0);
  holds('streams', [it.write(1, 'ab'), it.write(2, 'c'), it.out], [2n, 1n, [[1, 97, 98], [2, 99]]]); holds('what is given', [it.read(0, 3), it.read(0, 9), it.read(0, 9)], ['giv', 'en', '']);
  const out = it.open('/dev/stdout', 1);
  holds('a stream by its name', [it.write(out, 'z'), it.out.at(-1), it.told(0, '/dev/stdout').mode], [1n, [1, 122], 2]);
  holds('rights are no matter', [env.lchown(it.path('/boards/a'), 0, 0), env.chmod(it.path('/boards/a'), 0), env.fchmod(more, 0), env.fchmod(99, 0)], [0, 0, 0, -1]);
}

{
  const told = [], disk = { ...inMemory(), flush: () => told.push('flush') }, it = machine({ store: new Store([disk]) });
  const fd = it.open('/boards/a', 2 | CREATE), before = told.length;
  holds('a sync reaches the disk', [it.env.fsync(fd), it.env.fdatasync(fd), told.length - before], [0, 0, 2]);
  disk.flush = () => { throw new DOMException('no', 'InvalidStateError'); }; holds('a sync that fails is told', [it.env.fsync(fd), it.fault()], [-1, E.IO]);
  disk.write = () => { throw new DOMException('full', 'QuotaExceededError'); }; holds('a full disk is told', [it.write(fd, 'x'), it.fault()], [-1n, E.NOSPC]);
  disk.write = () => 0;
  holds('and where nothing is taken, nor a name', [it.write(fd, 'x'), it.fault(), it.env.unlink(it.path('/boards/a')), it.env.rename(it.path('/boards/a'), it.path('/boards/b', 5000n)), it.fault(), it.told(0, '/boards/a').mode, it.store.list('/boards').length], [-1n, E.NOSPC, -1, -1, E.NOSPC, 8, 1]);
  disk.write = (bytes) => Math.min(2, bytes.length); holds('a short write is as short as it was', [it.write(fd, 'abcd'), it.env.lseek(fd, 0n, 1)], [2n, 2n]);
}

// line: over a port that does what it is told
function port() {
  const it = { told: [], sent: [], async open(how) { it.told.push(how); it.anew();
    it.writable = new WritableStream({ write: async (bytes) => { await soon(); it.sent.push(...bytes); } }); },
  anew() { it.readable = new ReadableStream({ start: (into) => { it.into = into; }, cancel: () => { if (!it.readable.locked) it.anew(); } }); },
  async close() { if (it.readable.locked || it.writable.locked) throw new Error('locked'); it.told.push('closed'); }, async setSignals(signals) { it.told.push(signals); thrownBy(() => it.into.enqueue(Uint8Array.of(9))); } };
  return it;
}
{
  const board = port(), line = new Line(board, 57600), it = machine({ line }), { env } = it;
  const address = (name) => { it.memory.bytes(50000n, 110).fill(0); it.memory.put(name, 50002n, 100n); return 50000n; };
  const fd = env.socket(1, 1, 0);
  holds('a file is no line, nor is another name', [env.send(1, 0n, 1n, 0), it.fault(), await env.connect(fd, address('/dev/other'), 110), it.fault()], [-1n, E.NOTSOCK, -1, E.CONNREFUSED]);
  holds('the line is one', [it.told(0, '/dev/board').mode, await env.connect(fd, address('/dev/board'), 110)], [12, 0]);
  holds('eight bits, even parity, one stop bit', [board.told[0].baudRate, board.told[0].dataBits, board.told[0].parity, board.told[0].stopBits], [57600, 8, 'even', 1]);
  const recv = async (room) => { const got = await ends(env.recv(fd, 9000n, BigInt(room), 0)); return typeof got === 'bigint' && got > 0n ? it.memory.bytes(9000n, got).slice() : got; };
  for (const [at, parts] of [[16, 0n], [24, 30000n]]) it.memory.view().setBigInt64(at, parts, true);
  holds('a wait is set', env.setsockopt(fd, 1, 20, 16n, 16), 0); it.memory.view().setBigInt64(16, 60n, true); holds('and another one, for what is sent, is no matter', env.setsockopt(fd, 1, 21, 16n, 16), 0);
  const began = performance.now(); holds('nothing comes in time', [await recv(9), it.fault(), performance.now() - began > 20 && performance.now() - began < 2000], [-1n, E.AGAIN, true]);
  setTimeout(() => board.into.enqueue(Uint8Array.of(1, 2, 3, 4, 5)), 10); env.setsockopt(fd, 1, 20, 16n, 16);
  holds('what comes is taken, in order, and no more than there is room for', [await recv(2), await recv(9)], [[1, 2], [3, 4, 5]]);
  it.memory.bytes(9000n, 3n).set([0x7f, 0, 255]); holds('sent', env.send(fd, 9000n, 3n, 0), 3n); it.memory.bytes(9000n, 3n).fill(0);
  const copy = env.fcntl(fd, 1030, 0n); await env.close(copy); holds('open as long as one has it', board.told.includes('closed'), false);
  holds('closed once, which isn\'t why it ended', [await ends(env.close(fd)), board.told.filter((it) => it === 'closed').length, line.ended, await line.close(), board.told.filter((it) => it === 'closed').length, env.close(fd), it.fault()], [0, 1, undefined, undefined, 1, -1, E.BADF]);
  holds('and all that was sent went out before', board.sent, [0x7f, 0, 255]);
}
{
  for (const connections of [[[6]], [[3], [3]], [[2, 2, 2]], [[1, 1], [1, 1, 1, 1]]]) for (let stop = 0; stop < 6; stop++) {
    const board = port(), line = new Line(board, 9600, undefined, undefined, stop); let count = 0;
    const send = (size) => thrownBy(() => line.send(Uint8Array.from({ length: size }, () => ++count)));
    for (const sends of connections) await line.connect().then(() => sends.forEach(send)).then(() => line.close());
    line.end('closed'); holds('a stop, behind so many bytes of all sends and connections', [line.ended, line.sent, board.sent], ['stopped', stop, [1, 2, 3, 4, 5, 6].slice(0, stop)]);
  }
  const adapter = (usbVendorId, usbProductId) => ({ getInfo: () => ({ usbVendorId, usbProductId }) }), [one, other, same] = [adapter(1, 2), adapter(1, 3), adapter(1, 2)];
  const chosen = (...ports) => { const it = thrownBy(() => portOf(ports, one.getInfo())); return ports.includes(it) ? ports.indexOf(it) : it.message.slice(0, 12); };
  holds('the adapter of that kind, which may be plugged in anew; not one of two, nor another', [chosen(other, one), chosen(same), chosen(one, other, same), chosen(other)], [1, 0, 'two adapters', 'the adapter ']);
}
for (const [what, over, sum] of [['a wrong parity', (board) => board.into.error(new DOMException('x', 'ParityError')), -1n], ['a lost adapter', (board) => board.into.error(new DOMException('x', 'NetworkError')), -1n],
  ['a break', (board) => board.into.error(new DOMException('x', 'BreakError')), -1n], ['an end', (board) => board.into.close(), 0n], ['a write that fails', (board, line) => { board.sent.push = () => { throw new DOMException('x', 'NetworkError'); }; line.send(Uint8Array.of(1)); }, -1n]]) {
  const board = port(), line = new Line(board, 9600), it = machine({ line }), fd = it.env.socket(1, 1, 0);
  it.memory.put('/dev/board', 50002n, 100n); await it.env.connect(fd, 50000n, 13);
  setTimeout(() => { if (sum) board.into.enqueue(Uint8Array.of(9)); over(board, line); }, 5);
  const begun = (sum ? soon(20).then(() => line.sending) : soon()).then(() => it.env.recv(fd, 9000n, 9n, 0));
  holds(`${what} ends the line`, [await ends(begun), await ends(it.env.recv(fd, 9000n, 9n, 0))], [sum, sum]);
  holds(`${what}: no more is sent`, [it.env.send(fd, 9000n, 1n, 0), it.fault()], [-1n, E.IO]);
  holds(`${what}: it still closes`, [await ends(it.env.close(fd)), board.told.at(-1), line.came.push(bytesOf('old'))], [0, 'closed', 1]);
  await line.connect(); holds(`${what}: opened anew it is whole, and has nothing of before`, [line.ended, line.came], [undefined, []]);
}
{
  const board = port(), line = new Line(board, 9600, stepsOf('dtr-reset,rts-boot0')), began = performance.now();
  await line.connect(); const took = performance.now() - began, { came } = line; await line.close();
  holds('a wiring is played, in and out of an open port, and what comes by then is no answer', [board.told.map((it) => it.baudRate ?? it), came],
    [[9600, { requestToSend: false }, { dataTerminalReady: true }, { dataTerminalReady: false }, { requestToSend: true }, { dataTerminalReady: true }, { dataTerminalReady: false }, 'closed'], []]);
  holds('with its waits', took >= 290); const { setSignals } = board; board.setSignals = async () => { throw new DOMException('gone', 'NetworkError'); }; holds('one that fails in it is closed again', [(await line.connect().catch((it) => it)).name, await line.close(), board.told.at(-1)], ['NetworkError', undefined, 'closed']); Object.assign(board, { setSignals });
  board.open = async () => { throw new DOMException('in use', 'InvalidStateError'); };
  const it = machine({ line: new Line(board, 9600) }), fd = it.env.socket(1, 1, 0); it.memory.put('/dev/board', 50002n, 100n);
  holds('a port in use', [await ends(it.env.connect(fd, 50000n, 13)), it.fault(), await ends(it.env.close(fd))], [-1, E.CONNREFUSED, 0]);
  holds('nobody is served', [it.env.bind(fd, 0n, 0), it.fault(), it.env.listen(fd, 1), it.env.accept4(fd, 0n, 0n, 0)], [-1, E.NOSYS, -1, -1]);
}

// what keeps the page: what others keep at its host stays, and a version is kept that has each file as it was made
{
  const kept = new Set(['stmflash-old', 'stmflash-/* the sum */', 'others']), heard = {}, told = [], cache = { match: async () => 'its own', put: async (it) => told.push(it) };
  Object.assign(globalThis, { caches: { keys: async () => [...kept], delete: async (it) => kept.delete(it), match: async () => 'any', open: async () => cache }, self: { addEventListener: (name, does) => { heard[name] = does; }, skipWaiting: () => kept.add('at once') } });
  await import(`data:text/javascript,${encodeURIComponent(fs.readFileSync(new URL('offline.js', folder), 'utf8').replace('/* the files */', '"index.html": "ba7816bf8f01cfea414140de5dae2223b00361a396177a9cb410ff61f20015ad"'))}`);
  for (const [name, ...answer] of [['install', 'another'], ['install', 'abc', { status: 404 }], ['install', 'abc'], ['activate']]) {
    globalThis.fetch = async () => new Response(...answer);
    await new Promise((resolve) => heard[name]({ waitUntil: (it) => it.then(resolve, () => resolve(told.push('no'))) }));
  }
  const got = await new Promise((resolve) => heard.fetch({ request: { method: 'GET', url: 'page.css' }, respondWith: resolve }));
  holds('what is kept of others stays, no version counts beside a tab of another, and none has a file that is another or isn\'t there', [...kept, got, told], ['stmflash-/* the sum */', 'others', 'its own', ['no', 'no', './']]);
}

tryImages(await from('image.js'), await from('chips.js'), await from('difference.js'), holds);

// what can be begun, and the words of a call, over elements that are no browser's
{
  const made = () => ({ value: '', dataset: {}, all: [], append(...it) { this.all.push(...it); }, replaceChildren(...it) { this.all = it; }, querySelectorAll: () => [], setAttribute() {}, removeAttribute() {}, scrollIntoView() {}, click() { asked.push(this.download); } });
  const it = {}, asked = [], answers = {}, off = () => Object.keys(it).filter((id) => it[id].disabled), logs = { bad: undefined, done: ['segment 1: ended', '1 can be undone'], stopped: ['unfinished: write', '1 can be undone'], undone: ['0 can be undone'] };
  Object.assign(globalThis, { document: { getElementById: (id) => (it[id] ??= made()), createElement: made, body: made() }, Worker: class { postMessage({ id, act, words, line }) {
    asked.push([words, line, off()]);
    setTimeout(() => this.onmessage({ data: { id, names: Object.keys(logs).map((it) => `${it}.journal`), status: 0, out: JSON.stringify({ says: 'none', lines: logs[words?.at(-1).slice(7, -8)] }), ...answers[words?.[0] ?? act] } }));
  } }, window: globalThis, addEventListener() {}, location: { search: '' } });
  const { state, run, takePort } = await from('calls.js'), { journals } = await from('journals.js'); Object.assign(state, { ready: true, image: {} }); await journals();
  holds('what a journal can\'t: undone, and kept', it.journals.all.map((row) => row.all[2].all.map(({ dataset }) => 'off' in dataset)), [[true, false, true], [false, false, false], [false, false, true], [true, false, false]]);
  takePort({ getInfo: () => ({ usbVendorId: 1, usbProductId: 0xabc }) }); Object.assign(it.fresh ??= made(), { checked: true }); await run(['write', '/image'], { onBoard: true });
  holds('a call on the board', [asked.at(-1), off(), it.fresh.checked, it.chosen.textContent], [[['write', '--table', '/chips.toml', '--device', '/dev/board', '--baud', '0', '--fresh', '/image'], { info: { usbVendorId: 1, usbProductId: 0xabc }, baud: 0, wiring: '', stopAt: undefined, plan: undefined },
    ['port', 'ask', 'try', 'read', 'stopped-undo', 'upload', 'file', 'write', 'compare']], [], false, 'The USB adapter 0001:0abc.']);
  Object.defineProperty(globalThis, 'navigator', { value: {}, configurable: true }); await from('page.js');
  Object.assign(state, { image: { says: 'a', parts: [{ at: 0x08000400, bytes: Uint8Array.of(1, 2) }] }, isKept: true, chips: [{ id: '0412', name: 'x', entry: 'base = 0x08000000\npages = [[32, 1024]]\n' }] }); const lost = { status: 1, err: 'stmflash: line failed\n', ended: 'NetworkError' }, gone = { error: 'it is gone', status: undefined }, failed = ['bad', 'Not done: line failed', 'The adapter is gone: plug it in again.'];
  for (const [act, how, ...due] of [['read', { read: lost }, ...failed], ['read', { get: gone }, 'bad', 'Not done: it is gone'], ['compare', { info: lost }, ...failed], ['compare', { read: lost }, ...failed], ['compare', { get: gone }, 'bad', 'Not done: it is gone'], ['compare', {}, 'good', 'Done: 1 of 1 pages differ, in 1 bytes: 1. A write changes these pages.']]) {
    Object.assign(answers, { info: { out: 'id 0412\nsize 32768' }, read: {}, get: { bytes: Uint8Array.of(1, 3) } }, how); asked.length = 0; holds(`what came of ${act}, and nothing is saved: ${Object.keys(how)}`, [await ends(stmflash.acts[act]().then(() => [it.told.className, ...it.told.all.map((line) => line.all[0]).filter((text) => !text.startsWith('Download'))])), asked.filter((one) => typeof one === 'string')], [due, []]);
  }
}

// the store: names on the disk. A disk that loses its power has of each sector that was written since the last flush the old bytes, the
// new ones, or some of both.
function weak() {
  const disk = inMemory(), all = () => { const bytes = new Uint8Array(disk.getSize()); disk.read(bytes, { at: 0 }); return bytes; };
  let kept = all();
  return Object.assign(disk, { flush() { this.before?.(); kept = all(); this.after?.(); },
    /** What is there after a loss of power: sector by sector the old one or the new one, as `choose` says. */
    lose(choose) {
      const held = all(), now = new Uint8Array(choose() & 1 ? held.length : kept.length);
      for (let at = 0; at < now.length; at += 512) {
        const cut = at + [0, 512, 20, 511][choose() % 4];
        now.set(kept.subarray(at, Math.min(at + 512, now.length)), at);
        now.set(held.subarray(at, Math.min(cut, now.length)), at);
      }
      disk.truncate(0);
      disk.write(kept = now, { at: 0 });
    } });
}
const contents = (store) => Object.fromEntries(store.list(JOURNALS).map(({ name }) => {
  const node = store.open(`${JOURNALS}/${name}`, {}), bytes = new Uint8Array(node.size());
  node.read(bytes, 0);
  return [name, new TextDecoder().decode(bytes)];
}).sort());
const make = (store, name, text) => { const node = store.open(`/boards/${name}`, { creates: true }); node.write(bytesOf(text), 0); node.flush(); node.close(); };
const OPERATIONS = {
  'a name is given': [(store) => { store.open('/boards/new', { creates: true }).close(); }, { a: 'A', b: 'B', new: '' }],
  'a name is taken': [(store) => store.remove('/boards/a'), { b: 'B' }],
  'a name is moved': [(store) => store.rename('/boards/a', '/boards/é 電'), { b: 'B', 'é 電': 'A' }],
  'a name is moved over another': [(store) => store.rename('/boards/a', '/boards/b'), { b: 'A' }],
};
let seed = 7;
const choose = () => { seed = (seed * 48271) % 2147483647; return seed >> 6; };
{
  for (const [what, [does, after]] of Object.entries(OPERATIONS)) {
    const seen = new Set();
    for (let round = 0; round < 480; round++) {
      const disk = Array.from({ length: 4 }, weak), store = new Store(disk);
      for (let i = 0; i <= round % 3; i++) { make(store, 'a', `was ${i}`); make(store, 'b', 'was'); store.remove('/boards/a'); store.remove('/boards/b'); }
      for (const it of ['a', 'b', 'before']) make(store, it, it.toUpperCase());
      store.remove('/boards/before');
      if (round % 2) {
        // the power goes in the middle: before any flush, or behind it; and what failed is done once more, which fails once more
        let left = Math.floor(round / 2) % 5;
        for (const it of disk) it.before = it.after = () => { if (!left-- || left === -2) throw new Error('no power'); };
      }
      let isDone = true;
      try { does(store); } catch { isDone = thrownBy(() => does(store)) === undefined; }
      for (const it of disk) { it.before = it.after = undefined; it.lose(choose); }
      const now = contents(new Store(disk));
      seen.add(isDone ? 'done' : 'stopped');
      holds(`${what}: ${isDone ? 'it is on the disk' : 'before or behind it'}`, isDone ? same(now, after) : same(now, after) || same(now, { a: 'A', b: 'B' }));
    }
    holds(`${what}: with and without power`, seen.has('done'));
  }
  const disk = Array.from({ length: 3 }, weak), store = new Store(disk);
  for (const [name, text] of [['a', 'old'], ['b', 'newer']]) make(store, name, text);
  const { write } = disk[0];
  disk[0].write = () => { disk[0].write = write; throw new Error('no'); };
  try { store.rename('/boards/b', '/boards/a'); } catch { /* the older name stays */ }
  const again = new Store(disk); holds('of two files of a name the newer one', contents(again), { a: 'newer' });
  again.remove('/boards/a');
  holds('and the older one doesn\'t come back', contents(new Store(disk)), {});
  holds('no file is the line', again.pool.every((it) => it.ino > machine({ store: again, line: { name: '/dev/board' } }).told(0, '/dev/board').ino));
}
{
  const store = new Store(disks(3)), open = store.open('/boards/a', { creates: true }); open.write(bytesOf('kept'), 0); store.remove('/boards/a');
  const bytes = new Uint8Array(4);
  holds('what is open stays readable without a name', [open.read(bytes, 0), new TextDecoder().decode(bytes), store.look('/boards/a') === undefined], [4, 'kept', true]);
  make(store, 'b', 'B'); open.read(bytes, 0);
  holds('and nobody else gets its place', new TextDecoder().decode(bytes), 'kept'); open.close();
  const one = inMemory(), have = new Uint8Array(8194), wanted = new Uint8Array(8194); make(new Store([one]), 'é', '!');
  wanted.set([...bytesOf('stmpool1'), 1, 0, 0, 0, 0, 0, 0, 0, 10, 0, ...bytesOf('/boards/é')], 4096), new DataView(wanted.buffer).setUint32(4604, 0xa477d188, true), wanted.set([33], 8192);
  holds('a journal lies on the disk as pages of before have it', [one.read(have, { at: 0 }), have], [8193, wanted]);
  const over = store.open('/boards/b', {}); make(store, 'c', 'C'); store.rename('/boards/c', '/boards/b');
  holds('what is replaced while it is open', [over.read(bytes, 0), contents(store), store.look('/boards/c')], [1, { b: 'C' }, undefined]);
  over.close(); holds('places come back', store.free(), 2);
  make(store, 'd', 'long before'); store.remove('/boards/d'); make(store, 'd', '');
  holds('nothing is left of another file', contents(store), { b: 'C', d: '' }); make(store, 'e', '');
  holds('no place left', thrownBy(() => make(store, 'f', '')).number, E.NOSPC); holds('nor in a head', [482, 483].map((it) => thrownBy(() => make(new Store([inMemory()]), 'n'.repeat(it), ''))?.number), [undefined, E.INVAL]);
  store.open('image', { creates: true }).close(); holds('no such folder, and a folder is no file', [() => make(store, 'x/y', ''), () => store.open('/none/x', { creates: true }), () => store.remove('/boards'), () => store.remove('/none'), () => store.rename('/boards/d', '/'), () => store.rename('/none', '/boards')].map((it) => thrownBy(it)?.number), [E.NOENT, E.NOENT, E.ISDIR, E.NOENT, E.ISDIR, E.NOENT]); holds('one image at a time', ['a', 'b'].map((it) => [store.open(`/images/${it}`, { creates: true }).close(), ...store.list('/images').map(({ name, kind }) => [name, kind])]), [[undefined, ['a', 'file']], [undefined, ['b', 'file']]]);
  holds('files beside are in memory', [store.free(), store.look('/image')?.kind, store.look('/image')?.size, contents(store).image], [0, 'file', 0, undefined]);
}

// the worker: what it is handed over has a place each time, and is whole or not there where the power goes ahead of any flush. One page at
// a time has a file of the pool.
{
  let opening = -3, held; seed = 1;
  const asked = {}, told = [], order = [], files = new Map(), path = '/boards/a';
  const file = (disk, holder) => ({ disk, async createSyncAccessHandle() { if (holder === opening) throw new DOMException('', 'NoModificationAllowedError'); holder = opening; return disk; } });
  const folder = { values: () => [...files.values()], getDirectoryHandle: async () => folder, getFileHandle: async (name) => files.get(name) ?? files.set(name, file(weak())).get(name) };
  Object.defineProperty(globalThis, 'navigator', { value: { locks: { request: (_, ...it) => (held = it.at(-1)(it.length > 1 && opening === -3 ? null : {})) }, storage: { getDirectory: async () => folder }, serial: { getPorts: async () => [{ getInfo: () => ({}) }] } } });
  Object.assign(globalThis, { onmessage: undefined, fetch: async () => new Response(''), postMessage: (it) => (it.id ? asked[it.id](it) : told.push(...Object.keys(it))) });
  Object.assign(WebAssembly, { compileStreaming: async () => new WebAssembly.Module(Uint8Array.of(0, 97, 115, 109, 1, 0, 0, 0, 1, 7, 1, 96, 2, 127, 126, 1, 127, 3, 2, 1, 0, 7, 8, 1, 4, 109, 97, 105, 110, 0, 0, 10, 6, 1, 4, 0, 65, 0, 11)) });
  const ask = (act, given) => new Promise((resolve) => { asked[act] = resolve; onmessage({ data: { id: act, act, ...given } }); });
  for (; opening < 40; opening++) {
    if (opening >= 0) files.clear();
    await from(`worker.js?${opening}`);
    if (opening < 0) { holds('each opening has a place for 16 more', [(await ask('put', { path: `/boards/${opening}`, bytes: bytesOf('') })).error, files.size], [undefined, 19 + opening]); continue; }
    if (!opening) {
      const { close } = Line.prototype, { getDirectoryHandle } = folder, call = () => ask('run', { words: ['info'], line: { info: {}, baud: 9600 } }).then((it) => order.push(it.status, it.error?.slice(0, 28)));
      Line.prototype.close = () => soon(9).then(() => order.push('closed')); await Promise.all([call(), ask('list').then(() => order.push('listed'))]);
      folder.getDirectoryHandle = async () => { throw new Error('not there'); }; await call(); Object.assign(Line.prototype, { close }); Object.assign(folder, { getDirectoryHandle });
      holds('a call is answered once its line is closed, the next waits for it, and none begins where the files were cleared', order, ['closed', 0, '', 'listed', undefined, 'what this page has on the di']); holds('one tab has the files as long as it is open, and another waits', [told, await Promise.race([held, soon(9).then(() => 'held')])], [['waits', ...Array(4).fill('compiled')], 'held']);
    }
    for (let k = 0; k < 20; k += opening ? 20 : 1) holds('it can be had, and be gone', [(await ask('put', { path, bytes: bytesOf(`${k}`) })).error, (await ask('get', { path })).bytes, (await ask('remove', { path })).error], [undefined, bytesOf(`${k}`), undefined]);
    const disk = [...files.values()].map((it) => it.disk), lose = () => { for (const it of disk) { it.before = undefined; it.lose(choose); } return contents(new Store(disk)).a ?? 'not there'; };
    let left = opening % 6, lost;
    for (const it of disk) it.before = () => { if (!left--) { lost = lose(); throw new Error('no power'); } };
    await ask('put', { path, bytes: bytesOf('whole') });
    holds('it is whole, or not there where the power went, and nothing is beside it', [lost === 'not there' || (lost ?? lose()) === 'whole', (await ask('list')).names.filter((it) => it !== 'a')], [true, []]);
  }
}
if (process.argv[3]) holds('what the module asks for is what is answered', Object.keys(machine().env).sort(), WebAssembly.Module.imports(new WebAssembly.Module(fs.readFileSync(process.argv[3]))).map((it) => it.name).sort());
if (process.argv.includes('--wirings')) console.log(JSON.stringify(Object.fromEntries(WIRINGS.map((it) => [it, stepsOf(it)]))));
console.log(`${held} of ${all} hold`);
process.exitCode = held === all ? 0 : 1;
