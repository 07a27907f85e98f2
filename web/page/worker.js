// Runs the program, one call after the other, and has the files of the page for this tab alone.
// @ts-check
import { Line, SocketPort, portOf } from './line.js';
import { run } from './program.js';
import { JOURNALS, Store } from './store.js';
import { stepsOf } from './wiring.js';

// so many journals can begin until the page is opened again, and as many can be there as there is room
const SPARE = 16, FOLDER = 'journals';
const decoder = new TextDecoder();
/** @type {WebAssembly.Module} */
let module;
/** @type {Store} */
let store;

/** The files of the pool: those that are there, and new ones, until enough have no name.
 * @param {FileSystemDirectoryHandle} folder */
async function pool(folder) {
  /** A tab that was closed just now may hold a file for a moment longer.
   * @param {FileSystemFileHandle} it @param {number} more @returns {Promise<any>} */
  const open = (it, more = 100) => /** @type {any} */ (it).createSyncAccessHandle().catch(async (/** @type {any} */ thrown) => {
    if (thrown?.name !== 'NoModificationAllowedError' || !more) throw thrown;
    await new Promise((resolve) => setTimeout(resolve, 100));
    return open(it, more - 1);
  });
  const handles = [];
  for await (const it of /** @type {any} */ (folder).values()) handles.push(await open(it));
  store = new Store(handles);
  try {
    for (let i = 0; store.free() < SPARE; i++) store.adopt([await open(await folder.getFileHandle(`${Date.now()}-${i}`, { create: true }))]);
  } catch {
    // no room: what is there has to do, and a journal that finds none is refused before anything is sent
  }
}

async function begin() {
  const began = performance.now();
  const compiled = WebAssembly.compileStreaming(fetch('stmflash.wasm'));
  const folder = await (await navigator.storage.getDirectory()).getDirectoryHandle(FOLDER, { create: true });
  await pool(folder);
  put('/chips.toml', new Uint8Array(await (await fetch('chips.toml')).arrayBuffer()));
  module = await compiled;
  return performance.now() - began;
}

/** Puts bytes into a file, whole.
 * @param {string} path @param {Uint8Array} bytes */
function put(path, bytes) {
  const beside = `${path}.new`, node = store.open(beside, { creates: true });
  try {
    node.truncate(0);
    if (node.write(bytes, 0) !== bytes.length) throw new DOMException('no room', 'QuotaExceededError');
    node.flush();
    store.rename(beside, path);
  } catch (thrown) {
    store.remove(beside);
    throw thrown;
  } finally {
    node.close();
  }
}

/** @param {string} path */
function get(path) {
  const node = store.open(path, { creates: false }), bytes = new Uint8Array(node.size());
  const got = node.read(bytes, 0);
  node.close();
  if (got !== bytes.length) throw new Error(`${path}: ${got} bytes of ${bytes.length} came`);
  return bytes;
}

/** What is said where whoever clears the data of the site took the pool's folder away under an open page; '' where it is there. */
const cleared = async () => navigator.storage.getDirectory().then((it) => it.getDirectoryHandle(FOLDER)).then(() => '', () =>
  'what this page has on the disk was cleared: download each journal now, then open the page again');

/** @type {Record<string, (given: any) => Promise<object>>} */
const acts = {
  async run({ words, line }) {
    const gone = line && await cleared();
    if (gone) throw new Error(gone);
    const port = line && (line.url ? new SocketPort(line.url, { ...line.plan, held: () => postMessage({ held: true }) }) : portOf(await /** @type {any} */ (navigator).serial.getPorts(), line.info));
    const on = port && new Line(port, line.baud, line.wiring && stepsOf(line.wiring), undefined, line.stopAt), began = performance.now();
    const said = ['', '', ''];
    try {
      const status = await run(module, { words: ['stmflash', ...words], store, line: on,
        say: (stream, bytes) => { said[stream] += decoder.decode(bytes); postMessage({ stream, text: decoder.decode(bytes) }); } });
      return { status, out: said[1], err: said[2], ended: on?.ended, sent: on?.sent, millis: performance.now() - began, error: line && await cleared() };
    } finally {
      await on?.close();
    }
  },
  async put({ path, bytes }) { put(path, bytes); return {}; },
  async get({ path }) { return { bytes: get(path) }; },
  async remove({ path }) { store.remove(path); return {}; },
  async list() { return { names: store.list(JOURNALS).map((it) => it.name) }; },
};

/** @type {Promise<unknown>} */
let last = Promise.resolve();
onmessage = ({ data }) => {
  last = last.then(async () => {
    try {
      postMessage({ id: data.id, ...(await acts[data.act](data)) });
    } catch (thrown) {
      postMessage({ id: data.id, error: String(/** @type {any} */ (thrown)?.message ?? thrown) });
    }
  });
};

// the files are one tab's; another one waits until that is closed
const only = (/** @type {Lock | null} */ lock) => {
  if (!lock) {
    postMessage({ waits: true });
    void navigator.locks.request('stmflash', only);
    return undefined;
  }
  last = begin().then((millis) => postMessage({ compiled: millis }), (thrown) => postMessage({ failed: String(thrown?.message ?? thrown) }));
  return new Promise(() => {});
};
void navigator.locks.request('stmflash', { ifAvailable: true }, only);
