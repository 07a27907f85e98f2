// The page: what its buttons do to a board, and how it begins.
//
// Each button is a call of the program, whose words stand here, in journals.js and in trial.js.
// @ts-check
import { NEW, ask, askBoard, begun, choose, inOneRow, named, run, shows, state, takePort } from './calls.js';
import { chipsOf, pagesOf } from './chips.js';
import { laidOut, ranges, where } from './difference.js';
import { $, option, save, say, tell, wrong } from './elements.js';
import { imageOf } from './image.js';
import { end, journals, keep, says, takeJournal, undo } from './journals.js';
import { tryBoard } from './trial.js';
import { WIRINGS } from './wiring.js';

// a module with a memory of 64 bits
const WIDE = Uint8Array.of(0, 97, 115, 109, 1, 0, 0, 0, 5, 3, 1, 4, 1);

/** @param {{ isRaw: boolean, parts: import('./difference.js').Part[] }} image its bytes are told where they are to lie */
const placed = ({ isRaw, parts }) => laidOut(isRaw ? [{ ...parts[0], at: parseInt($('address').value, 16) }] : parts);

/** The pages of a chip of the table.
 * @param {string} id @param {number} [most] */
function knowChip(id, most) {
  const it = state.chips.find((it) => it.id === id);
  state.pages = it && pagesOf(it.entry, most);
  showImage();
}

/** Says what the image is, and which pages it touches, where the chip is known. */
function showImage() {
  const laid = state.image && placed(state.image), { numbers } = laid && state.pages ? where(state.pages, laid.low, laid.bytes, () => true) : { numbers: [] };
  if (state.image) say('image', `${state.image.says}${numbers.length ? `; ${numbers.length} of the ${state.pages?.length} pages: ${ranges(numbers)}` : ''}.`);
}

/** @param {string} act a call on the image, as its file is by now @param {string[]} how @param {(it: any) => string[]} done */
async function onImage(act, how, done) {
  await take(state.file);
  if (!state.image) return tell('bad', [$('image').textContent]);
  const { bytes, isRaw } = state.image, path = `/images/${state.file?.name.replace(/@/g, '_')}`, typed = isRaw && wrong('address'), put = typed ? { error: typed } : await ask('put', { path, bytes });
  const it = put.error ? put : await run([act, ...named(), ...how, ...(isRaw ? ['-S', `0x${$('address').value}`] : []), path], { onBoard: true });
  return end(it, it.status === 0 ? done(it) : []);
}

const acts = {
  async ask() {
    const { it, told } = await askBoard();
    if (told) knowChip(told.id, Number(told.size));
    return end(it, ['The board answered.']);
  },
  write: () => onImage('write', ['--progress', '-v'], (it) => it.out.trim().split('\n')),
  /** Reads what the board has in the place of the image, and says what a write would change. */
  async compare() {
    await take(state.file);
    const laid = state.image && placed(state.image), typed = state.image?.isRaw && wrong('address');
    if (!state.image || typed || !laid) return tell('bad', [typed || (state.image ? 'Its bytes lie too far apart for any flash.' : $('image').textContent)]);
    const { it: asked, told } = await askBoard();
    if (!told) return end(asked, []);
    knowChip(told.id, Number(told.size));
    const it = await run(['read', ...named(), '-S', `0x${laid.low.toString(16)}:${laid.bytes.length}`, '/there'], { onBoard: true });
    if (it.status) return end(it, []);
    const { bytes, error } = await ask('get', { path: '/there' }), pages = state.pages ?? [], { numbers } = where(pages, laid.low, laid.bytes, () => true);
    if (error) return end({ ...it, error }, []);
    const other = where(pages, laid.low, laid.bytes, (byte, i) => byte !== bytes[i]);
    return end(it, [other.count ? `${other.numbers.length} of ${numbers.length} pages differ, in ${other.count} bytes: ${ranges(other.numbers)}. A write changes these pages.` : 'The board has just these bytes.']);
  },
  async read() {
    const form = $('form').value, path = `/flash.${form}`, it = await run(['read', ...named(), ...(form === 'hex' ? ['--hex'] : []), path], { onBoard: true });
    const { bytes, error } = it.status ? it : await ask('get', { path });
    if (bytes) save(path.slice(1), bytes);
    return end(bytes ? it : { ...it, error }, [`The flash is in ${path.slice(1)}.`]);
  },
  try: tryBoard,
  undo,
  keep,
};

/** @param {File | undefined} file */
async function take(file) {
  if (!file) return;
  state.file = file;
  try {
    state.image = imageOf(file.name, new Uint8Array(await file.arrayBuffer()));
    showImage();
  } catch (thrown) {
    state.image = undefined;
    const { name, message } = /** @type {Error} */ (thrown);
    say('image', `${file.name}: ${name === 'NotReadableError' ? 'it was changed or removed: choose it again' : name === 'RangeError' ? 'it ends too soon' : message}.`);
  }
  shows();
}

$('wiring').append(...WIRINGS.map((it) => option(it, it.replace(/inverted-(\w+)-(\w+)/g, '$1-$2 by an inverter').replace(/,/, ', '))));
for (const id of ['wiring', 'board']) $(id).onchange = shows;
$('address').oninput = showImage;
// of a table that has one chip alone no other board is taken
$('kind').onchange = () => {
  knowChip($('kind').value);
  return ask('put', { path: '/chip.toml', bytes: new TextEncoder().encode(state.chips.find((it) => it.id === $('kind').value)?.entry) });
};
$('port').onclick = choose;
for (const id of /** @type {('ask' | 'write' | 'compare' | 'read' | 'try')[]} */ (['ask', 'write', 'compare', 'read', 'try'])) $(id).onclick = () => inOneRow(acts[id]);
$('stopped-undo').onclick = () => undo(state.unfinished[0], true);
$('file').onchange = () => take($('file').files[0]);
// a file that misses its place would be opened in the place of the page
for (const kind of ['dragover', 'dragleave', 'drop']) addEventListener(kind, (/** @type {any} */ it) => {
  it.preventDefault();
  $('drop').className = kind === 'dragover' ? 'over' : '';
  if (kind === 'drop' && !state.busy && !state.isAtWork) void take(it.dataTransfer?.files[0]);
});
// the same file may be chosen again
for (const id of ['file', 'upload']) $(id).onclick = () => { $(id).value = ''; };
$('upload').onchange = () => takeJournal($('upload').files[0]);
addEventListener('beforeunload', (it) => { if (state.busy || state.isAtWork) it.preventDefault(); });

/** @returns {Promise<string>} */
async function begin() {
  const { serial, storage } = /** @type {any} */ (navigator), simulated = new URLSearchParams(location.search).get('line');
  if (!isSecureContext) throw new Error('it has to come by HTTPS, or from this machine itself');
  const lacks = [[WebAssembly.validate(WIDE), 'WebAssembly with 64 bits'], [/** @type {any} */ (WebAssembly).Suspending, 'calls of WebAssembly that wait (JSPI)'], [serial || simulated, 'Web Serial'],
    [storage?.getDirectory, 'files of its own']].filter(([has]) => !has).map(([, what]) => what);
  if (lacks.length) throw new Error(`this browser lacks ${lacks.join(', ')}. Chrome and Edge have them, from 137 on`);
  shows();
  state.compiled = await begun;
  state.chips = chipsOf(await (await fetch('chips.toml')).text());
  $('kind').append(...state.chips.map(({ id, name }) => option(id, `${name} (${id})`)));
  state.ready = true;
  if (simulated) {
    state.line = { url: new URL(simulated, location.href.replace(/^http/, 'ws')).href };
    document.body.className = 'simulated';
    say('chosen', 'A simulated board, which comes with this page.');
  } else {
    const ports = await serial.getPorts();
    if (ports.length === 1) takePort(ports[0]);
  }
  await journals();
  shows();
  // some browsers ask their user, and answer when that did
  const version = (await run(['--version'], { isQuiet: true })).out.trim(), verdict = await (await fetch('verdict.txt')).text();
  say('proved', `${version}.${verdict.startsWith('logic=proved') ?
    ` What was proved is the program (${verdict.trim()}). What made WebAssembly of it, this page's own files, the browser and its system are trusted.` : ''}`);
  const isKept = storage.persist().then((/** @type {boolean} */ it) => { state.isKept = it; return it; });
  return (await Promise.race([isKept, new Promise((resolve) => setTimeout(resolve, 1000, false))])) ? 'Ready.' :
    'Ready. This browser may clear the journals when it needs room: download each one after a write.';
}

navigator.serviceWorker?.register('offline.js').catch(() => {});
begin().then((text) => say('state', text), (thrown) => { say('state', `stmflash can't begin: ${thrown.message}.`); })
  .finally(() => { document.body.dataset.ready = state.ready ? 'yes' : 'no'; });
Object.assign(window, { stmflash: { state, ask, acts, take, takeJournal, run, says, journals } });
