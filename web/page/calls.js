// Calls of the program: what the page knows, the port that was chosen, and why a call ended. The files and the line are the worker's.
// @ts-check
import { $, element, say, wrong } from './elements.js';

export const FOLDER = 'boards', ENDING = '.journal', NEW = ':new';
const DEVICE = '/dev/board';
// what the program says in words of the command line, in the page's
/** @type {[RegExp, string][]} */
const MEANT = [[/; say --board .*$/, '; undo first, or reset the board, and say above that it was'], [/: undo (1 )?--recover.*/, ': download it, and undo by the command line, with --recover'],
  [/: --journal names its journal$/, ': choose a board with a name of its own, above']];
// why a line ended, as Web Serial names it
/** @type {Record<string, string>} */
const ENDED = { ParityError: 'A byte came wrong: look at the speed, the wiring and ground.', FramingError: 'A byte came wrong: look at the speed, the wiring and ground.',
  BreakError: 'A break came: look at the wiring and ground.', BufferOverrunError: 'Bytes came faster than this PC took them.',
  NetworkError: 'The adapter is gone: plug it in again.', closed: 'The line was closed.' };

const worker = new Worker('worker.js', { type: 'module' });
/** @type {Map<number, (answer: any) => void>} */
const asked = new Map();
/** `busy` is a call, `isAtWork` a row of them.
 * @type {{ busy: boolean, isAtWork: boolean, ready: boolean, isKept: boolean, isQuiet: boolean, names: string[], unfinished: string[], file?: File,
 *   chips: ReturnType<typeof import('./chips.js').chipsOf>, pages?: import('./chips.js').Page[], image?: ReturnType<typeof import('./image.js').imageOf>,
 *   line?: any, plan?: any, wait?: number, isHeld?: boolean, compiled?: number }} */
export const state = { busy: false, isAtWork: false, ready: false, isKept: false, isQuiet: false, names: [], unfinished: [], chips: [] };
let count = 0;

/** @param {string} act @param {object} [given] @returns {Promise<any>} */
export const ask = (act, given = {}) => new Promise((resolve) => { asked.set(++count, resolve); worker.postMessage({ id: count, act, ...given }); });
/** @type {Promise<number>} */
export const begun = new Promise((resolve, reject) => {
  worker.onerror = () => reject(new Error('its files didn\'t load'));
  worker.onmessage = ({ data }) => {
    if (data.id) asked.get(data.id)?.(data);
    else if (data.text !== undefined) hear(data.text);
    else if (data.waits) say('state', 'stmflash is open in another tab. Go on there, or close it: this tab then goes on by itself.');
    else if (data.held) state.isHeld = true;
    else if (data.failed) reject(new Error(data.failed));
    else if (data.compiled !== undefined) resolve(data.compiled);
  };
});

/** What a run says: progress moves the bar, and all of it can be read.
 * @param {string} text */
function hear(text) {
  if (state.isQuiet) return;
  const steps = [...text.matchAll(/^page \d+ (\w+), (\d+) of (\d+) pages$/gm)], last = steps.at(-1);
  if (last) {
    const [, what, at, all] = last;
    say('step', `${what === 'written' ? 'Written' : what === 'read' ? 'Checked' : `Page ${what}`}: step ${at} of ${all}`);
    Object.assign($('bar'), { max: Number(all), value: Number(at) });
  }
  $('said').append(text);
  $('said').scrollTop = $('said').scrollHeight;
}

/** What can be done now. */
export function shows() {
  const isOff = state.busy || state.isAtWork || !state.ready;
  for (const id of ['port', 'ask', 'try', 'read', 'stopped-undo', 'upload', 'file']) $(id).disabled = isOff;
  for (const id of ['write', 'compare']) $(id).disabled = isOff || !state.image;
  for (const it of $('journals').querySelectorAll('button')) it.disabled = isOff || 'off' in it.dataset;
  $('by-hand').hidden = Boolean($('wiring').value);
  $('naming').hidden = $('board').value !== NEW;
  $('start').hidden = !state.image?.isRaw;
}

/** A row of calls that nothing else comes between.
 * @param {() => Promise<any>} acts */
export async function inOneRow(acts) {
  state.isAtWork = true;
  return acts().finally(() => { state.isAtWork = false; shows(); });
}

/** @param {any} port */
export function takePort(port) {
  const { usbVendorId, usbProductId } = port.getInfo(), four = (/** @type {number} */ it) => it.toString(16).padStart(4, '0');
  state.line = { info: { usbVendorId, usbProductId } };
  say('chosen', usbVendorId === undefined ? 'A serial port of this machine.' : `The USB adapter ${four(usbVendorId)}:${four(usbProductId)}.`);
}

/** Asks for a port; who takes none keeps the one before. */
export const choose = () => /** @type {any} */ (navigator).serial.requestPort().then(takePort, () => {}).then(() => Boolean(state.line));

/** What the program says of a chip, with its name.
 * @param {string} text */
export const withName = (text) => state.chips.reduce((it, { id, name }) => it.replace(`unknown chip ${id}`, `the board has another chip, ${name} (${id}): choose that one above, or connect the other board`)
  .replace(RegExp(`^id ${id}$`, 'm'), `chip ${name} (${id})`), text);

/** One call of the program; with `stopAt` the line ends behind so many bytes that are sent.
 * @param {string[]} words @param {{ onBoard?: boolean, isQuiet?: boolean, stopAt?: number }} [how] */
export async function run(words, how = {}) {
  const { onBoard = false, isQuiet = false, stopAt } = how, none = { status: 1, out: '', err: '', ended: '', sent: 0 };
  if (state.busy) return none;
  const typed = onBoard && $('board').value === NEW && wrong('name');
  if (typed) return { ...none, err: `stmflash: ${typed}\n` };
  Object.assign(state, { busy: true, isQuiet });
  shows();
  let answer = none;
  if (!onBoard || state.line || await choose()) {
    const baud = Number($('baud').value), wiring = $('wiring').value;
    const fresh = [...($('fresh').checked ? ['--fresh'] : []), ...(state.wait ? ['--wait', String(state.wait)] : [])];
    const all = onBoard ? [words[0], '--table', $('kind').value ? '/chip.toml' : '/chips.toml', '--device', DEVICE, '--baud', String(baud), ...fresh, ...words.slice(1)] : words;
    // what is sent from here on counts: the board isn't fresh any more
    if (onBoard) $('fresh').checked = false;
    const told = ask('run', { words: all, line: onBoard ? { ...state.line, baud, wiring, stopAt, plan: state.plan } : undefined });
    if (!isQuiet) {
      say('step', 'Connecting');
      $('bar').removeAttribute('value');
      $('doing').hidden = false;
      $('doing').scrollIntoView({ block: 'nearest' });
      $('told').hidden = true;
      $('said').append(`> stmflash ${all.join(' ')}\n`);
    }
    answer = await told;
  } else answer = { ...none, err: 'stmflash: no port was chosen\n' };
  state.busy = false;
  $('doing').hidden = true;
  shows();
  return { ...none, ...answer };
}

/** Why a run ended, in the program's words, and what Web Serial said.
 * @param {any} it */
export function whyNot(it) {
  const lines = `${it.err}`.split('\n').filter((line) => line.startsWith('stmflash: ') || line.startsWith('hint: '));
  return [...(it.error ? [it.error] : []), ...lines.map((line) => MEANT.reduce((it, [from, to]) => it.replace(from, to), withName(line.replace(/^stmflash: /, '')))), ...(ENDED[it.ended] ? [ENDED[it.ended]] : [])];
}

/** The board that was chosen by its journal, or named; '' where any may answer that tells which it is. */
export const board = () => ($('board').value === NEW ? $('name').value : $('board').value);
export const named = () => (board() ? ['--journal', `${FOLDER}/${board()}${ENDING}`] : ['--journals', FOLDER]);

/** Asks the board what it is, and shows that: the call, and what was told by its names where the board answered. */
export async function askBoard(/** @type {string[]} */ more = []) {
  const it = await run(['info', ...named(), ...more], { onBoard: true });
  /** @type {Record<string, string>} */
  const told = Object.fromEntries(it.out.trim().split('\n').map((line) => line.split(/ (.*)/s)));
  const lines = withName(it.out.trim()).split('\n').filter((line) => !line.match(/^(base|erased?|codes) /)).map((line) => line.split(/ (.*)/s));
  $('chip').hidden = Boolean(it.status);
  $('chip').replaceChildren(...lines.flatMap(([name, value]) => [element('dt', name), element('dd', value ?? '')]));
  return { it, told: it.status ? undefined : told };
}
