// The journals, board by board: what each says, its undo and its end, its download, and one that is taken over.
// @ts-check
import { ENDING, FOLDER, NEW, ask, board, inOneRow, run, shows, state, whyNot, withName } from './calls.js';
import { $, button, element, isSure, option, save, say, tell } from './elements.js';

/** What a journal says, line by line.
 * @param {string} name @returns {Promise<{ lines: string[], isBad: boolean }>} */
export async function says(name) {
  const it = await run(['log', '--json', '--journal', `${FOLDER}/${name}`], { isQuiet: true });
  try {
    const told = JSON.parse(it.out);
    return { lines: (told.lines ?? [told.says]).map(withName), isBad: !told.lines };
  } catch {
    return { lines: whyNot(it), isBad: true };
  }
}

/** @param {string} name @param {boolean} [isSaid] */
export async function undo(name, isSaid = false) {
  const { lines } = isSaid ? { lines: [] } : await says(name), segments = lines.filter((/** @type {string} */ it) => it.startsWith('segment'));
  if (!isSaid && !(await isSure('Undo the newest write or erase?', segments.slice(-1), 'The board gets back what these pages held before.', 'Undo'))) return undefined;
  const it = await run(['undo', '--journal', `${FOLDER}/${name}`, '--progress', '-v', '1'], { onBoard: true });
  return end(it, it.out.trim().split('\n'));
}

/** @param {string} name */
export async function keep(name) {
  if (!(await isSure('Let it stay for good?', (await says(name)).lines, 'The journal is removed. What was written can\'t be undone any more.', 'Remove the journal'))) return undefined;
  return end(await run(['keep', '--journal', `${FOLDER}/${name}`], { isQuiet: true }), ['The journal is removed.']);
}

/** @param {string} name */
async function download(name) {
  const { bytes, error } = await ask('get', { path: `/${FOLDER}/${name}` });
  return error ? tell('bad', [error]) : save(name, bytes);
}

/** Tells what came of a run, and then looks what the journals say now.
 * @param {any} it @param {string[]} done */
export const end = (it, done) => inOneRow(async () => {
  const names = await list(), more = it.error || !state.isKept ? names.map((/** @type {string} */ name) => button(`Download ${name}`, () => download(name))) : [];
  if (it.status === 0 && !it.error) tell('good', done, more);
  else tell('bad', whyNot(it).length ? whyNot(it) : ['The program ended.'], more);
  await journals();
  return it;
});

/** Which journals there are. */
const list = async () => (state.names = (await ask('list')).names.filter((/** @type {string} */ it) => it.endsWith(ENDING)).sort());

export async function journals() {
  const rows = [];
  state.unfinished = [];
  for (const name of await list()) {
    const { lines, isBad } = await says(name), board = name.slice(0, -ENDING.length), isUndone = lines.some((it) => it.startsWith('0 can be'));
    if (lines.some((it) => it.startsWith('unfinished'))) state.unfinished.push(name);
    const undoes = button('Undo the newest', () => undo(name), board), keeps = button('Keep for good', () => keep(name), board);
    if (isUndone || isBad) undoes.dataset.off = '';
    if (isBad || state.unfinished.includes(name)) keeps.dataset.off = '';
    rows.push(element('li', element('strong', board), element('ul', ...lines.filter((it) => !it.startsWith('board ')).map((it) => element('li', it))),
      Object.assign(element('div', undoes, button('Download', () => download(name), board), keeps), { className: 'row' })));
  }
  $('journals').replaceChildren(...(rows.length ? rows : [element('li', 'There is none yet. The first write makes one.')]));
  const boards = state.names.map((/** @type {string} */ it) => it.slice(0, -ENDING.length)), chosen = $('board').value === NEW && !boards.includes(board()) ? NEW : board();
  $('board').replaceChildren(option('', 'whichever answers'), ...boards.map((/** @type {string} */ it) => option(it, it)), option(NEW, 'one that tells no unique id…'));
  $('board').value = chosen === NEW || boards.includes(chosen) ? chosen : '';
  const stopped = state.unfinished[0];
  $('stopped').hidden = !stopped;
  shows();
  if (stopped) say('stopped-says', `A write or erase at board ${stopped.slice(0, -ENDING.length)} was stopped. Connect that board, and undo it: each page gets back what it held.`);
}

/** @param {File | undefined} file */
export async function takeJournal(file) {
  if (!file) return;
  const name = file.name.endsWith(ENDING) ? file.name : `${file.name}${ENDING}`;
  if (state.names.includes(name)) return tell('bad', [`There is a journal ${name} already. Download it, and keep it for good, before another one takes its place.`]);
  const { error } = await ask('put', { path: `/${FOLDER}/${name}`, bytes: new Uint8Array(await file.arrayBuffer()) });
  const { lines, isBad } = error ? { lines: [error], isBad: true } : await says(name);
  if (isBad && !error) await ask('remove', { path: `/${FOLDER}/${name}` });
  await journals();
  tell(isBad ? 'bad' : 'good', isBad ? lines : [`${name} is taken over.`]);
}
