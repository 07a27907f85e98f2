// A short trial of a board, by the program's own words: a write of its last pages and the undo, whole and stopped half way.
//
// Each call ends at the first reply that no board of the model could give (--watch), and all of the flash is compared.
// @ts-check
import { ENDING, FOLDER, ask, askBoard, board, named, run, state } from './calls.js';
import { lastOf, pagesOf } from './chips.js';
import { ranges, where } from './difference.js';
import { $, isSure, save, tell } from './elements.js';
import { end, journals } from './journals.js';

// so many bytes are written at the least: half of what a write sends then lies in its data
const LEAST = 1024;

/** Another byte at each place; none begins a contact, and no two are a command.
 * @param {Uint8Array} bytes */
const othersThan = (bytes) => bytes.map((it) => ~it & 0x3f);

export async function tryBoard() {
  const { it, told } = await askBoard(['--watch']), entry = state.chips.find(({ id }) => id === told?.id)?.entry;
  if (!told || !entry) return end(it, []);
  const size = Number(told.size), pages = pagesOf(entry, size), first = lastOf(pages, LEAST), base = pages[0].at, low = pages[first].at, name = board() || told.board;
  const worked = `pages ${first}-${pages.length - 1}`.replace(/s (\d+)-\1$/, ' $1'), minutes = Math.ceil((3 * size + 8 * (size + base - low)) * 12 / Number($('baud').value) / 60);
  if (!(await isSure('Try this board?', ['All of the flash is read, and saved to a file.', `Other bytes are written to ${worked}, the last of the flash, and undone. The same write is then stopped half way, and undone.`,
    'All of the flash is read again, and compared.'], `That takes some ${minutes} min. A bootloader that does otherwise than ST says may lose bytes: the file has them.`, 'Try it'))) return undefined;
  const of = ['--watch', '--progress', ...(name ? ['--journal', `${FOLDER}/${name}${ENDING}`] : named())];
  /** @param {string[]} words @param {number} [stopAt] */
  const call = async ([act, ...words], stopAt) => {
    /** @type {any} */
    const it = await run([act, ...of, ...words], { onBoard: true, stopAt });
    if (it.error || (stopAt ? it.ended !== 'stopped' : it.status)) throw it;
    return it;
  };
  /** All of the flash; where other bytes are wanted it is a fault.
   * @param {Uint8Array} [wanted] @returns {Promise<Uint8Array>} */
  const read = async (wanted) => {
    await call(['read', '/there']);
    const { bytes } = await ask('get', { path: '/there' }), { count, numbers } = where(pages, base, Int16Array.from(wanted ?? []), (byte, i) => byte !== bytes[i]);
    if (count) throw { err: `stmflash: ${count} bytes are others than they should be, in pages ${ranges(numbers)}; the file that was saved has what the flash held\n` };
    return bytes;
  };
  try {
    const before = await read(), others = othersThan(before.subarray(low - base)), after = before.slice();
    after.set(others, low - base);
    save(`${name || told.id}.bin`, before);
    await ask('put', { path: '/trial', bytes: others });
    const write = ['write', '-v', '-f', '-S', `0x${low.toString(16)}`, '/trial'], { sent } = await call(write);
    await read(after);
    await call(['undo', '-v', '1']);
    await call(write, sent >> 1);
    await call(['undo', '-v', '1']);
    await read(before);
    await journals();
    tell('good', ['the board did as its model says in all that was tried, and its flash is as it was.',
      `Tried: three reads of all ${before.length} bytes; a write to ${worked}, which changed no other byte, and its undo; the undo of a write that was stopped behind ${sent >> 1} of its ${sent} bytes.`]);
    return it;
  } catch (thrown) {
    const why = /** @type {any} */ (thrown);
    return end({ ...it, error: why.message, ...why, status: 1 }, []);
  }
}
