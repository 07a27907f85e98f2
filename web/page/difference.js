// What a write would change: the pages that an image touches, and those in which the board holds other bytes.
// @ts-check
import { spanOf } from './image.js';

/** @typedef {{ at: number, bytes: Uint8Array }} Part */
/** @typedef {import('./chips.js').Page} Page */

// no flash of these chips is larger
const MOST = 2 ** 22;

/** The bytes of an image from its first to its last, -1 where it has none; nothing where they lie too far apart for any flash.
 * @param {Part[]} parts */
export function laidOut(parts) {
  const { low, high } = spanOf(parts);
  if (!(high - low <= MOST) || high <= low) return undefined;
  const bytes = new Int16Array(high - low).fill(-1);
  for (const it of parts) bytes.set(it.bytes, it.at - low);
  return { low, bytes };
}

/** How many bytes there are on which something holds, and the numbers of their pages.
 * @param {Page[]} pages @param {number} low @param {Int16Array} bytes @param {(byte: number, i: number) => boolean} holds */
export function where(pages, low, bytes, holds) {
  let count = 0;
  const numbers = pages.flatMap(({ at, size }, number) => {
    const before = count;
    for (let i = Math.max(at - low, 0); i < Math.min(at + size - low, bytes.length); i++) count += Number(bytes[i] >= 0 && holds(bytes[i], i));
    return count > before ? [number] : [];
  });
  return { count, numbers };
}

/** Numbers as a journal has them: 0-4 7.
 * @param {number[]} numbers */
export const ranges = (numbers) => numbers.filter((it, i) => numbers[i - 1] !== it - 1).map((first) => {
  let last = first;
  while (numbers.includes(last + 1)) last++;
  return last > first ? `${first}-${last}` : `${first}`;
}).join(' ');
