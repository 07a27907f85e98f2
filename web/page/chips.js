// The chips of the table by their names: the one that is wanted, and the one that answered; and the pages of one.
// @ts-check
/** @typedef {{ at: number, size: number }} Page */

/** @param {string} text */
export const chipsOf = (text) => text.split(/^(?=\[\[chip\]\])/m).slice(1).map((entry) => {
  const [, id] = /** @type {string[]} */ (/^id = 0x(\w+)/m.exec(entry)), [, name] = /^name = "(.*)"/m.exec(entry) ?? [];
  return { entry, id: id.toUpperCase().padStart(4, '0'), name: name ?? 'a chip without a name' };
});

/** The pages of a chip, those that lie within so many bytes.
 * @param {string} entry @returns {Page[]} */
export function pagesOf(entry, most = Infinity) {
  const [, base] = /** @type {string[]} */ (/^base = 0x(\w+)/m.exec(entry)), [, runs] = /** @type {string[]} */ (/^pages = (.*)/m.exec(entry));
  let at = parseInt(base, 16);
  const ends = at + most, pages = [];
  for (const [count, size] of JSON.parse(runs)) for (let i = 0; i < count; i++, at += size) pages.push({ at, size });
  return pages.filter((it) => it.at + it.size <= ends);
}

/** The number of the first of the last pages that have so many bytes together.
 * @param {Page[]} pages @param {number} least */
export function lastOf(pages, least) {
  const { at, size } = pages[pages.length - 1];
  return pages.reduce((found, it, i) => (at + size - it.at >= least ? i : found), 0);
}
