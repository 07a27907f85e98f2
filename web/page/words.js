// The words of a call, its variables, and the number of the last fault.
// @ts-check
import { SAYS } from './faults.js';

/** @param {import('./memory.js').Memory} memory @param {string[]} words @param {Record<string, string>} variables */
export function wordCalls(memory, words, variables) {
  const entries = Object.entries(variables).map(([name, value]) => `${name}=${value}`), last = { fault: 0 };
  const calls = {
    rattle_arg: (/** @type {bigint} */ i, /** @type {bigint} */ at, /** @type {bigint} */ room) => memory.put(words[Number(i)], at, room),
    rattle_env: (/** @type {bigint} */ name, /** @type {bigint} */ at, /** @type {bigint} */ room) => {
      const wanted = memory.text(name);
      return memory.put(Object.hasOwn(variables, wanted) ? variables[wanted] : undefined, at, room);
    },
    rattle_env_at: (/** @type {bigint} */ i, /** @type {bigint} */ at, /** @type {bigint} */ room) => memory.put(entries[Number(i)], at, room),
    rattle_errno: () => last.fault,
    rattle_set_errno: (/** @type {number} */ number) => { last.fault = number; },
    __xpg_strerror_r: (/** @type {number} */ number, /** @type {bigint} */ at, /** @type {bigint} */ room) => {
      memory.put(`${SAYS[number] ?? `Unknown error ${number}`}\0`, at, room);
      return 0;
    },
    // no signal ever comes
    __sysv_signal: () => 0n,
  };
  return { calls, last };
}
