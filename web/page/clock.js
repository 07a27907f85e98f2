// The clocks: the time of day, and one that never goes back.
// @ts-check
/** @param {import('./memory.js').Memory} memory */
export function clockCalls(memory, source = globalThis.performance) {
  return {
    clock_gettime: (/** @type {number} */ which, /** @type {bigint} */ out) => {
      const millis = source.now() + (which === 0 ? source.timeOrigin : 0), seconds = Math.floor(millis / 1000);
      memory.view().setBigInt64(Number(out), BigInt(seconds), true);
      memory.view().setBigInt64(Number(out) + 8, BigInt(Math.floor((millis - seconds * 1000) * 1e6)), true);
      return 0;
    },
  };
}
