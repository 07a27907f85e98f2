// One run of the program: its module, with all that it asks for. Nothing of this was proved.
// @ts-check
import { clockCalls } from './clock.js';
import { Files } from './files.js';
import { lineCalls } from './line.js';
import { Memory } from './memory.js';
import { numberOf } from './faults.js';
import { wordCalls } from './words.js';

// those that answer a number of 64 bits
const WIDE = ['read', 'write', 'lseek', 'getdents64', 'readlink', 'send', 'recv', 'realpath'];
// those that wait, by JSPI. A program without a line never calls the first two
const WAITS = ['connect', 'recv', 'close'];

/** @typedef {{ words: string[], variables?: Record<string, string>, store: import('./files.js').Store, line?: import('./line.js').Line,
 *   input?: Uint8Array, say: (stream: number, bytes: Uint8Array) => void }} Given */

/** @param {Given} given */
export function callsOf({ words, variables = {}, store, line, input, say }) {
  const memory = new Memory(), files = new Files(memory, store, say, input, line?.name), { calls, last } = wordCalls(memory, words, variables);
  /** A call's answer; or -1, and the number of its fault.
   * @param {string} name @param {(...given: any[]) => any} call */
  const guarded = (name, call) => (/** @type {any[]} */ ...given) => {
    const failed = (/** @type {unknown} */ thrown) => {
      last.fault = numberOf(thrown);
      // realpath answers no address
      return WIDE.includes(name) ? (name === 'realpath' ? 0n : -1n) : -1;
    };
    try {
      const answer = call(...given);
      return answer instanceof Promise ? answer.catch(failed) : answer;
    } catch (thrown) {
      return failed(thrown);
    }
  };
  const system = { ...clockCalls(memory), ...files.calls(), ...lineCalls(memory, files, line) };
  return { memory, env: { ...calls, ...Object.fromEntries(Object.entries(system).map(([name, call]) => [name, guarded(name, call)])) } };
}

/** Runs the program, and answers its exit status. Without JSPI no call may wait.
 * @param {WebAssembly.Module} module @param {Given} given */
export async function run(module, given) {
  const { Suspending, promising } = /** @type {any} */ (WebAssembly);
  /** @type {{ memory: Memory, env: Record<string, any> }} */
  const { memory, env } = callsOf(given);
  if (Suspending) for (const name of WAITS) env[name] = new Suspending(env[name]);
  const { exports } = /** @type {WebAssembly.Instance} */ (/** @type {unknown} */ (await WebAssembly.instantiate(module, { env })));
  memory.of = /** @type {WebAssembly.Memory} */ (exports.memory);
  const main = /** @type {any} */ (exports.main);
  // `main` has C's two parameters
  return Suspending ? promising(main)(0, 0n) : main(0, 0n);
}
