// How a board that is wired to DTR and RTS is reset into its bootloader, and back into its program.
//
// The names are those of stmflash-line, and the steps too: at an adapter's pin a signal that is raised is low.
// @ts-check
/** @typedef {{ signals?: Record<string, boolean>, wait?: number }} Step */

const SIGNALS = { rts: 'requestToSend', dtr: 'dataTerminalReady' }, DELAY = 100;
const RESETS = ['dtr-reset', 'inverted-dtr-reset', 'rts-reset', 'inverted-rts-reset'];

/** The names of all wirings: a reset, and BOOT0 at the other signal or by hand. */
export const WIRINGS = RESETS.flatMap((reset) => {
  const other = reset.includes('dtr') ? 'rts' : 'dtr';
  return [`${reset},${other}-boot0`, `${reset},inverted-${other}-boot0`, reset];
});

/** The steps into the bootloader, and those out of it.
 * @param {string} wiring */
export function stepsOf(wiring) {
  /** @type {Record<string, { signal: string, isInverted: boolean }>} */
  const pins = {};
  for (const part of wiring.split(',')) {
    const [, inverted, signal, pin] = /** @type {string[]} */ (/^(inverted-)?(rts|dtr)-(reset|boot0)$/.exec(part));
    pins[pin] = { signal: SIGNALS[/** @type {'rts' | 'dtr'} */ (signal)], isInverted: Boolean(inverted) };
  }
  const at = (/** @type {string} */ pin, /** @type {boolean} */ isHigh) => ({ signals: { [pins[pin].signal]: isHigh === pins[pin].isInverted } });
  const reset = [at('reset', false), { wait: DELAY }, at('reset', true)], settled = [{ wait: DELAY }, { wait: DELAY }];
  if (!pins.boot0) return { entry: [...reset, ...settled], leave: [] };
  return { entry: [at('boot0', true), ...reset, ...settled], leave: [at('boot0', false), ...reset] };
}
