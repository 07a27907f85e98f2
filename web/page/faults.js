// Faults of the system that the program is given: Linux's numbers on x86-64, for which it was made, and what each says.
// @ts-check
export const E = { PERM: 1, NOENT: 2, IO: 5, BADF: 9, AGAIN: 11, ACCES: 13, EXIST: 17, NOTDIR: 20, ISDIR: 21, INVAL: 22, NOSPC: 28,
  NOSYS: 38, NOTSOCK: 88, OPNOTSUPP: 95, CONNREFUSED: 111 };

/** @type {Record<number, string>} */
export const SAYS = { [E.PERM]: 'Operation not permitted', [E.NOENT]: 'No such file or directory', [E.IO]: 'Input/output error',
  [E.BADF]: 'Bad file descriptor', [E.AGAIN]: 'Resource temporarily unavailable', [E.ACCES]: 'Permission denied',
  [E.EXIST]: 'File exists', [E.NOTDIR]: 'Not a directory', [E.ISDIR]: 'Is a directory', [E.INVAL]: 'Invalid argument',
  [E.NOSPC]: 'No space left on device', [E.NOSYS]: 'Function not implemented', [E.OPNOTSUPP]: 'Operation not supported',
  [E.CONNREFUSED]: 'Connection refused' };

export class Fault extends Error {
  /** @param {number} number */
  constructor(number) {
    super(SAYS[number]);
    this.number = number;
  }
}

/** The number of whatever was thrown.
 * @param {any} thrown */
export function numberOf(thrown) {
  if (thrown instanceof Fault) return thrown.number;
  return thrown?.name === 'QuotaExceededError' ? E.NOSPC : E.IO;
}
