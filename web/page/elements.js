// What the page is made of, what it tells, and what it asks.
// @ts-check
export const $ = (/** @type {string} */ id) => /** @type {any} */ (document.getElementById(id));

/** @param {string} id @param {string} text */
export function say(id, text) { $(id).textContent = text; }

/** @param {string} kind @param {...(string | Node)} content */
export function element(kind, ...content) {
  const it = document.createElement(kind);
  it.append(...content);
  return it;
}

/** @param {string} text @param {() => void} act @param {string} [about] */
export function button(text, act, about) {
  const it = /** @type {HTMLButtonElement} */ (element('button', text));
  if (about) it.setAttribute('aria-label', `${text}: ${about}`);
  it.onclick = act;
  return it;
}

/** @param {string} value @param {string} text */
export const option = (value, text) => Object.assign(element('option', text), { value });

/** What came of it, for whoever reads or hears the page.
 * @param {'good' | 'bad'} kind @param {string[]} lines @param {HTMLElement[]} [more] */
export function tell(kind, lines, more = []) {
  $('told').className = kind;
  $('told').replaceChildren(...lines.map((text, i) => element('p', (i ? '' : { good: 'Done: ', bad: 'Not done: ' }[kind]) + text)), ...more);
  $('told').hidden = false;
  $('told').scrollIntoView({ block: 'nearest' });
}

/** Asks before what can't be undone, or shows what will be.
 * @param {string} head @param {string[]} lines @param {string} says @param {string} yes */
export function isSure(head, lines, says, yes) {
  say('sure-head', head);
  $('sure-lines').replaceChildren(...lines.map((it) => element('li', it)));
  say('sure-says', says);
  say('sure-yes', yes);
  $('sure').showModal();
  return new Promise((resolve) => {
    $('sure').onsubmit = (/** @type {any} */ it) => resolve(it.submitter.value === 'yes');
    // it comes with a frame: that of the question before may be this late
    $('sure').onclose = () => { if (!$('sure').open) resolve(false); };
  });
}

/** What is wrong in a field, which the browser shows then; '' where nothing is.
 * @param {string} id */
export const wrong = (id) => ($(id).reportValidity() ? '' : $(id).title);

/** @param {string} name @param {Uint8Array} bytes */
export function save(name, bytes) {
  const link = document.createElement('a');
  link.href = URL.createObjectURL(new Blob([/** @type {any} */ (bytes)]));
  link.download = name;
  link.click();
  setTimeout(() => URL.revokeObjectURL(link.href), 60000);
}
