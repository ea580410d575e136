// Buttons and fields with their labels.
import { element } from '../elements.js';

/**
 * @param {string} text
 * @param {() => void} act
 * @param {Object<string, string | null>} [more]
 */
export function button(text, act, more = {}) {
  const made = element('button', { type: 'button', ...more }, text);
  made.addEventListener('click', act);
  return made;
}

/**
 * A control with its label above it.
 * @param {string} label
 * @param {HTMLElement} control with an id
 * @param {...(Node | string)} below
 */
export function field(label, control, ...below) {
  return element('p', { class: 'field' }, element('label', { for: control.id }, label), control, ...below);
}

/**
 * A choice among words.
 * @param {string} id
 * @param {[string, string][]} options values and what is said of them
 * @param {string} value
 * @param {(value: string) => void} chosen
 */
export function choice(id, options, value, chosen) {
  const made = element('select', { id }, ...options.map(([it, said]) => element('option', { value: it }, said)));
  made.value = value;
  made.addEventListener('change', () => chosen(made.value));
  return made;
}

/**
 * A line to type in.
 * @param {string} id
 * @param {string} value
 * @param {(value: string) => void} typed
 * @param {Object<string, string | null>} [more]
 */
export function line(id, value, typed, more = {}) {
  const made = element('input', { id, spellcheck: 'false', autocomplete: 'off', autocapitalize: 'off', ...more });
  put(made, value);
  made.addEventListener('change', () => typed(made.value));
  return made;
}

/**
 * A part of the page with a heading.
 * @param {string} id
 * @param {string} title
 * @param {...(Node | string)} children
 */
export function part(id, title, ...children) {
  return element('section', { id, 'aria-labelledby': `${id}-head` }, element('h2', { id: `${id}-head` }, title), ...children);
}

/**
 * Something to unfold.
 * @param {string} title
 * @param {...(Node | string)} children
 */
export function folded(title, ...children) { return element('details', { class: 'folded' }, element('summary', {}, title), ...children); }

/**
 * Puts children in the place of others. One that is as it was stays, so that a click on it that leaves a field does not get lost.
 * @param {HTMLElement} parent
 * @param {...HTMLElement} children
 */
export function refill(parent, ...children) {
  const before = Array.from(parent.children);
  if (before.length !== children.length) parent.replaceChildren(...children);
  else children.forEach((it, at) => { if (!before[at].isEqualNode(it)) before[at].replaceWith(it); });
}

/**
 * Something to unfold that takes long to make: it is made when it is opened.
 * @param {string} title
 * @param {boolean} open
 * @param {() => Node} make
 */
export function unfolded(title, open, make) {
  const made = folded(title), fill = () => { if (made.open && made.childElementCount === 1) made.append(make()); };
  made.open = open;
  fill();
  made.addEventListener('toggle', fill);
  return made;
}

/**
 * Copies a text; whether the browser lets the page.
 * @param {string} text
 */
export async function copied(text) {
  try {
    await navigator.clipboard.writeText(text);
    return true;
  } catch (fault) {
    return false;
  }
}

/**
 * Puts a value into a field, where it is another one than was put there last: what is just being typed stays.
 * @param {HTMLInputElement} field
 * @param {string} value
 */
export function put(field, value) {
  if (field.defaultValue === value) return;
  field.defaultValue = value;
  field.value = value;
}

/**
 * Puts values into fields that stay: one to which a click or the tabulator goes is not built anew under it.
 * @param {HTMLElement} root
 * @param {Object<string, string>} values by the ids of the fields
 */
export function putValues(root, values) {
  for (const [id, value] of Object.entries(values)) {
    const found = root.querySelector(`#${CSS.escape(id)}`);
    if (found instanceof HTMLInputElement) put(found, value);
    else if (found instanceof HTMLSelectElement) found.value = value;
  }
}

/**
 * Marks fields with a fault, and says it behind them; what was marked before is not any more.
 * @param {HTMLElement} root
 * @param {{id: string, text: string}[]} faults by the ids of the fields
 */
export function markFaults(root, faults) {
  root.querySelectorAll('.fault').forEach(it => it.remove());
  root.querySelectorAll('[aria-invalid]').forEach(it => it.removeAttribute('aria-invalid'));
  for (const { id, text } of faults) {
    const control = root.querySelector(`#${CSS.escape(id)}`);
    if (!control) continue;
    control.setAttribute('aria-invalid', 'true');
    control.after(element('span', { class: 'fault' }, text));
  }
}

/**
 * Gives a file to the person.
 * @param {string} name
 * @param {Blob} content
 */
export function give(name, content) {
  const address = URL.createObjectURL(content);
  element('a', { href: address, download: name }).click();
  setTimeout(() => URL.revokeObjectURL(address), 2000);
}
