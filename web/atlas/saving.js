// Texts to copy, and to save as a file.
import { element } from '../elements.js';

/** @typedef {import('./parts.js').View} View */

/**
 * A link that saves a text as a file.
 * @param {View} view
 * @param {string} text
 * @param {string} name
 */
export function saveLink({ words }, text, name) {
  return element('a', { class: 'text', download: name, href: URL.createObjectURL(new Blob([text], { type: 'text/plain;charset=utf-8' })) },
    words.say('saveFile', name));
}

/**
 * A text to copy, and to save as a file.
 * @param {View} view
 * @param {string} text
 * @param {string} name
 */
export function fileBox(view, text, name) {
  const area = element('textarea', { readonly: '', rows: '8', 'aria-label': name, spellcheck: 'false' });
  area.value = text;
  return element('div', {}, area, element('p', {}, saveLink(view, text, name),
    ` (${view.words.say('letters', view.words.number(text.length))})`));
}

/**
 * A button that shows a text as a file below it.
 * @param {View} view
 * @param {string} title
 * @param {string} name
 * @param {() => string} make
 * @param {Element} panel
 */
export function saveButton(view, title, name, make, panel) {
  const button = element('button', { type: 'button', class: 'act', 'data-file': name }, title);
  button.addEventListener('click', () => panel.replaceChildren(fileBox(view, make(), name)));
  return button;
}
