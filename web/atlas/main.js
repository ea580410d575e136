// The page of all classes.
import { Atlas } from '../classes.js';
import { byId, element, fill } from '../elements.js';
import { firstLanguage } from '../words.js';
import { Shown } from './shown.js';

/** @typedef {import('../words.js').Language} Language */

const part = (/** @type {string} */ id) => byId(id, HTMLElement);
const frame = { main: part('main'), input: byId('asked', HTMLInputElement), found: part('found'), places: part('places'), key: part('key'),
  said: part('said') };
const shown = new Shown(new Atlas(JSON.parse(byId('data', HTMLScriptElement).textContent || '')), frame, '', firstLanguage());

/** What stands around the atlas. */
function around() {
  const { words } = shown.view;
  document.documentElement.lang = words.language;
  fill(part('name'), words.say('title'));
  fill(part('skip'), words.say('skipToClass'));
  part('language').setAttribute('aria-label', words.say('language'));
}

/** @param {Language} language */
function speak(language) {
  shown.speak(language);
  around();
}

const choice = byId('language', HTMLSelectElement);
choice.append(element('option', { value: 'en' }, 'English'), element('option', { value: 'de' }, 'Deutsch'));
choice.value = shown.view.words.language;
choice.addEventListener('change', () => speak(choice.value === 'de' ? 'de' : 'en'));
shown.show();
around();
