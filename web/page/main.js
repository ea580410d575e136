// The page for planners and students: a problem, its plan, all classes, lessons.
import { Shown } from '../atlas/shown.js';
import { Atlas } from '../classes.js';
import { byId, element, fill } from '../elements.js';
import { unpacked as unpackedBytes } from '../engine/browser.js';
import { prepare, run, runBytes } from '../engine.js';
import { LESSONS } from '../lessons/lessons.js';
import { NAMES, partsOf, rankOf } from '../names.js';
import { App } from './app.js';
import { button, choice } from './controls.js';
import { fixedMachines } from './columns.js';
import { InputView, stateOfText } from './input-view.js';
import { LearnView } from './learn-view.js';
import { BesideView } from './beside-view.js';
import { PlanView } from './plan-view.js';
import { ProblemView } from './problem-view.js';
import { Shelf } from './shop-words.js';
import { stateIn, unpacked } from './state.js';
import { StepsView } from './steps-view.js';
import { WhatIfView } from './what-if-view.js';
import { WhyView } from './why-view.js';
import { firstLanguage, Words } from '../words.js';

/** @typedef {import('../words.js').Language} Language */

const PARTS = ['plan', 'classes', 'learn'];
const json = (/** @type {string} */ id) => JSON.parse(byId(id, HTMLScriptElement).textContent || '');
const table = json('words'), examples = json('examples'), said = byId('said', HTMLElement);

/** @param {string} text */
function say(text) { said.textContent = text; }

const first = stateOfText(examples.texts['late-orders.txt']);
if (!first) throw new Error('there is no first example');
const shelf = new Shelf(() => globalThis.localStorage), { shop } = shelf.kept;
const app = new App({ ...first, problem: { ...first.problem, ...shop } }, new Words(table, firstLanguage()));
const input = new InputView(app, examples, say, shelf), problem = new ProblemView(app), plan = new PlanView(app, say);
const why = new WhyView(app, rows => {
  plan.chart.marked = rows;
  plan.chart.render();
});
const steps = new StepsView(app, 'plan-steps'), beside = new BesideView(app, plan);
const whatIf = new WhatIfView(app, plan.searching, beside, key => input.table.title(key), say);
plan.keep = () => beside.keep();
input.judge = (/** @type {string} */ text) => { why.take(text); };
plan.chart.span = () => beside.span();
const learn = new LearnView(byId('part-learn', HTMLElement), () => app.words, say, text => {
  const state = stateOfText(text);
  if (state) app.store.change(state);
  location.hash = '#plan';
  app.solve(true);
});
/** @type {Shown | null} */
let shown = null;

// The frame

/** Which part the address names. */
function partHere() { return PARTS.find(it => new RegExp(`^#${it}(/|$)`).test(location.hash)) || 'plan'; }

/**
 * A switch of the page's look, which stands at the root.
 * @param {string} name
 * @param {string} on
 */
function toggle(name, on) {
  const { dataset } = document.documentElement;
  if (dataset[name] === on) delete dataset[name];
  else dataset[name] = on;
  frame();
  plan.render();
  beside.render();
}

/** The switches at the top. */
function switches() {
  const { dataset } = document.documentElement, night = matchMedia('(prefers-color-scheme: dark)').matches, other = night ? 'light' : 'dark';
  const languages = /** @type {[string, string][]} */ ([['en', 'English'], ['de', 'Deutsch']]);
  const language = choice('language', languages, app.words.language, it => speak(it === 'de' ? 'de' : 'en'));
  language.setAttribute('aria-label', app.words.say('language'));
  return [language, button(app.words.say(other), () => toggle('theme', other), { id: 'theme', 'aria-pressed': String(dataset.theme === other) }),
    button(app.words.say('big'), () => toggle('size', 'big'),
      { id: 'big', title: app.words.say('bigSays'), 'aria-pressed': String(dataset.size === 'big') })];
}

/** The parts of the page, and the one that is seen. */
function frame() {
  const here = partHere(), focus = document.activeElement instanceof HTMLElement ? document.activeElement.id : '';
  document.documentElement.lang = app.words.language;
  const parts = byId('parts', HTMLElement);
  fill(parts, ...PARTS.map(it => element('a', { href: `#${it}`, 'aria-current': it === here ? 'page' : null }, app.words.say(it))));
  parts.setAttribute('aria-label', app.words.say('parts'));
  fill(byId('switches', HTMLElement), ...switches());
  byId('skip', HTMLElement).textContent = app.words.say('skip');
  for (const it of PARTS) byId(`part-${it}`, HTMLElement).hidden = it !== here;
  if (here !== 'classes') document.title = `msp \u2013 ${app.words.say('title')}`;
  const again = focus && document.getElementById(focus);
  if (again && again !== document.activeElement) again.focus();
}

/** @param {Language} language */
function speak(language) {
  app.words = new Words(table, language);
  frame();
  app.render();
  if (shown) shown.speak(language);
  if (partHere() === 'classes') classes();
  if (partHere() === 'learn') learn.show(location.hash.slice('#learn/'.length));
}

// The classes

/** The atlas, when it is first looked at. */
async function classes() {
  if (!app.atlas) return;
  if (!shown) {
    const at = (/** @type {string} */ id) => byId(id, HTMLElement);
    const frame = { main: at('main'), input: byId('asked', HTMLInputElement), found: at('found'), places: at('places'), key: at('key'), said };
    shown = new Shown(app.atlas, frame, 'classes/', app.words.language);
    shown.view.current = rankOf(app.name);
  }
  if (location.hash === '#classes') history.replaceState(null, '', `#classes/${encodeURIComponent(app.name)}`);
  shown.show();
  const { current } = shown.view;
  fill(byId('take-class', HTMLElement), button(app.words.say('takeClass', NAMES[current]), () => takeClass(current), { class: 'act' }));
}

/** @param {number} rank */
function takeClass(rank) {
  const parts = { ...partsOf(rank) };
  app.change({ parts, machines: String(fixedMachines(parts) || app.problem.machines || 2) });
  location.hash = '#plan';
}

/** What the table of classes knows, unpacked in the background. */
async function unpackAtlas() {
  const bytes = await unpackedBytes(byId('atlas-data', HTMLScriptElement).textContent || '');
  app.atlas = new Atlas(JSON.parse(new TextDecoder().decode(bytes)));
  app.render();
  app.judge();
  route();
}

// Links

/** What a link brings: a state, or an instance as a text. */
async function stateOfLink() {
  const [, kind, word] = location.hash.match(/^#(state|text)=(.*)$/s) || [];
  if (!kind) return null;
  if (kind === 'state') return stateIn(await unpacked(word));
  try {
    return stateOfText(decodeURIComponent(word));
  } catch (fault) {
    return null;
  }
}

/** Shows what the address names. */
async function route() {
  const state = await stateOfLink();
  if (state) {
    app.store.change(state);
    if (!state.plan) app.solve(true);
  }
  frame();
  if (partHere() === 'classes') classes();
  if (partHere() === 'learn') learn.show(location.hash.slice('#learn/'.length));
}

/**
 * Whether a field is no part of the state, so that undo belongs to what is typed in it.
 * @param {EventTarget | null} target
 */
function isOwn(target) {
  return target instanceof HTMLTextAreaElement || target instanceof HTMLInputElement && target.type === 'text'
    && target.closest('#draw, #answer, #why') !== null;
}

/** What is done by hand over the whole page. */
function listen() {
  window.addEventListener('hashchange', route);
  window.addEventListener('resize', () => {
    plan.chart.render();
    beside.render();
  });
  document.addEventListener('keydown', event => {
    if (!(event.ctrlKey || event.metaKey) || partHere() !== 'plan') return;
    const key = event.key.toLowerCase();
    if (key === 'enter') app.solve();
    else if (!['z', 'y'].includes(key) || isOwn(event.target)) return;
    else input.history.go(key === 'y' || event.shiftKey ? 'redo' : 'undo');
    event.preventDefault();
  });
  window.addEventListener('dragover', event => event.preventDefault());
  window.addEventListener('drop', event => {
    if (!event.dataTransfer || !event.dataTransfer.files[0]) return;
    event.preventDefault();
    input.open(event.dataTransfer.files[0]);
  });
}

/** Puts the parts in their places, and takes what the link brings. */
async function begin() {
  fill(byId('part-plan', HTMLElement), element('div', { class: 'given' }, input.tools, problem.root, input.root),
    element('div', { class: 'found' }, plan.root, beside.root, whatIf.root, why.root, steps.root));
  for (const view of [problem, input, beside, plan, whatIf, why, steps]) app.show(() => view.render());
  listen();
  app.render();
  if (shop) input.note(app.words.say('shopBegins', input.shop.said(shop)));
  await route();
  prepare().catch(fault => {
    const isOld = typeof DecompressionStream === 'undefined';
    if (isOld) app.tells('tooOld');
    else app.tells('failed', fault instanceof Error ? fault.message : String(fault));
    app.render();
  });
  if (!app.state.plan && !app.running) app.solve(true);
  unpackAtlas().catch(fault => say(app.words.say('failed', String(fault))));
}

begin();
// (for the console of the browser, and for tests)
Object.assign(globalThis, { msp: { run, runBytes, app, input, plan, why, learn, steps, lessons: LESSONS } });
