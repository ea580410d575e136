// What tools/try-atlas asks of the page in a browser: it puts `trial` into the window.

(() => {
  /** @param {string} name */
  const one = name => /** @type {HTMLElement} */ (document.querySelector(name));
  /**
   * Does something, and waits for the page where that changes the address.
   * @param {() => void} act
   */
  const moved = async act => {
    const before = location.hash, changed = new Promise(done => window.addEventListener('hashchange', done, { once: true }));
    act();
    if (location.hash !== before) await changed;
    await new Promise(done => setTimeout(done));
  };
  const seen = () => ({
    title: document.title, head: one('main h2').textContent, one: one('main').className === 'pair', said: one('main').textContent,
    links: Array.from(document.querySelectorAll('main .class a'), it => it.lastChild ? it.lastChild.textContent : ''),
  });
  /** @param {string} hash */
  const shown = async hash => {
    await moved(() => { location.hash = hash; });
    return seen();
  };
  /** @param {string} text */
  const typed = async text => {
    await shown('about');
    const input = /** @type {HTMLInputElement} */ (one('#asked'));
    input.value = text;
    input.dispatchEvent(new Event('input', { bubbles: true }));
    await moved(() => input.dispatchEvent(new KeyboardEvent('keydown', { key: 'Enter', bubbles: true })));
    return seen();
  };
  /**
   * What is seen of each text, typed and as an address.
   * @param {string[]} texts
   */
  const names = async texts => {
    const found = [];
    for (const text of texts) found.push([await typed(text), await shown(encodeURIComponent(text.trim()))]);
    return found;
  };
  /** When the page is drawn, with what comes behind the first view of a small screen. */
  const settled = () => new Promise(done => requestAnimationFrame(() => setTimeout(() => setTimeout(done, 20))));
  window.trial = { seen, shown, typed, names, settled };
})();

// How what is seen looks.
(() => {
  /** @param {string} colour */
  const light = colour => {
    const parts = (colour.match(/[\d.]+/g) || []).map(it => Number(it) / 255);
    const [red, green, blue] = parts.map(it => it <= 0.03928 ? it / 12.92 : ((it + 0.055) / 1.055) ** 2.4);
    return 0.2126 * red + 0.7152 * green + 0.0722 * blue;
  };
  /**
   * @param {Element | null} it
   * @returns {string}
   */
  const ground = it => {
    const colour = it ? getComputedStyle(it).backgroundColor : 'rgb(255, 255, 255)';
    return it && /^rgba\(.*, 0\)$|transparent/.test(colour) ? ground(it.parentElement) : colour;
  };
  /** @param {...string} colours two of them */
  const ratio = (...colours) => {
    const both = colours.map(light);
    return (Math.max(...both) + 0.05) / (Math.min(...both) + 0.05);
  };
  /** @param {Element} it */
  const contrast = it => ratio(getComputedStyle(it).color, ground(it));
  /**
   * Letters of a picture that are too pale on what is behind them.
   * @param {string} letters
   * @param {string} behind
   */
  const pale = (letters, behind) => Array.from(document.querySelectorAll(letters)).filter((it, at) =>
    ratio(getComputedStyle(it).fill, getComputedStyle(document.querySelectorAll(behind)[at]).fill) < 4.5).map(it => it.textContent);
  const poor = () => Array.from(document.querySelectorAll('body *'))
    .filter(it => Array.from(it.childNodes).some(node => node.nodeType === 3 && (node.textContent || '').trim()))
    .filter(it => it.getClientRects().length && !it.closest('svg, script, style, noscript, .hidden, .skip'))
    .filter(it => contrast(it) < 4.5).map(it => `${it.className} ${(it.textContent || '').slice(0, 30)} ${contrast(it)}`);
  const small = () => Array.from(document.querySelectorAll('.cell, .pick, button'), it => it.getBoundingClientRect())
    .filter(it => it.width && (it.width < 24 || it.height < 24)).map(it => `${it.width} x ${it.height}`);
  /** What lies below the screen is drawn, too, and so is measured. */
  const whole = () => document.querySelectorAll('section').forEach(it => it.style.setProperty('content-visibility', 'visible'));
  const SEEN = '#main *, #key *, #places *, #found *, #said, #name, #take-class *, #class-known *';
  /** Words of English in what is seen of the classes, but for what is marked as English. */
  const english = () => Array.from(document.querySelectorAll(SEEN))
    .flatMap(it => Array.from(it.childNodes).filter(node => node.nodeType === 3).map(node => ({ it, text: node.textContent || '' })))
    .filter(({ it, text }) => /\b(the|of|is|are|with|that|this|to|and|which|from|by|no|here|all|any)\b/.test(text) && !it.closest('[lang=en], .name'))
    .map(({ text }) => text);
  Object.assign(window.trial, { poor, pale, small, whole, english });
})();

// What it saves, when it is drawn, and where its pictures stand.
(() => {
  /** @param {string} name */
  const one = name => /** @type {HTMLElement} */ (document.querySelector(name));
  /** @param {string} name */
  const file = name => {
    const button = document.querySelector(`[data-file="${name}"]`);
    if (button instanceof HTMLElement) button.click();
    const area = document.querySelector('textarea');
    return area ? area.value : '';
  };
  /** Saves the file that is shown. */
  const save = () => {
    const link = document.querySelector('a[download]');
    if (link instanceof HTMLElement) link.click();
  };
  /** When the greatest part of the view was drawn, in milliseconds since the page was asked for; -1 where a browser does not say. */
  const drawn = () => new Promise(done => {
    const kind = 'largest-contentful-paint', inside = (/** @type {any} */ { element }) => element && one('main').contains(element);
    const watch = new PerformanceObserver(list => list.getEntries().filter(inside).forEach(it => done(it.startTime)));
    if (PerformanceObserver.supportedEntryTypes.includes(kind)) watch.observe({ type: kind, buffered: true });
    setTimeout(() => done(-1), 20000);
  });
  /** Whether the class around which the picture is stands in sight once one goes there. */
  const centred = async () => {
    const here = document.querySelector('.picture .here'), frame = document.querySelector('.scroll');
    if (!here || !frame) return false;
    frame.scrollIntoView();
    await new Promise(done => setTimeout(done, 300));
    const [inner, outer] = [here.getBoundingClientRect(), frame.getBoundingClientRect()];
    return inner.left >= outer.left - 1 && inner.right <= outer.right + 1;
  };
  Object.assign(window.trial, { file, save, drawn, centred });
})();
