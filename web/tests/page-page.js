// What tools/try-page asks of the page for planners in a browser: it adds to `trial` in the window.

(() => {
  /** @type {any} */
  const page = /** @type {any} */ (window).msp;
  const at = (/** @type {string} */ id) => /** @type {HTMLInputElement} */ (document.getElementById(id));
  const turn = (/** @type {HTMLElement} */ it) => it.dispatchEvent(new Event('change', { bubbles: true }));
  /** @param {string} it */
  const language = it => {
    at('language').value = it;
    turn(at('language'));
  };
  /** @param {string} text */
  const takeList = text => {
    const area = at('paste');
    area.value = text;
    at('take-list').click();
  };
  /**
   * @param {number} row
   * @param {string} key
   */
  const cell = (row, key) => /** @type {HTMLInputElement} */ (document.querySelector(`td[data-row="${row}"][data-key="${key}"] input`));
  /**
   * @param {number} row
   * @param {string} key
   * @param {string} text
   */
  const typeIn = (row, key, text) => {
    cell(row, key).value = text;
    turn(cell(row, key));
  };
  /**
   * @param {string} id
   * @param {string} text
   */
  const typeInto = (id, text) => {
    at(id).value = text;
    turn(at(id));
  };
  /**
   * Writes into a box, as keys do.
   * @param {string} id
   * @param {string} text
   */
  const write = (id, text) => {
    at(id).value = text;
    at(id).dispatchEvent(new Event('input', { bubbles: true }));
  };
  /** @param {string} text */
  const pasteIn = text => {
    const data = new DataTransfer();
    data.setData('text/plain', text);
    const event = new ClipboardEvent('paste', { bubbles: true, cancelable: true });
    // (firefox makes such an event without data)
    Object.defineProperty(event, 'clipboardData', { value: data });
    cell(page.app.problem.rows[0].id, 'job').dispatchEvent(event);
  };
  /** @param {string} id */
  const open = id => document.querySelectorAll(`#${id} > details`).forEach(it => it.setAttribute('open', ''));
  Object.assign(window.trial, { language, takeList, cell, typeIn, typeInto, write, pasteIn, open });
})();

// Jobs and their order.
(() => {
  /** @type {any} */
  const page = /** @type {any} */ (window).msp;
  const wait = () => new Promise(done => setTimeout(done, 30));
  /**
   * Chooses a job of the picture, and then one that waits for it.
   * @param {number} before
   * @param {number} after
   */
  const join = (before, after) => {
    page.input.arcs.render();
    for (const it of [before, after]) {
      /** @type {Element} */ (document.querySelector(`.arcs [data-place="${it}"]`)).dispatchEvent(new MouseEvent('click', { bubbles: true }));
    }
  };
  /**
   * Goes to an address of the page, and waits until it is shown.
   * @param {string} text
   */
  const hash = async text => {
    location.hash = text;
    await wait();
    await wait();
  };
  /** Waits until no call of the program goes on. */
  const settled = async () => {
    await wait();
    for (let left = 200; left && page.app.running; left--) await wait();
  };
  Object.assign(window.trial, { join, hash, settled });
})();

// Faults and certificates.
(() => {
  /**
   * What is said of a fault in a cell, or at a field of an id; empty where nothing is said.
   * @param {number} row
   * @param {string} key
   */
  const faultAt = (row, key) => {
    const name = row ? `td[data-row="${row}"][data-key="${key}"]` : `.field:has(#${key})`, place = document.querySelector(name);
    const field = place && place.querySelector('[aria-invalid=true]'), said = place && place.querySelector('.fault');
    return field && said ? said.textContent : '';
  };
  /**
   * A certificate is pasted, and judged.
   * @param {string} text
   */
  const judgeText = text => {
    const area = document.getElementById('why-given'), judge = document.getElementById('why-judge');
    if (!(area instanceof HTMLTextAreaElement) || !judge) throw new Error('there is no field for a certificate');
    area.value = text;
    area.dispatchEvent(new Event('input', { bubbles: true }));
    judge.click();
  };
  Object.assign(window.trial, { faultAt, judgeText });
})();

// Bars and files.
(() => {
  /** @type {any} */
  const page = /** @type {any} */ (window).msp;
  /**
   * Drags a bar.
   * @param {number} piece
   * @param {number} x
   * @param {number} y
   */
  const drag = (piece, x, y) => {
    const bar = /** @type {SVGElement} */ (document.querySelector(`.chart [data-at="${piece}"]`)), { left, top } = bar.getBoundingClientRect();
    bar.setPointerCapture = () => undefined;
    /**
     * @param {string} type
     * @param {number} far
     */
    const tell = (type, far) => bar.dispatchEvent(new PointerEvent(type,
      { clientX: left + 3 + far * x, clientY: top + 3 + far * y, button: 0, pointerId: 1, bubbles: true }));
    tell('pointerdown', 0);
    tell('pointermove', 0.5);
    tell('pointermove', 1);
    tell('pointerup', 1);
  };
  /** @param {() => void} act */
  const timed = act => {
    const began = performance.now();
    act();
    document.body.getBoundingClientRect();
    return performance.now() - began;
  };
  /** The place of the piece that begins last. */
  const last = () => page.app.state.plan.pieces.reduce((/** @type {number} */ most, /** @type {any} */ it, /** @type {number} */ at,
    /** @type {any[]} */ all) => it.from.n * all[most].from.d > all[most].from.n * it.from.d ? at : most, 0);
  /**
   * A place near the end of a bar, as the pointer finds it.
   * @param {number} piece
   */
  const grip = piece => {
    const bar = /** @type {SVGElement} */ (document.querySelector(`.chart [data-at="${piece}"]`));
    bar.scrollIntoView({ block: 'center', inline: 'center' });
    const { left, top, width, height } = bar.getBoundingClientRect();
    return [left + width * 0.9, top + height / 2];
  };
  /** Draws the whole chart anew. */
  const redraw = () => {
    page.plan.chart.drawnOf = [];
    page.plan.chart.render();
  };
  /**
   * How long after a drop a verdict stands in the page, in milliseconds.
   * @param {number} piece
   * @param {number} x
   * @param {number} y
   */
  const judgedAfter = async (piece, x, y) => {
    const began = performance.now();
    drag(piece, x, y);
    while (!page.app.verdict) await new Promise(done => setTimeout(done));
    document.body.getBoundingClientRect();
    return performance.now() - began;
  };
  Object.assign(window.trial, { drag, timed, last, grip, redraw, judgedAfter, link: () => page.input.word(), saved: () => page.input.saved(),
    takeFile: (/** @type {string} */ name, /** @type {string} */ text) => page.input.take(name, text) });
})();

// Files.
(() => {
  /**
   * What the buttons of files give, by the names of the files.
   * @param {string[]} kinds of files, or selectors
   */
  const given = async kinds => {
    /** @type {Object<string, string>} */
    const found = {};
    const { createObjectURL } = URL, { click } = HTMLAnchorElement.prototype;
    /** @type {Blob[]} */
    const blobs = [];
    URL.createObjectURL = blob => {
      blobs.push(/** @type {Blob} */ (blob));
      return 'blob:trial';
    };
    /** @type {string[]} */
    const names = [];
    HTMLAnchorElement.prototype.click = function() { names.push(this.download); };
    try {
      for (const kind of kinds) /** @type {HTMLElement} */ (document.querySelector(kind[0] === '#' ? kind : `[data-file="${kind}"]`)).click();
      for (const [place, name] of names.entries()) found[name] = await blobs[place].text();
    } finally {
      URL.createObjectURL = createObjectURL;
      HTMLAnchorElement.prototype.click = click;
    }
    return found;
  };
  /** The bytes of the chart as PNG. */
  const png = async () => {
    const { click } = HTMLAnchorElement.prototype, { createObjectURL } = URL;
    /** @type {Promise<Blob>} */
    const made = new Promise(done => {
      URL.createObjectURL = blob => {
        if (/** @type {Blob} */ (blob).type === 'image/png') done(/** @type {Blob} */ (blob));
        return createObjectURL.call(URL, /** @type {Blob} */ (blob));
      };
    });
    HTMLAnchorElement.prototype.click = () => undefined;
    /** @type {HTMLElement} */ (document.querySelector('[data-file="png"]')).click();
    const { size } = await made;
    [URL.createObjectURL, HTMLAnchorElement.prototype.click] = [createObjectURL, click];
    return size;
  };
  const isXml = (/** @type {string} */ text) => !new DOMParser().parseFromString(text, 'image/svg+xml').querySelector('parsererror');
  Object.assign(window.trial, { given, png, isXml });
})();

// Files that are dropped.
(() => {
  /**
   * Drops a file on the page.
   * @param {string} name
   * @param {string} text
   */
  const drop = (name, text) => {
    const data = new DataTransfer(), event = new DragEvent('drop', { bubbles: true, cancelable: true, dataTransfer: data });
    data.items.add(new File([text], name));
    if (!event.dataTransfer || !event.dataTransfer.files.length) Object.defineProperty(event, 'dataTransfer', { value: data });
    document.body.dispatchEvent(event);
  };
  Object.assign(window.trial, { drop });
})();

// Controls and scripts.
(() => {
  const nameless = () => Array.from(document.querySelectorAll('button, input, select, textarea, [role=button]'))
    .filter(it => it.getClientRects().length).filter(it => {
      const labels = 'labels' in it ? /** @type {HTMLInputElement} */ (it).labels : null;
      return !(labels && labels.length) && !it.getAttribute('aria-label') && !(it.textContent || '').trim();
    }).map(it => it.outerHTML.slice(0, 120));
  const foreign = () => {
    const it = document.createElement('script');
    it.textContent = 'globalThis.foreign = 1';
    document.head.append(it);
    return !('foreign' in globalThis);
  };
  /** Names of elements that stand twice; each chart has its own stripes. */
  const twice = () => Array.from(document.querySelectorAll('[id]:not(pattern)'), it => it.id).filter((it, at, all) => all.indexOf(it) !== at);
  Object.assign(window.trial, { nameless, foreign, twice });
})();

// What is refused, what moves, what gets the focus.
(() => {
  /** What the policy lets nobody do: run a handler, fetch a picture, style by a text. */
  const refused = async () => {
    const box = document.createElement('div'), picture = new Image(), told = /** @type {Object<string, boolean>} */ ({});
    box.setAttribute('onclick', 'globalThis.handled = 1');
    box.setAttribute('style', 'width: 7px');
    document.body.append(box);
    box.click();
    const fetched = new Promise(done => { [picture.onload, picture.onerror] = [() => done(false), () => done(true)]; });
    picture.src = 'http://127.0.0.1:9/picture.png';
    told.picture = Boolean(await fetched);
    await new Promise(done => setTimeout(done, 50));
    told.handler = !('handled' in globalThis);
    told.style = box.getBoundingClientRect().width !== 7;
    box.remove();
    return Object.keys(told).filter(it => told[it]).sort();
  };
  /** What moves by itself, or would when it changes. */
  const moving = () => Array.from(document.querySelectorAll('*')).filter(it => {
    const { transitionDuration, animationName } = getComputedStyle(it);
    return /[1-9]/.test(transitionDuration) || animationName !== 'none';
  }).map(it => it.tagName);
  /** Whether what has the focus can be seen, and shows that it has it. */
  const focusIsSeen = () => {
    const it = document.activeElement;
    if (!it || it === document.body) return true;
    const ring = it.matches('.unseen') ? it.nextElementSibling : it, { width, height, bottom, top } = (ring || it).getBoundingClientRect();
    const { outlineStyle, outlineWidth } = getComputedStyle(ring || it);
    return width > 0 && height > 0 && bottom > 0 && top < innerHeight && outlineStyle !== 'none' && outlineWidth !== '0px';
  };
  Object.assign(window.trial, { refused, moving, focusIsSeen });
})();

// Roles and the colours of pictures.
(() => {
  const each = (/** @type {string} */ place) => Array.from(document.querySelectorAll(place));
  const isShown = (/** @type {Element} */ it) => it.getClientRects().length > 0;
  /** References to elements that are not there. */
  const lost = () => ['aria-labelledby', 'aria-describedby', 'aria-controls', 'for'].flatMap(key => each(`[${key}]`)
    .flatMap(it => (it.getAttribute(key) || '').split(' ').filter(id => !document.getElementById(id)).map(id => `${key} ${id}`)));
  /** Ids that stand twice. */
  const twice = () => each('[id]').map(it => it.id).filter((it, at, all) => all.indexOf(it) !== at).map(it => `twice: ${it}`);
  /** Headings that leave out a level. */
  const skipped = () => each('h1, h2, h3, h4').filter(isShown).map(it => Number(it.tagName[1]))
    .filter((it, at, all) => at > 0 && it > all[at - 1] + 1).map(it => `a heading of level ${it} without one above it`);
  /** Controls that the keyboard does not reach, or not in the order of the page. */
  const unreached = () => [...each('[role=button]').filter(it => !it.hasAttribute('tabindex')),
    ...each('[tabindex]').filter(it => Number(it.getAttribute('tabindex')) > 0),
    ...each('svg.chart[role=group]').filter(isShown).filter(it => it.querySelectorAll('[tabindex="0"]').length !== 1)]
    .map(it => `not reached: ${it.outerHTML.slice(0, 80)}`);
  /** @param {string} language */
  const roles = language => [...lost(), ...twice(), ...skipped(), ...unreached(),
    ...each('main, h1').filter(isShown).length === 2 ? [] : ['one main part with one heading'],
    ...each('section:not([aria-labelledby], [aria-label])').filter(isShown).filter(it => !it.querySelector('h2, h3'))
      .map(it => `a part without a name: ${it.id}`),
    ...each('svg.chart').filter(it => !it.getAttribute('aria-label')).map(() => 'a chart without a name'),
    ...document.documentElement.lang === language ? [] : ['the language is not said']];
  Object.assign(window.trial, { roles });
})();

// Colours of charts.
(() => {
  /** @param {string} colour as rgb(..) or #rrggbb */
  const light = colour => {
    const parts = colour[0] === '#' ? [1, 3, 5].map(at => parseInt(colour.slice(at, at + 2), 16)) : (colour.match(/[\d.]+/g) || []).map(Number);
    const [red, green, blue] = parts.map(it => it / 255).map(it => it <= 0.03928 ? it / 12.92 : ((it + 0.055) / 1.055) ** 2.4);
    return 0.2126 * red + 0.7152 * green + 0.0722 * blue;
  };
  /**
   * @param {string} one
   * @param {string} other
   */
  const contrast = (one, other) => (Math.max(light(one), light(other)) + 0.05) / (Math.min(light(one), light(other)) + 0.05);
  const fill = (/** @type {Element} */ it) => getComputedStyle(it).fill;
  /** Texts and marks of charts that can hardly be read. */
  const pale = () => Array.from(document.querySelectorAll('.chart-room')).filter(it => it.getClientRects().length).flatMap(room => {
    const paper = getComputedStyle(room).backgroundColor;
    const grounds = (/** @type {Element} */ it) => {
      const rect = it.matches('.label') && it.parentElement ? it.parentElement.querySelector('rect') : null;
      return !rect ? [paper] : fill(rect).startsWith('url') ? ['#ffd9d6', '#e0797c'] : [fill(rect)];
    };
    const texts = Array.from(room.querySelectorAll('text')).filter(it => it.textContent)
      .flatMap(it => grounds(it).filter(ground => contrast(fill(it), ground) < 4.5).map(ground => `${it.textContent}: ${fill(it)} on ${ground}`));
    const marks = Array.from(room.querySelectorAll('path.due, path.release'), it => getComputedStyle(it).stroke);
    return [...texts, ...marks.filter(it => contrast(it, paper) < 3).map(it => `a mark: ${it} on ${paper}`)];
  });
  /** Fields whose hint can hardly be read. */
  const faint = () => Array.from(document.querySelectorAll('[placeholder]')).filter(it => it.getClientRects().length).filter(it => {
    const { color, opacity } = getComputedStyle(it, '::placeholder');
    return Number(opacity) < 1 || contrast(color, getComputedStyle(it).backgroundColor) < 4.5;
  }).map(it => `the hint of ${it.id}`);
  Object.assign(window.trial, { pale, faint });
})();

// Lessons.
(() => {
  /** @type {any} */
  const page = /** @type {any} */ (window).msp;
  /**
   * Takes the plan of the last step of the rule for the one of the lesson; or moves the one bar that is enough.
   * @param {string} goal
   */
  const answer = goal => {
    const { app, steps } = page.learn, all = steps.steps, [lawler] = app.state.plan.pieces.slice(2), [from, to] = [2n, 4n].map(n => ({ n, d: 1n }));
    const moved = app.state.plan.pieces.map((/** @type {any} */ it) => it === lawler ? { ...it, from, to } : it);
    app.plan({ pieces: goal === 'move' ? moved : steps.pieces(all[all.length - 1]), from: 'own' });
  };
  /** Gives the best cost as a bound, with the work of all jobs, or of one of them, until it is accepted. */
  const prove = async () => {
    const { why, app } = page.learn, rows = app.built.jobs.map((/** @type {any} */ it) => it.row.id);
    why.bound = String(app.bestCost.n);
    for (const kind of why.kinds.filter((/** @type {string} */ it) => it !== 'machine')) {
      for (let at = 1; at <= rows.length && !why.accepted; at++) {
        why.kind = kind;
        why.chosen = new Set([rows[at - 1]]);
        await why.judge();
      }
    }
  };
  /** Gives a wrong answer: the last piece a unit later, or a bound that the evidence does not show. */
  const mistake = async () => {
    const { why, app } = page.learn, { pieces } = app.state.plan, { kinds } = why, at = pieces.length - 1;
    const later = (/** @type {{n: bigint, d: bigint}} */ it) => ({ n: it.n + it.d, d: it.d });
    const { from, to } = pieces[at], moved = [...pieces.slice(0, at), { ...pieces[at], from: later(from), to: later(to) }];
    if (!document.getElementById('lesson-why')) {
      app.plan({ pieces: moved, from: 'own' });
      return;
    }
    why.kind = kinds[kinds.length - 1];
    why.bound = String(app.bestCost.n + 1n);
    why.chosen = new Set([app.built.jobs[0].row.id]);
    await why.judge();
  };
  Object.assign(window.trial, { answer, prove, mistake });
})();
