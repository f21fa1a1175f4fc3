// The keyboard.
import { $, $$ } from './dom.js';

/** @param {import('./app.js').App} app @returns {Record<string, () => void>} */
const actsOf = app => {
  const page = Math.max(1, Math.floor(app.list.inSight) - 2);
  const by = (/** @type {number} */ step) => () => app.pick(app.place + step), to = (/** @type {number} */ place) => () =>
    app.pick(place);
  return {
    j: by(1), ArrowDown: by(1), k: by(-1), ArrowUp: by(-1), PageDown: by(page), PageUp: by(-page), ' ': by(page),
    g: to(0), Home: to(0), G: to(app.total - 1), End: to(app.total - 1),
    m: () => { if (app.mate >= 0) app.pickRow(app.mate, false); },
    n: () => app.nextMark(1), N: () => app.nextMark(-1), ']': () => app.nextConnection(1), '[': () => app.nextConnection(-1),
    '/': () => $('#search').focus(), s: () => app.showTab(app.tab === 'summary' ? 'sequence' : 'summary'),
    r: () => app.setRules(app.rules === 'free' ? 'bep' : 'free'), p: () => app.print(), l: () => app.copyLink(), w: () =>
      $('.whytext')?.click(),
    c: () => $('#inspector .tiny')?.click(), y: () => $$('#inspector .tiny')[1]?.click(),
  };
};

/** @param {import('./app.js').App} app */
export function bindKeys(app) {
  /** @type {Record<string, () => void>} */
  const always = { t: () => $('#theme').click(), '?': () => $('#keys').showModal(), o: () => $('#chooser').click() };
  addEventListener('keydown', (/** @type {any} */ event) => {
    // the browser's own print shows what is in sight alone
    if ((event.ctrlKey || event.metaKey) && event.key === 'p' && app.it) {
      event.preventDefault();
      app.print();
      return;
    }
    if (event.target.matches('input, textarea') || event.ctrlKey || event.metaKey || event.altKey ||
      document.querySelector('dialog[open]')) return;
    // a button has its own space
    if (event.key === ' ' && event.target.matches('button, summary')) return;
    const act = always[event.key] ?? (app.it ? actsOf(app)[event.key] : undefined);
    if (!act) return;
    event.preventDefault();
    act();
  });
}
