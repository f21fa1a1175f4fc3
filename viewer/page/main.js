// The start: joins the page's controls to its state, and starts the reader.
import { $, $$ } from './dom.js';
import { App } from './app.js';
import { bindKeys } from './keys.js';
import { bindOpening, decode, openExample, openFiles } from './opening.js';
import { askedBy, placeOf } from './links.js';

const app = new App(JSON.parse($('#tables').textContent)), asked = askedBy(location.hash);

/** @param {string} id @param {any[]} buttons */
function bindDialog(id, buttons) {
  const dialog = $(id);
  for (const button of buttons) button.onclick = () => dialog.showModal();
  dialog.onclick = (/** @type {any} */ event) => { if (event.target === dialog || event.target.matches('.close')) dialog.close(); };
}

/**
 * Going to a place of the overview, by a click or by dragging.
 * @param {PointerEvent} event
 */
function goByOverview(event) {
  const box = $('#overview');
  if (!app.summary) return;
  const go = (/** @type {PointerEvent} */ at) => {
    const { binRow } = app.summary, part = (at.clientX - box.getBoundingClientRect().left) / box.clientWidth;
    const bin = Math.min(binRow.length - 2, Math.max(0, Math.floor(part * (binRow.length - 1))));
    return app.jump(Math.min(binRow[bin], app.it.total - 1));
  };
  box.setPointerCapture(event.pointerId);
  box.onpointermove = go;
  box.onpointerup = () => { box.onpointermove = null; };
  go(event);
}

function bindControls() {
  for (const button of $$('#tabs button')) button.onclick = () => app.showTab(button.dataset.tab);
  for (const button of $$('#rules button')) button.onclick = () => app.setRules(button.dataset.rules);
  for (const input of $$('#options input')) input.onchange = () => app.setOptions();
  $('#theme').onclick = () => app.setTheme(document.documentElement.dataset.theme === 'dark' ? 'light' : 'dark');
  $('#overview').onpointerdown = goByOverview;
  bindDialog('#about', $$('.whatproved'));
  bindDialog('#keys', [$('#keysbutton')]);
  addEventListener('resize', () => app.redraw());
  addEventListener('hashchange', () => {
    const place = placeOf(askedBy(location.hash).get('at')), id = place && app.listed
      ? app.listed.connections.findIndex((/** @type {any} */ it) => it.number === place.number) : -1;
    if (id >= 0) (id === app.id ? Promise.resolve() : app.openConnection(id)).then(() => app.goTo(place));
  });
}

function firstTheme() {
  const usual = matchMedia('(prefers-color-scheme: light)').matches ? 'light' : 'dark';
  try { return localStorage.getItem('theme') ?? usual; } catch { return usual; }
}

/** What the address asks for: #example=refused&rules=bep&tab=summary&at=0-A-78&pieces=38&theme=light */
async function start() {
  await app.backend.call('start', { wasm: decode($('#wasm').textContent) });
  document.body.dataset.ready = 'yes';
  if (asked.get('rules') === 'bep') await app.setRules('bep');
  if (asked.get('example')) await openExample(app, asked.get('example'));
  if (asked.get('tab')) app.showTab(asked.get('tab') === 'summary' ? 'summary' : 'sequence');
  document.body.dataset.state = 'done';
}

app.setTheme(asked.get('theme') ?? firstTheme());
bindControls();
bindKeys(app);
bindOpening(app);
start().catch(error => {
  document.body.dataset.state = 'failed';
  $('#nowasm').hidden = false;
  $('#nowasm').textContent = error.message;
});

// what tests drive the page by
Object.assign(window, { viewer: app, openExample, openFiles });
