// The filter above the rows: kinds, sides, remarks, search.
import { $, $$, h, grouped } from './dom.js';
import { GROUPS } from '../core/items.js';

const NAMES = [...GROUPS, 'events'];
/** @type {Record<string, string>} */
const TITLES = { state: 'choke, unchoke, interested, not-interested',
  have: 'have, bitfield, have-all, have-none, suggest, allowed-fast',
  cancel: 'cancel, reject', extended: 'extended handshake, metadata, other extensions', other: 'keep-alive, port, unknown',
    events: 'refusals, gaps, closes' };
const TYPING_PAUSE = 160;

export class Filters {
  /** @param {() => void} onChange */
  constructor(onChange) {
    this.groups = NAMES.map(() => true);
    this.side = -1;
    this.text = '';
    this.isRemarked = false;
    this.onChange = onChange;
    this.counts = new Uint32Array(NAMES.length);
    /** @type {ReturnType<typeof setTimeout> | undefined} */ this.typing = undefined;
    for (const button of $$('#sides button')) button.onclick = () => { this.side = Number(button.dataset.side); this.changed(); };
    $('#only').onclick = () => { this.isRemarked = !this.isRemarked; this.changed(); };
    $('#search').oninput = () => {
      clearTimeout(this.typing);
      this.typing = setTimeout(() => this.search($('#search').value), TYPING_PAUSE);
    };
    $('#search').onkeydown = (/** @type {KeyboardEvent} */ event) => {
      if (event.key === 'Escape') this.search($('#search').value = '');
      if (event.key === 'Escape' || event.key === 'Enter') $('#search').blur();
    };
  }

  /** What the worker is asked. */
  get asked() { return { groups: this.groups, side: this.side, text: this.text, isRemarked: this.isRemarked }; }

  /** @param {string} text */
  search(text) {
    this.text = text;
    this.onChange();
  }

  changed() {
    this.draw(this.counts);
    this.onChange();
  }

  /**
   * One click shows a kind alone, a further one all; with shift or ctrl it is switched.
   * @param {number} k @param {MouseEvent} event
   */
  pick(k, event) {
    const isAlone = this.groups[k] && this.groups.filter(Boolean).length === 1;
    if (event.shiftKey || event.ctrlKey || event.metaKey) this.groups[k] = !this.groups[k];
    else this.groups = NAMES.map((_, one) => isAlone || one === k);
    this.changed();
  }

  /** @param {Uint32Array} counts how many rows each kind has */
  draw(counts) {
    this.counts = counts;
    $('#kinds').replaceChildren(...NAMES.flatMap((name, k) => counts[k]
      ? [h(`button.kind.g${k}`, { class: this.groups[k] ? 'on' : '', title: TITLES[name] ?? name,
      'data-k': k, 'aria-pressed': String(this.groups[k]), onclick: (/** @type {MouseEvent} */ event) => this.pick(k, event) },
        name, ' ', h('span', grouped(counts[k])))] : []));
    for (const button of $$('#sides button')) press(button, Number(button.dataset.side) === this.side);
    press($('#only'), this.isRemarked);
  }
}

/** @param {HTMLElement} button @param {boolean} isOn */
export function press(button, isOn) {
  button.classList.toggle('on', isOn);
  button.setAttribute('aria-pressed', String(isOn));
}
