// A list of any number of rows of one height, of which those in sight are drawn. Rows come a page at a time. A browser's element
// can't be as high as ten million rows, so a long list scrolls by its own place.
import { h } from './dom.js';

const PAGE = 128, PAGES_KEPT = 64, HIGHEST = 6000000;

/**
 * How a row is drawn: its classes, its text for screen readers, its HTML.
 * @typedef {{ classes: (row: any) => string, label: (row: any) => string, html: (row: any) => string }} Draw
 */

export class VirtualList {
  /**
   * @param {HTMLElement} root
   * @param {{ height: number, fetch: (from: number, to: number) => Promise<any[]>, draw: Draw, onPick: (place: number) => void }}
   *  how
   */
  constructor(root, { height, fetch, draw, onPick }) {
    this.root = root;
    this.height = height;
    this.fetch = fetch;
    this.draw = draw;
    this.total = this.top = this.version = this.expected = this.due = 0;
    this.isScaled = false;
    /** @type {Map<number, any[]>} */ this.pages = new Map();
    /** @type {Set<number>} */ this.wanted = new Set();
    this.space = h('div.vspace');
    this.layer = h('div.vlayer', { role: 'presentation' });
    root.append(this.space, this.layer);
    root.addEventListener('scroll', () => this.scrolled(), { passive: true });
    root.addEventListener('wheel', event => {
      if (!this.isScaled) return;
      event.preventDefault();
      this.place(this.top + event.deltaY / this.height);
    }, { passive: false });
    this.layer.addEventListener('click', (/** @type {any} */ event) => {
      const row = event.target.closest('[data-v]');
      if (row) onPick(Number(row.dataset.v));
    });
    new ResizeObserver(() => this.show()).observe(root);
  }

  /** @param {number} total */
  reset(total) {
    this.total = total;
    this.pages.clear();
    this.wanted.clear();
    this.version++;
    this.isScaled = total * this.height > HIGHEST;
    this.space.style.height = `${Math.min(total * this.height, HIGHEST)}px`;
    this.place(0);
  }

  get inSight() { return Math.max(1, this.root.clientHeight / this.height); }
  get lowest() { return Math.max(0, this.total - Math.floor(this.inSight)); }

  /**
   * Scrolls so that row `top` is the first one in sight.
   * @param {number} top
   */
  place(top) {
    this.top = Math.min(Math.max(0, top), this.lowest);
    const range = HIGHEST - this.root.clientHeight;
    const target = this.isScaled ? this.top / Math.max(1, this.lowest) * range : this.top * this.height;
    this.expected = Math.round(target);
    this.root.scrollTop = target;
    this.show();
  }

  scrolled() {
    const { scrollTop } = this.root;
    if (!this.isScaled) this.top = scrollTop / this.height;
    else if (Math.abs(scrollTop - this.expected) > 1) this.top = scrollTop / (HIGHEST - this.root.clientHeight) * this.lowest;
    this.show();
  }

  /**
   * Makes the row visible, not at the very edge.
   * @param {number} v @param {boolean} isCentred
   */
  reveal(v, isCentred) {
    const sight = this.inSight;
    if (isCentred || v < this.top - sight || v > this.top + 2 * sight) this.place(v - sight / 2 + 0.5);
    else if (v < this.top + 1) this.place(v - 1);
    else if (v > this.top + sight - 2.5) this.place(v - sight + 2.5);
    else this.show();
  }

  /** @param {number} v */
  row(v) { return this.pages.get(Math.floor(v / PAGE))?.[v % PAGE]; }

  /** @param {number} page */
  async load(page) {
    if (this.wanted.has(page) || this.pages.has(page)) return;
    this.wanted.add(page);
    const { version } = this, rows = await this.fetch(page * PAGE, (page + 1) * PAGE);
    if (version !== this.version) return;
    this.wanted.delete(page);
    if (this.pages.size >= PAGES_KEPT) this.pages.delete(this.pages.keys().next().value);
    this.pages.set(page, rows);
    this.show();
  }

  /**
   * The row, when it has come.
   * @param {number} v
   */
  async need(v) {
    await this.load(Math.floor(v / PAGE));
    for (let k = 0; k < 400 && !this.row(v); k++) await new Promise(next => setTimeout(next, 5));
    return this.row(v);
  }

  show() {
    if (this.due) return;
    this.due = requestAnimationFrame(() => {
      this.due = 0;
      const from = Math.max(0, Math.floor(this.top)), to = Math.min(this.total, Math.ceil(this.top + this.inSight) + 1), parts = [];
      for (let v = from; v < to; v++) parts.push(this.html(v));
      this.layer.style.transform = `translateY(${this.root.scrollTop + (from - this.top) * this.height}px)`;
      this.layer.innerHTML = parts.join('');
      const selected = this.layer.querySelector('[aria-selected=true]');
      if (selected) this.root.setAttribute('aria-activedescendant',
        selected.id); else this.root.removeAttribute('aria-activedescendant');
    });
  }

  /** @param {number} v */
  html(v) {
    const row = this.row(v);
    if (!row) {
      this.load(Math.floor(v / PAGE));
      return `<div class="row wait" data-v="${v}"></div>`;
    }
    const classes = this.draw.classes(row), isOn = / on( |$)/.test(classes);
    return `<div class="row${classes}" data-v="${v}" id="row-${v}" role="option" aria-selected="${isOn}" aria-setsize="${this.total}" ` +
      `aria-posinset="${v + 1}" aria-label="${this.draw.label(row)}">${this.draw.html(row)}</div>`;
  }
}
