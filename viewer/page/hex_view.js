// Bytes in hex, with marked fields. Fields are sorted; of those that cover a byte the innermost marks it.
import { h, escape } from './dom.js';

const HEIGHT = 19, WIDE_FROM = 556;
const HEX = Array.from({ length: 256 }, (_, byte) => byte.toString(16).padStart(2, '0'));
const NO_FIELD = -1, AROUND = -2, CLOSED = -3;

/** @typedef {{ from: number, to: number, kind: string, name: string, value?: any, note?: string | null }} Field */

export class HexView {
  /** @param {HTMLElement} root @param {(field: number) => void} onHover */
  constructor(root, onHover) {
    this.root = root;
    this.bytes = new Uint8Array(0);
    this.owner = new Int32Array(0);
    this.start = this.lead = this.lines = 0;
    this.wide = 16;
    this.bad = this.lit = -1;
    /** @type {Field[]} */ this.fields = [];
    this.space = h('div.vspace');
    this.layer = h('div.hexlines');
    root.append(this.space, this.layer);
    root.addEventListener('scroll', () => this.show(), { passive: true });
    this.layer.addEventListener('mouseover', (/** @type {any} */ event) => {
      const cell = event.target.closest('[data-f]'), field = cell ? Number(cell.dataset.f) : -1;
      this.light(field);
      onHover(field);
    });
    this.layer.addEventListener('mouseleave', () => {
      this.light(-1);
      onHover(-1);
    });
    new ResizeObserver(() => this.fit()).observe(root);
  }

  /**
   * Shows bytes that start at the offset `start`. Fields and `bad` count from bytes[0]. The bytes before and after are drawn
   * faintly.
   * @param {Uint8Array} bytes @param {number} start @param {Field[]} fields @param {number} [bad]
   * @param {{ before?: ArrayLike<number>, after?: ArrayLike<number> }} around
   */
  set(bytes, start, fields, bad = -1, { before = [], after = [] } = {}) {
    const lead = before.length, all = new Uint8Array(lead + bytes.length + after.length);
    all.set(before);
    all.set(bytes, lead);
    all.set(after, lead + bytes.length);
    Object.assign(this, { lead, bytes: all, start: start - lead, fields, bad: bad < 0 ? -1 : bad + lead, lit: -1 });
    // later fields lie inside of earlier ones, so they paint over them
    this.owner = new Int32Array(all.length).fill(AROUND);
    this.owner.fill(NO_FIELD, lead, lead + bytes.length);
    fields.forEach((field, k) => this.owner.fill(k, field.from + lead, field.to + lead));
    this.root.scrollTop = 0;
    this.fit();
    if (bad >= 0) this.reveal(bad);
  }

  fit() {
    this.wide = this.root.clientWidth > WIDE_FROM ? 16 : 8;
    this.lines = Math.ceil(Math.max(this.bytes.length, this.bad + 1) / this.wide);
    this.space.style.height = `${this.lines * HEIGHT + 10}px`;
    this.show();
  }

  /** @param {number} at */
  reveal(at) {
    const { root } = this, line = Math.floor((at + this.lead) / this.wide) * HEIGHT;
    if (line < root.scrollTop || line > root.scrollTop + root.clientHeight - 2 * HEIGHT) root.scrollTop = Math.max(0,
      line - root.clientHeight / 2);
  }

  /**
   * Marks a field and those inside it.
   * @param {number} field
   */
  light(field) {
    if (field === this.lit) return;
    this.lit = field;
    for (const cell of this.layer.querySelectorAll('.lit')) cell.classList.remove('lit');
    if (field < 0) return;
    const { from, to } = this.fields[field];
    this.fields.forEach((one, k) => {
      if (one.from < from || one.to > to) return;
      for (const cell of this.layer.querySelectorAll(`[data-f="${k}"]`)) cell.classList.add('lit');
    });
  }

  show() {
    const first = Math.max(0, Math.floor(this.root.scrollTop / HEIGHT) - 2), lines = [];
    const last = Math.min(this.lines, first + Math.ceil(this.root.clientHeight / HEIGHT) + 5);
    for (let line = first; line < last; line++) lines.push(this.line(line * this.wide));
    this.layer.style.transform = `translateY(${first * HEIGHT}px)`;
    this.layer.innerHTML = lines.join('');
    const { lit } = this;
    this.lit = -1;
    this.light(lit);
  }

  /** @param {number} field */
  tag(field) {
    if (field === NO_FIELD || field === AROUND) return `<span class="${field === NO_FIELD ? 'f-none' : 'f-around'}">`;
    const { kind, name } = this.fields[field];
    return `<span class="f-${kind}" data-f="${field}" title="${escape(name)}">`;
  }

  /**
   * The line of bytes from this place on.
   * @param {number} at
   */
  line(at) {
    const { bytes, owner, wide, bad } = this;
    let hex = '', text = '', open = CLOSED;
    for (let k = at; k < at + wide; k++) {
      if (k - at === wide >> 1) hex += '<i></i>';
      if (k >= bytes.length) {
        hex += k === bad ? '<b class="bad end" title="the stream ends here">▯▯</b> ' : '   ';
        continue;
      }
      if (open !== owner[k]) {
        open = owner[k];
        hex += this.tag(open);
        text += this.tag(open);
      }
      const isLast = k + 1 === at + wide || k + 1 === bytes.length || owner[k + 1] !== open, sign = signOf(bytes[k]);
      hex += (k === bad ? `<b class="bad">${HEX[bytes[k]]}</b>` : HEX[bytes[k]]) + (isLast ? '</span> ' : ' ');
      text += (k === bad ? `<b class="bad">${sign}</b>` : sign) + (isLast ? '</span>' : '');
      if (isLast) open = CLOSED;
    }
    const place = (this.start + at).toString(16).padStart(8, '0');
    return `<div class="hexline"><span class="hexat">${place}</span><span class="hexbytes">${hex}</span>` +
      `<span class="hextext">${text}</span></div>`;
  }
}

/** @param {number} byte */
const signOf = byte => byte > 31 && byte < 127 ? escape(String.fromCharCode(byte)) : '·';
