// The summary of a connection: counts, rates, pieces, latencies, and what was learned.
import { h, bytesText, grouped, plural, spanText } from './dom.js';
import { drawLines, drawHistogram, drawPieces } from './charts.js';
import { groupOf, nameOf } from '../core/items.js';

/** @param {string} title @param {any} note @param {...any} content */
const card = (title, note, ...content) => h('section.card', h('h3', title, note && h('span.dim', note)), ...content);
/** @param {string[][]} entries */
const legend = entries => h('div.legend',
  entries.map(([name, text]) => h('span', h('i', { style: `background:var(${name})` }), text)));
/** @param {string} name @param {any} value @param {any} [note] */
const fact = (name, value, note) => h('div.fact', h('span', name), h('b', value), note && h('span.dim', note));

class SummaryView {
  /** @param {any} it @param {any} summary @param {{ remarks: any }} tables @param {(row: number) => void} onJump */
  constructor(it, summary, tables, onJump) {
    this.it = it;
    this.summary = summary;
    this.tables = tables;
    this.onJump = onJump;
    /** @type {(() => void)[]} */ this.charts = [];
  }

  /** @param {(box: HTMLElement) => void} draw */
  chart(draw) {
    const box = h('div.chart');
    this.charts.push(() => draw(box));
    return box;
  }

  /** @param {string} text @param {number} row */
  link(text, row) { return h('button.link', { onclick: () => this.onJump(row) }, text); }

  facts() {
    const { it, summary } = this, { hasTimes, span } = summary;
    const rate = (/** @type {number} */ bytes) => hasTimes && span > 1e-5 ? `${bytesText(bytes / span)}/s` : null;
    const ends = ['A', 'B'], info = (/** @type {any} */ one) => `${plural(one.pieces, 'piece')} of ${bytesText(one.pieceLength)}`;
    return [
      hasTimes && fact('lasted', spanText(span), `from ${summary.first.toFixed(6)} s`),
      ends.map((end, k) => fact(`${end} sent`, bytesText(it.sides[k].bytes), rate(it.sides[k].bytes))),
      ends.map((end, k) => { const bytes = summary.blocks[k].at(-1); return bytes
        ? fact(`blocks of ${end}`, bytesText(bytes), rate(bytes)) : null; }),
      ends.map((end, k) => summary.deepest[k] ? fact(`${end} asked at once`, plural(summary.deepest[k], 'request'), 'at most')
        : null),
      ends.map((end, k) => summary.open[k] ? fact(`open requests of ${end}`, grouped(summary.open[k]), 'at the end') : null),
      it.sides.map((/** @type {any} */ side, /** @type {number} */ k) => side.repeated || side.late
        ? fact(`${ends[k]} sent again`, bytesText(side.repeated),
        side.late ? plural(side.late, 'segment filled a hole', 'segments filled holes') : null) : null),
      it.metadata && fact('metadata', it.metadata.name ?? '—', `its SHA-1 is the info hash · ${info(it.metadata)}`),
      it.torrent && fact('torrent', it.torrent.name ?? '—', info(it.torrent)),
    ];
  }

  counts() {
    const { counts } = this.summary,
      codes = [...new Set(counts.flatMap((/** @type {any[]} */ list) => list.map(([code]) => code)))].sort((x, y) =>
      groupOf(x) - groupOf(y) || x - y);
    const of = (/** @type {number} */ side, /** @type {number} */ code) =>
      counts[side].find((/** @type {any} */ [one]) => one === code)?.[1] ?? [0, 0];
    const most = Math.max(1, ...codes.flatMap(code => [of(0, code)[1], of(1, code)[1]]));
    const wide = (/** @type {number} */ bytes) => bytes ? Math.max(1.5, Math.log(1 + bytes) / Math.log(1 + most) * 100) : 0;
    const bar = (/** @type {number} */ bytes, /** @type {number} */ side) =>
      h(`span.bar.s${side}`, h('i', { style: `width:${wide(bytes)}%` }));
    const text = (/** @type {number} */ number, /** @type {(n: number) => string} */ write) => number ? write(number) : '';
    const rows = codes.map(code => {
      const a = of(0, code), b = of(1, code), name = nameOf(code) === 'unknown' ? `unknown ${code}` : nameOf(code);
      return h('tr', h('td', h(`span.chip.g${groupOf(code)}`, name)), h('td.n', text(a[0], grouped)),
        h('td.n.dim', text(a[1], bytesText)), h('td.left', bar(a[1], 0)),
        h('td', bar(b[1], 1)), h('td.n.dim', text(b[1], bytesText)), h('td.n', text(b[0], grouped)));
    });
    const head = ['A sent', 'bytes', '', '', 'bytes', 'B sent'].map(name => h(name ? 'th.n' : 'th', name));
    return card('Messages', 'counted from what the reader read',
      h('table.counts', h('thead', h('tr', h('th', 'kind'), head)), h('tbody', rows)));
  }

  closing() {
    const { closing } = this.it, event = closing?.event;
    if (!event) return null;
    const last = (/** @type {number} */ side) => closing.lasts[side] &&
      h('p.dim', `${'AB'[side]} had sent last: `, this.link(closing.lasts[side].words.slice(0, 90), closing.lasts[side].r));
    return card('Who closed first', null, h('div.closing', h('p', h(`span.side.s${event.side}`, 'AB'[event.side]),
      ` closed first, by ${event.word}, at ${event.time.toFixed(6)} s (packet ${grouped(event.packet)}).`), last(1 - event.side),
        last(event.side)));
  }

  remarks() {
    const found = this.it.remarks.flatMap((/** @type {any[]} */ side, /** @type {number} */ k) =>
      side.filter(({ count }) => count).map(one => ({ ...one, side: k })));
    if (!found.length) return null;
    return card('Remarks', 'what the two directions show together',
      h('div.closing', found.map((/** @type {any} */ { name, count, row, side }) => {
      const told = this.tables.remarks[name], text = count === 1 ? told.one : told.many.replace('{n}', grouped(count));
      return h('p', h(`span.side.s${side}`, 'AB'[side]), ` sent ${text}${count === 1 ? ': ' : ', the first: '}`,
        this.link(`${row.offset} ${row.words}`, row.r));
    })));
  }

  lines() {
    const { sent, haves, span, hasTimes } = this.summary, over = hasTimes ? 'over time' : 'over messages';
    const total = (/** @type {Float64Array} */ list) => list[list.length - 1];
    const bytes = this.chart(box => drawLines(box,
      [{ values: sent[0], color: '--a', isFilled: true }, { values: sent[1], color: '--b', isFilled: true }],
      { span, hasTimes, unit: bytesText,
        text: `Bytes sent ${over}: A ${bytesText(total(sent[0]))}, B ${bytesText(total(sent[1]))} in all` }));
    const pieces = this.chart(box => drawLines(box,
      [{ values: haves[0], color: '--a' }, { values: haves[1], color: '--b', dash: [4, 3] }],
      { span, hasTimes, isWhole: true, unit: value => grouped(Math.round(value)),
        text: `Pieces had ${over}: A ${total(haves[0])}, B ${total(haves[1])} at the end` }));
    return [card('Bytes sent', over, legend([['--a', 'A → B'], ['--b', 'B → A']]), bytes),
      card('Pieces had', 'as announced by bitfield and have', legend([['--a', 'A'], ['--b', 'B']]), pieces)];
  }

  latencies() {
    return this.summary.latencies.map((/** @type {any} */ spread, /** @type {number} */ side) => spread &&
      card(`From request to block, sent by ${'AB'[side]}`, plural(spread.count, 'block'),
      h('div.quant', [['least', spread.least], ['median', spread.half], ['90 %', spread.nine],
        ['most', spread.most]].map(([name, value]) => h('span', name, h('b', spanText(value))))),
      this.chart(box => drawHistogram(box, spread, side ? '--b' : '--a'))));
  }

  map() {
    const { pieces, known, held, has, moved } = this.summary, pieceLength = (this.it.torrent ?? this.it.metadata)?.pieceLength ??
      null;
    if (!pieces) return null;
    const note = known ? plural(pieces, 'piece') : `at least ${plural(pieces, 'piece')}, as seen`;
    return card('Piece map', note, legend([['--a', 'A has'], ['--b', 'B has'], ['--g4', 'sent here']]), [0, 1].map(side =>
      [h('div.maphead', h(`span.side.s${side}`, 'AB'[side]), `has ${grouped(held[side])}`),
        this.chart(box => drawPieces(box, has[side], moved[side], pieceLength, side ? '--b' : '--a'))]));
  }

  /** @param {HTMLElement} root */
  draw(root) {
    root.replaceChildren(h('div.facts', this.facts()),
      h('div.cards', this.remarks(), this.closing(), this.lines(), this.counts(), this.latencies(), this.map()));
    return () => this.charts.forEach(draw => draw());
  }
}

/**
 * Draws the summary, and returns what draws its charts again.
 * @param {HTMLElement} root @param {any} it @param {any} summary @param {{ remarks: any }} tables @param {(row: number) => void}
 *  onJump
 */
export const drawSummary = (root, it, summary, tables, onJump) => new SummaryView(it, summary, tables, onJump).draw(root);
