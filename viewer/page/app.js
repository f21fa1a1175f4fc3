// The page's state, and what happens when it changes: files are opened, a connection or a row is chosen, rules and options change.
import { $, $$, bytesText, copyText, grouped, h, plural, save, say } from './dom.js';
import { Backend } from './backend.js';
import { drawConnections } from './connection_list.js';
import { drawEnds } from './ends.js';
import { drawOverview } from './charts.js';
import { drawRows } from './row_view.js';
import { drawSummary } from './summary_view.js';
import { drawWhy } from './why.js';
import { Filters, press } from './filters.js';
import { Inspector } from './inspector.js';
import { askedBy, linkTo, placeOf } from './links.js';
import { printRows } from './printing.js';
import { VirtualList } from './virtual_list.js';

const ROW_HEIGHT = 25, COPIED_AT_MOST = 2000000;

export class App {
  /** @param {{ reasons: any, remarks: any }} tables */
  constructor(tables) {
    this.tables = tables;
    /** @type {any} what is open */ this.listed = null;
    /** @type {any} the connection that is shown */ this.it = null;
    /** @type {any} its summary, when it has come */ this.summary = null;
    this.id = this.total = this.place = 0;
    this.selected = this.mate = -1;
    /** @type {any} */ this.row = null;
    this.rules = 'free';
    this.tab = 'sequence';
    this.names = this.example = '';
    /** @type {URLSearchParams | null} what the address asks of the first file */ this.asked = askedBy(location.hash);
    /** @type {() => void} */ this.redrawSummary = () => {};
    this.backend = new Backend(progress => showProgress(progress));
    this.filters = new Filters(() => this.filter());
    this.inspector = new Inspector($('#inspector'), tables, row => this.pickRow(row, true));
    this.list = new VirtualList($('#rows'), { height: ROW_HEIGHT, fetch: (from, to) => this.backend.call('rows', { from, to }),
      draw: drawRows(this, tables.remarks), onPick: place => this.pick(place).then(readInOneColumn) });
  }

  // ---- opening

  /**
   * Opens files. `example` is the page's example that they are, and `pieces` the piece count of its torrent.
   * @param {{ name: string, file: Blob }[]} files @param {string} names @param {string} [example] @param {string} [pieces]
   */
  async open(files, names, example = '', pieces = '') {
    document.body.classList.add('busy');
    try {
      const asked = this.asked?.get('pieces') ?? pieces, count = /^\d{1,9}$/.test(asked) ? asked : '';
      const listed = await this.backend.call('open', { files, pieces: count ? Number(count) : null }), { learned } = listed;
      this.listed = listed;
      if (listed.isNew) this.forget(count, example);
      const judged = 'Indexes and bitfields of its connections are judged now.';
      if (learned) say(`${learned.name ?? 'The torrent'} has ${plural(learned.pieces, 'piece')}. ${judged}`);
      if (listed.connections.length || listed.isNew) {
        if (listed.isNew || !this.names) this.names = names;
        document.body.classList.remove('landing');
        this.drawFile();
        if (listed.connections.length) await this.openAsked(listed.isNew ? 0 : this.id);
        else this.showNone();
        this.asked = null;
      }
    } catch (error) {
      say(error instanceof Error ? error.message : String(error), true);
    } finally {
      document.body.classList.remove('busy');
      $('#progress').hidden = true;
      document.body.dataset.opened = String(Number(document.body.dataset.opened ?? 0) + 1);
    }
  }

  /**
   * Forgets what was typed for the file before: another torrent has another piece count.
   * @param {string} pieces @param {string} example
   */
  forget(pieces, example) {
    for (const input of $$('#options input')) {
      input.value = '';
      input.removeAttribute('aria-invalid');
    }
    $('#pieces').value = pieces;
    this.example = example;
  }

  /**
   * Opens a connection, or for the first file the connection and the row that the address names.
   * @param {number} id
   */
  async openAsked(id) {
    const place = placeOf(this.asked?.get('at') ?? null), found = place
      ? this.listed.connections.findIndex((/** @type {any} */ it) => it.number === place.number) : -1;
    await this.openConnection(Math.min(found >= 0 ? found : id, this.listed.connections.length - 1));
    if (found >= 0) await this.goTo(place);
  }

  /** @param {{ side: number, offset: number }} place */
  async goTo({ side, offset }) {
    const row = await this.backend.call('rowAt', { side, offset });
    if (row >= 0) await this.pickRow(row, true);
  }

  showNone() {
    const { facts } = this.listed;
    this.it = this.summary = null;
    drawConnections($('#connections'), this.listed, -1, () => {});
    this.list.reset(0);
    this.total = 0;
    for (const id of ['#why', '#kinds', '#summary', '#overview', '#count']) $(id).replaceChildren();
    const utp = utpPackets(facts);
    const what = utp ? ` ${plural(utp, 'packet is', 'packets are')} uTP, BitTorrent over UDP, which this page doesn't read. `
      + 'The command does: bt_tool capture FILE.' : '';
    const had = facts.packets ? `The capture has ${plural(facts.packets, 'packet')}; ${grouped(facts.skipped)} of them aren't TCP.${what}`
      : `The file begins as a capture, and has no whole packet${facts.isCut ? ': it ends inside the first one' : ''}.`;
    $('#ends').replaceChildren(h('div.end.missing', h('b', 'No BitTorrent connection over TCP'),
      h('div.dim', had)));
    this.inspector.clear('No TCP connection of this capture has a BitTorrent handshake.');
  }

  drawFile() {
    const { facts, connections } = this.listed, utp = utpPackets(facts);
    const parts = [bytesText(facts.size), facts.packets ? plural(facts.packets, 'packet') : null,
      plural(connections.length, 'connection'),
      utp ? `${plural(utp, 'packet')} of uTP, not read` : null, facts.isCut ? 'ends inside a packet' : null];
    $('#file').replaceChildren(h('b', this.names), h('span.dim', parts.filter(Boolean).join(' · ')));
    document.title = `${this.names} · Peer wire`;
  }

  /** @param {number} id */
  async openConnection(id) {
    this.id = id;
    this.summary = null;
    this.selected = this.mate = -1;
    this.row = null;
    const it = this.it = await this.backend.call('select', { id, rules: this.rules }), onJump = (/** @type {number} */ row) =>
      this.jump(row).then(readInOneColumn);
    this.drawList();
    drawEnds($('#ends'), it, { lines: (side, json) => this.saveLines(side, json), stream: side => this.saveStream(side) });
    drawWhy($('#why'), it, this.tables, onJump);
    this.filters.draw(it.groups);
    $('#guess').hidden = !it.isOrderGuessed;
    await this.filter(false);
    const first = it.events.find((/** @type {any} */ event) => event.kind === 'refused') ??
      it.events.find((/** @type {any} */ event) => event.kind === 'bep');
    if (first) await this.pickRow(first.row, true); else if (this.total) await this.pick(0);
    // the rows are there before the summary is made
    const summary = await this.backend.call('summary');
    if (this.it !== it) return;
    this.summary = summary;
    this.redrawSummary = drawSummary($('#summary'), it, summary, this.tables, onJump);
    if (this.tab === 'summary') requestAnimationFrame(this.redrawSummary);
    this.drawOverview();
  }

  drawList() { if (this.listed) drawConnections($('#connections'), this.listed, this.id, id => this.openConnection(id)); }

  // ---- rows

  /** @param {number} place in the list @param {boolean} [isCentred] */
  async pick(place, isCentred = false) {
    if (!this.total) return;
    const v = Math.min(Math.max(0, place), this.total - 1), row = await this.list.need(v);
    if (!row) return;
    this.place = v;
    this.row = row;
    this.selected = row.r;
    this.mate = row.mate ?? -1;
    this.list.reveal(v, isCentred);
    this.drawOverview();
    const message = await this.backend.call('message', { row: row.r });
    if (this.selected !== row.r) return;
    this.inspector.show(message);
    document.body.dataset.shown = row.r;
    history.replaceState(null, '', linkTo(this.it.number, row,
      { rules: this.rules, pieces: $('#pieces').value, example: this.example }));
  }

  /** @param {number} row @param {boolean} isCentred */
  async pickRow(row, isCentred) { await this.pick(await this.backend.call('placeOf', { row }), isCentred); }

  /**
   * Shows a row of the sequence from elsewhere.
   * @param {number} row
   */
  jump(row) {
    this.showTab('sequence');
    return this.pickRow(row, true);
  }

  /** @param {boolean} [isKept] whether the selected row stays in sight */
  async filter(isKept = true) {
    if (!this.it) return;
    const answer = await this.backend.call('filter', this.filters.asked);
    if (!answer) return;
    this.total = answer.total;
    $('#count').textContent = answer.isAll ? plural(answer.total, 'row')
      : `${grouped(answer.total)} of ${plural(this.it.total, 'row')}`;
    this.list.reset(answer.total);
    $('#norows').hidden = answer.total > 0;
    if (isKept && answer.total && this.selected >= 0) await this.pickRow(this.selected, true);
  }

  /** @param {number} step */
  nextMark(step) {
    const marks = this.it.events.map((/** @type {any} */ event) =>
      event.row).sort((/** @type {number} */ x, /** @type {number} */ y) => (x - y) * step);
    const found = marks.find((/** @type {number} */ row) => (row - this.selected) * step > 0);
    if (found !== undefined) this.pickRow(found, true);
  }

  /** @param {number} step */
  nextConnection(step) {
    const id = this.id + step;
    if (id >= 0 && id < this.listed.connections.length) this.openConnection(id);
  }

  // ---- what is shown of it

  drawOverview() {
    if (!this.summary) return;
    const { binRow } = this.summary, bins = binRow.length - 1;
    let bin = 0;
    while (bin < bins - 1 && binRow[bin + 1] <= this.selected) bin++;
    drawOverview($('#overview'), this.summary, this.selected < 0 ? null : (bin + 0.5) / bins);
  }

  /** @param {string} tab */
  showTab(tab) {
    this.tab = tab;
    document.body.dataset.tab = tab;
    for (const button of $$('#tabs button')) press(button, button.dataset.tab === tab);
    requestAnimationFrame(() => {
      this.drawOverview();
      if (tab === 'summary') this.redrawSummary(); else this.list.show();
    });
  }

  redraw() {
    this.drawOverview();
    if (this.tab === 'summary') this.redrawSummary();
    this.drawList();
  }

  /** @param {string} theme */
  setTheme(theme) {
    document.documentElement.dataset.theme = theme;
    try { localStorage.setItem('theme', theme); } catch { /* a page from a file may have no storage */ }
    this.redraw();
  }

  // ---- rules and options

  /** @param {string} rules */
  async setRules(rules) {
    this.rules = rules;
    for (const button of $$('#rules button')) press(button, button.dataset.rules === rules);
    if (this.it) await this.openConnection(this.id);
  }

  /** @param {string} pieces */
  async setPieces(pieces) {
    $('#pieces').value = pieces;
    await this.setOptions();
  }

  async setOptions() {
    const listed = await this.backend.call('options', optionsTyped());
    if (!this.it) return;
    this.listed = { ...this.listed, ...listed };
    await this.openConnection(this.id);
  }

  // ---- what leaves the page

  /** @param {number} side @param {boolean} json */
  async saveLines(side, json) {
    const lines = await this.backend.call('lines', { id: this.id, side, rules: this.rules, json });
    if (lines.size > COPIED_AT_MOST) save(`${this.it.number}-${'AB'[side]}.${json ? 'jsonl' : 'txt'}`, lines);
    else if (await copyText(await lines.text())) say('The lines are copied.');
  }

  /** @param {number} side */
  async saveStream(side) { save(`${this.it.number}-${'AB'[side]}.bin`, await this.backend.call('stream', { id: this.id, side })); }

  async copyLink() {
    if (await copyText(location.href)) say('The link to this row is copied. It names the row; the file is opened by hand.');
  }

  print() { return printRows(this); }
}

/** On a narrow page the message stands below the rows: goes there. */
function readInOneColumn() {
  if (matchMedia('(max-width: 860px)').matches) $('#inspector').scrollIntoView();
}

/** @param {{ phase: string, part: number }} progress */
function showProgress({ phase, part }) {
  const bar = $('#progress');
  bar.hidden = part >= 1;
  bar.setAttribute('aria-valuenow', String(Math.floor(part * 100)));
  bar.querySelector('i').style.width = `${part * 100}%`;
  bar.querySelector('span').textContent = `${phase} ${Math.floor(part * 100)} %`;
}

/** @param {{ utp: { packets: number }[] }} facts */
const utpPackets = ({ utp }) => utp.reduce((sum, { packets }) => sum + packets, 0);

/** What the user typed of the receivers; null where a field is empty or isn't such a value. */
function optionsTyped() {
  const number = (/** @type {string} */ id, /** @type {number} */ most) => {
    const text = $(id).value.trim(), isRight = text === '' || (/^\d+$/.test(text) && Number(text) <= most);
    $(id).toggleAttribute('aria-invalid', !isRight);
    return text !== '' && isRight ? Number(text) : null;
  };
  const hex = (/** @type {string} */ id, /** @type {RegExp} */ form) => {
    const text = $(id).value.trim().toLowerCase(), isRight = text === '' || form.test(text);
    $(id).toggleAttribute('aria-invalid', !isRight);
    return text !== '' && isRight ? text : null;
  };
  const reserved = hex('#reserved', /^[0-9a-f]{1,16}$/);
  return { pieces: number('#pieces', 4294967295), limit: number('#limit', 1048576) || null, metadataId: number('#metadata', 255),
    reserved: reserved === null ? null : BigInt(`0x${reserved}`), infoHash: hex('#infohash', /^[0-9a-f]{40}$/) };
}
