// What is open: files, their connections, and the conversation that the page shows. It answers the page's questions.
import { isCapture } from './capture_file.js';
import { closingOf } from './closing.js';
import { Conversation } from './conversation.js';
import { describe } from './describe.js';
import { Direction } from './direction.js';
import { metadataOf, torrentOf } from './metadata.js';
import { verdictLine } from './proved_reader.js';
import { pairsOfRaw } from './raw_pairs.js';
import { REMARKS } from './remarks.js';
import { Rows } from './rows.js';
import { jsonOf, lineOf, verdictJson } from './show_lines.js';
import { summarise } from './summary.js';
import { Traffic } from './traffic.js';

/**
 * @typedef {import('./file_bytes.js').FileBytes} FileBytes
 * @typedef {{ name: string, bytes: FileBytes }} OpenFile
 * @typedef {{ number: number, connection: import('./traffic.js').Connection | null, directions: Direction[], names: string[],
 *  isRaw: boolean, metadata?: import('./types.js').Info | null }} Pair two directions of a connection
 */

/** @type {import('./types.js').Options} */
const NO_OPTIONS = { pieces: null, limit: null, reserved: null, metadataId: null, infoHash: null };
const MOST_TORRENT = 64 << 20;
const LINES_AT_ONCE = 1 << 15, BYTES_AT_ONCE = 16 << 20;
const ROWS_BETWEEN = 1 << 16;   // rows that a search looks at before it lets another question in

export class Session {
  /** @param {import('./proved_reader.js').ProvedReader} reader @param {(phase: string, part: number) => void} progress */
  constructor(reader, progress) {
    this.reader = reader;
    this.progress = progress;
    /** @type {Pair[]} */ this.pairs = [];
    /** @type {Map<string, import('./types.js').Info>} */ this.torrents = new Map();
    /** @type {import('./types.js').Options} */
    this.options = NO_OPTIONS;
    this.facts = this.emptyFacts(0);
    /** @type {Pair | null} */ this.current = null;
    /** @type {Conversation | null} */ this.talk = null;
    /** @type {Rows | null} */ this.rowMaker = null;
    /** @type {Uint32Array | null} */ this.view = null;         // the rows that the filter shows; null: all
    this.search = 0;
  }

  /** @param {number} size */
  emptyFacts(size) {
    /** @type {{ number: number, ends: string[], bytes: number[] }[]} */ const others = [];
    /** @type {{ ends: string[], packets: number }[]} */ const utp = [];
    return { size, packets: 0, skipped: 0, isCut: false, isRaw: false, others, utp };
  }

  /**
   * Opens files in place of what is open, with this piece count and without the options that were typed for what was open. A .torrent
   * gives piece counts to what is open.
   * @param {OpenFile[]} files @param {number | null} [pieces]
   */
  open(files, pieces = null) {
    /** @type {OpenFile[]} */ const captures = [], raw = [];
    let learned = null;
    for (const file of files) {
      if (!file.bytes.length) throw new Error(`${file.name} is empty`);
      const head = file.bytes.part(0, 16), torrent = head[0] === 0x64 && file.bytes.length <= MOST_TORRENT
        ? torrentOf(file.bytes.part(0, MOST_TORRENT)) : null;
      if (isCapture(head)) captures.push(file);
      else if (torrent?.pieces) this.torrents.set((learned = torrent).infoHash, torrent);
      else raw.push(file);
    }
    const isNew = captures.length + raw.length > 0;
    if (isNew) {
      this.replace(captures, raw);
      this.options = { ...NO_OPTIONS, pieces };
      this.current = this.talk = null;
    }
    this.judgeAll();
    return { ...this.list(), learned, isNew };
  }

  /**
   * Takes these files in place of what is open. If one can't be read, what is open stays.
   * @param {OpenFile[]} captures @param {OpenFile[]} raw
   */
  replace(captures, raw) {
    const { pairs, facts } = this;
    this.pairs = [];
    this.facts = this.emptyFacts([...captures, ...raw].reduce((sum, { bytes }) => sum + bytes.length, 0));
    this.facts.isRaw = !captures.length;
    try {
      for (const capture of captures) this.openCapture(capture);
      for (const pair of pairsOfRaw(raw)) this.pairs.push({ ...pair, number: this.pairs.length });
    } catch (error) {
      Object.assign(this, { pairs, facts });
      throw error;
    }
  }

  /** @param {OpenFile} file */
  openCapture({ bytes }) {
    const traffic = new Traffic(bytes, part => this.progress('putting the streams together', part)), { facts } = this;
    facts.packets += traffic.packets;
    facts.skipped += traffic.skipped;
    facts.isCut ||= traffic.isCut;
    facts.utp.push(...traffic.utp.list());
    traffic.connections.forEach((connection, number) => {
      const directions = connection.halves.map(half => new Direction(half.stream(), half.gaps(), half));
      if (directions.some(it => it.isBegun)) this.pairs.push({ number, connection, directions, names: connection.ends,
        isRaw: false });
      else if (connection.halves.some(half => half.places.length)) facts.others.push({ number, ends: connection.ends,
        bytes: directions.map(it => it.sent) });
    });
  }

  judgeAll() {
    this.pairs.forEach((pair, k) => {
      this.progress('reading the messages', k / this.pairs.length);
      const { directions } = pair, isPair = directions.every(it => it.stream.length > 0);
      if (pair.metadata === undefined) for (const it of directions) it.hearSender(this.reader, isPair);
      directions.forEach((it, side) => {
        if (pair.isRaw && !it.stream.length) return;
        const pieces = this.options.pieces ?? this.torrents.get(it.sender.infoHash)?.pieces ?? null;
        it.judge(this.reader, directions[1 - side], { ...this.options, pieces, isRaw: pair.isRaw });
      });
      pair.metadata ??= metadataOf(directions);
    });
    this.progress('reading the messages', 1);
  }

  /** @param {import('./types.js').Options} given */
  setOptions(given) {
    this.options = { ...this.options, ...given };
    this.judgeAll();
    return this.list();
  }

  list() { return { connections: this.pairs.map((pair, id) => describe(pair, id, this.torrents)), facts: this.facts }; }

  /**
   * Shows a connection under a rule set.
   * @param {{ id: number, rules: string }} given
   */
  select({ id, rules }) {
    const pair = this.current = this.pairs[id], talk = this.talk = new Conversation(pair.directions, pair.connection, rules);
    const maker = this.rowMaker = new Rows(talk);
    this.view = null;
    this.search++;
    const closing = closingOf(talk, pair.metadata !== null), remarks = talk.matches.counts();
    const rowOf = (/** @type {number} */ r) => r < 0 ? null : maker.row(r);
    return {
      ...describe(pair, id, this.torrents), groups: talk.groupCounts(), rules, total: talk.rows.length, hasTimes: talk.hasTimes,
      events: talk.events.map((event, k) => ({ ...event, row: talk.eventRows[k] })),
      remarks: remarks.map(side => side.map(({ count, row }, k) => ({ name: REMARKS[k], count, row: rowOf(row) }))),
      closing: closing && { ...closing, lasts: closing.lasts.map(rowOf), cause: closing.cause < 0 ? null
        : maker.message(closing.cause) },
      isReplaced: pair.connection?.isReplaced ?? false,
      isOrderGuessed: !talk.hasTimes && pair.directions.every(it => it.isBegun),
    };
  }

  /** The counts and charts of the connection that is shown. */
  summary() {
    const { directions, metadata } = this.current, known = this.torrents.get(directions.find(it => it.isWhole)?.sender.infoHash) ??
      metadata;
    return summarise(this.talk, directions.find(it => it.own?.pieces != null)?.own.pieces ?? known?.pieces ?? null);
  }

  /**
   * Chooses which rows are shown: of these groups, of this side (-1: both), with this text in their line, with a remark.
   * Null if another question came meanwhile.
   * @param {{ groups: boolean[], side: number, text: string, isRemarked: boolean }} given
   */
  async filter({ groups, side, text, isRemarked }) {
    const mine = ++this.search, { talk, rowMaker } = this, { rows, matches } = talk, wanted = text.trim().toLowerCase();
    this.view = null;
    if (!wanted && side < 0 && !isRemarked && groups.every(Boolean)) return { total: rows.length, isAll: true };
    const found = [];
    for (let r = 0; r < rows.length; r++) {
      if (wanted && r % ROWS_BETWEEN === ROWS_BETWEEN - 1) {
        this.progress('searching', r / rows.length);
        await new Promise(next => setTimeout(next));
        if (mine !== this.search) return null;
      }
      const isShown = groups[talk.groupOf(rows[r])] && (side < 0 || talk.sideOf(rows[r]) === side) &&
        (!isRemarked || matches.flags[r] !== 0);
      if (isShown && (!wanted || rowMaker.words(rows[r]).toLowerCase().includes(wanted))) found.push(r);
    }
    this.view = Uint32Array.from(found);
    this.progress('searching', 1);
    return { total: found.length, isAll: false };
  }

  /** @param {{ from: number, to: number }} given places in the view */
  rows({ from, to }) {
    const made = [], total = this.view ? this.view.length : this.talk.rows.length;
    for (let place = from; place < Math.min(to, total); place++) made.push(this.rowMaker.row(this.view ? this.view[place] : place));
    return made;
  }

  /**
   * The place in the view of the row, or of the next one that is shown.
   * @param {{ row: number }} given
   */
  placeOf({ row }) {
    if (!this.view) return row;
    let low = 0, high = this.view.length;
    while (low < high) {
      const middle = (low + high) >> 1;
      if (this.view[middle] < row) low = middle + 1; else high = middle;
    }
    return Math.min(low, this.view.length - 1);
  }

  /** @param {{ side: number, offset: number }} given */
  rowAt({ side, offset }) { return this.talk.rowAt(side, offset); }

  /** @param {{ row: number }} given */
  message({ row }) { return this.rowMaker.message(row); }

  /**
   * All lines of a direction as `show` prints them, or as JSON.
   * @param {{ id: number, side: number, rules: string, json: boolean }} given
   */
  lines({ id, side, rules, json }) {
    const direction = this.pairs[id].directions[side], { count, verdict } = direction.shown(rules), make = json ? jsonOf : lineOf,
      parts = [];
    for (let from = 0; from < count; from += LINES_AT_ONCE) {
      const lines = [];
      for (let k = from; k < Math.min(from + LINES_AT_ONCE, count); k++) lines.push(make(direction.items, k, direction.read), '\n');
      parts.push(lines.join(''));
    }
    parts.push(`${json ? verdictJson(verdict) : verdictLine(verdict)}\n`);
    return new Blob(parts, { type: 'text/plain' });
  }

  /**
   * The bytes of a direction, from its handshake on.
   * @param {{ id: number, side: number }} given
   */
  stream({ id, side }) {
    const { stream } = this.pairs[id].directions[side], parts = [];
    for (let at = 0; at < stream.length; at += BYTES_AT_ONCE) parts.push(new Blob([stream.part(at, BYTES_AT_ONCE)]));
    return new Blob(parts);
  }
}
