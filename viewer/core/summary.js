// Counts, rates, charts and the piece map of a conversation. Made of the proved reader's items, and not proved itself.
import { CODE, GROUPS, groupOf } from './items.js';
import { EVENT } from './conversation.js';
import { spreadOf } from './spread.js';

const BINS = 480, MOST_PIECES = 1 << 20, MOST_LATENCIES = 200000;
const NAMES_PIECE = new Set([CODE.have, CODE.piece, CODE.request]);

const binned = () => new Float64Array(BINS);

/** @param {Float64Array} list */
function running(list) {
  let total = 0;
  return list.map(one => total += one);
}

/** What one side did. */
class SideSummary {
  /** @param {number} pieces */
  constructor(pieces) {
    this.groups = GROUPS.map(binned);                   // bytes sent in each bin, by group
    this.blocks = binned();
    this.held = binned().fill(-1);                      // how many pieces it had at the end of each bin
    this.has = new Uint8Array(pieces);
    this.moved = new Float64Array(pieces);              // bytes of each piece that it sent
    this.heldNow = 0;
    /**
     * count and bytes of each code
     * @type {Map<number, [number, number]>}
     */
    this.counts = new Map();
    /** @type {number[]} */
    this.latencies = [];
  }

  /** @param {number} code @param {number} size */
  count(code, size) {
    const count = this.counts.get(code);
    if (!count) this.counts.set(code, [1, size]);
    else {
      count[0]++;
      count[1] += size;
    }
  }

  /** @param {number} index */
  own(index) {
    if (index >= this.has.length || this.has[index]) return;
    this.has[index] = 1;
    this.heldNow++;
  }

  /** How many pieces it had by then. */
  heldByBin() {
    let last = 0;
    return this.held.map(one => last = one < 0 ? last : one);
  }

  sentByBin() { return running(binned().map((_, k) => this.groups.reduce((sum, group) => sum + group[k], 0))); }
}

class Summariser {
  /** @param {import('./conversation.js').Conversation} talk @param {number | null} pieces */
  constructor(talk, pieces) {
    this.talk = talk;
    this.known = pieces !== null && pieces > 0;
    this.pieces = Math.min(this.known ? pieces : this.greatestPiece(), MOST_PIECES);
    const { rows, hasTimes } = talk;
    this.first = rows.length && hasTimes ? talk.timeOf(rows[0]) : 0;
    this.last = this.first;
    if (hasTimes) for (const row of rows.slice(-64)) this.last = Math.max(this.last, talk.timeOf(row) ?? this.last);
    this.span = hasTimes ? Math.max(this.last - this.first, 1e-6) : Math.max(rows.length, 1);
    this.sides = [new SideSummary(this.pieces), new SideSummary(this.pieces)];
    this.binRow = new Uint32Array(BINS + 1).fill(rows.length);
    this.spans = [0, 0];
    let previous = -1;
    for (let r = 0; r < rows.length; r++) {
      const bin = Math.min(BINS - 1, Math.max(0, Math.floor(this.partOf(r) * BINS)));
      if (rows[r] < EVENT) this.take(r, rows[r], bin);
      for (; previous < bin; previous++) this.binRow[previous + 1] = r;
    }
  }

  /** The least number of pieces that fits what was said. */
  greatestPiece() {
    let most = 0;
    for (const { items } of this.talk.directions) for (let k = 0; k < items.count; k++) {
      if (items.code[k] === CODE.bitfield) most = Math.max(most, items.c[k] * 8);
      else if (NAMES_PIECE.has(items.code[k]) && items.a[k] < MOST_PIECES) most = Math.max(most, items.a[k] + 1);
    }
    return most;
  }

  /**
   * Where a row stands between the first and the last, from 0 to 1.
   * @param {number} r
   */
  partOf(r) {
    const { talk } = this, row = talk.rows[r];
    if (!talk.hasTimes) return r / this.span;
    if (row >= EVENT) return ((talk.events[row - EVENT].time ?? this.first) - this.first) / this.span;
    const side = row >>> 31, { items, stream } = talk.directions[side], end = items.endOf(row & 0x7fffffff), { starts } = stream;
    while (this.spans[side] < starts.length - 1 && starts[this.spans[side] + 1] < end) this.spans[side]++;
    return (stream.times[this.spans[side]] - this.first) / this.span;
  }

  /** @param {number} r @param {number} row @param {number} bin */
  take(r, row, bin) {
    const side = this.sides[row >>> 31], k = row & 0x7fffffff, { items } = this.talk.directions[row >>> 31], code = items.code[k];
    const size = items.sizeOf(k);
    side.groups[groupOf(code)][bin] += size;
    side.count(code, size);
    if (code === CODE.piece) {
      side.blocks[bin] += items.c[k];
      if (items.a[k] < this.pieces) side.moved[items.a[k]] += items.c[k];
      this.takeLatency(r, row, side);
    } else if (code === CODE.have || code === CODE.haveAll || code === CODE.bitfield) this.takeHave(side, row, code, bin);
  }

  /** @param {SideSummary} side @param {number} row @param {number} code @param {number} bin */
  takeHave(side, row, code, bin) {
    const { items, stream } = this.talk.directions[row >>> 31], k = row & 0x7fffffff;
    if (code === CODE.have) side.own(items.a[k]);
    else if (code === CODE.haveAll) {
      side.has.fill(1);
      side.heldNow = this.pieces;
    } else {
      const bits = stream.part(items.start[k] + 5, Math.min(items.c[k], MOST_PIECES / 8));
      for (let index = 0; index < Math.min(this.pieces,
        bits.length * 8); index++) if (bits[index >> 3] & 128 >> (index & 7)) side.own(index);
    }
    side.held[bin] = side.heldNow;
  }

  /** @param {number} r @param {number} row @param {SideSummary} side */
  takeLatency(r, row, side) {
    const { talk } = this, asked = talk.matches.mate[r];
    if (!asked || !talk.hasTimes || side.latencies.length >= MOST_LATENCIES) return;
    side.latencies.push(talk.timeOf(row) - talk.timeOf(talk.rows[asked - 1]));
  }

  marks() {
    const { talk } = this;
    return talk.events.map(({ kind, side, time }, k) => {
      const row = talk.eventRows[k], part = talk.hasTimes ? ((time ?? this.first) - this.first) / this.span : row / this.span;
      return { kind, side, row, part: Math.min(1, Math.max(0, part)) };
    });
  }
}

/** @param {import('./conversation.js').Conversation} talk @param {number | null} pieces the piece count, if it is known */
export function summarise(talk, pieces) {
  const made = new Summariser(talk, pieces), { first, last, span, binRow, sides, known } = made;
  return {
    first, last, span, binRow, known, hasTimes: talk.hasTimes, pieces: made.pieces, marks: made.marks(),
    bins: sides.map(side => side.groups),
    counts: sides.map(side => [...side.counts].sort((x, y) => y[1][1] - x[1][1])),
    blocks: sides.map(side => running(side.blocks)),
    haves: sides.map(side => side.heldByBin()),
    sent: sides.map(side => side.sentByBin()),
    has: sides.map(side => side.has),
    moved: sides.map(side => side.moved),
    held: sides.map(side => side.heldNow),
    latencies: sides.map(side => spreadOf(side.latencies)),
    deepest: talk.matches.sides.map(side => side.deepest),
    open: talk.matches.sides.map(side => side.asked.size),
  };
}
