// The order of a conversation's rows: by time where packets have times, and else as requests and answers ask for.
import { CODE } from './items.js';
import { PairTable } from './pair_table.js';

/** @typedef {import('./direction.js').Direction} Direction @typedef {import('./types.js').TalkEvent} TalkEvent */

// A row is a number: side in bit 31, the item below; or an event, from EVENT on.
export const EVENT = 0xfff00000, SIDE = 0x80000000;

/** @param {number} code */
export const isAnswer = code => code === CODE.piece || code === CODE.reject || code === CODE.metadataData ||
  code === CODE.metadataReject;
/** @param {number} code */
export const isRequest = code => code === CODE.request || code === CODE.metadataRequest;

/** What one side asks for: blocks of pieces, and blocks of the metadata. */
export class Asked {
  constructor() {
    this.blocks = new PairTable();
    this.metadata = new PairTable();
  }
  /** @param {number} code @param {number} index @param {number} begin */
  get(code, index, begin) { return code < 512 ? this.blocks.get(index, begin) : this.metadata.get(index, 0); }
  /** @param {number} code @param {number} index @param {number} begin @param {number} row */
  set(code, index, begin, row) { if (code < 512) this.blocks.set(index, begin, row); else this.metadata.set(index, 0, row); }
  /** @param {number} code @param {number} index @param {number} begin */
  delete(code, index, begin) { if (code < 512) this.blocks.delete(index, begin); else this.metadata.delete(index, 0); }
  get size() { return this.blocks.size + this.metadata.size; }
}

/** What both orders have: how far each side is. */
class Order {
  /** @param {Direction[]} directions @param {number[]} counts @param {{ event: TalkEvent, k: number }[][]} queues */
  constructor(directions, counts, queues) {
    this.directions = directions;
    this.counts = counts;
    this.queues = queues;
    this.next = [0, 0];         // the next item of each side
    this.done = [0, 0];         // how many of its events are rows
  }

  /** @param {number} side */
  event(side) { return this.queues[side][this.done[side]]?.event; }

  /**
   * Whether an event that isn't a close stands before the next item of its side.
   * @param {number} side @param {TalkEvent} event
   */
  isDue(side, event) {
    const { items } = this.directions[side], k = this.next[side];
    return k >= this.counts[side] || items.start[k] >= event.place || (event.kind !== 'gap' && items.endOf(k) > event.place);
  }

  /**
   * The side of the next row, and 2 if it is an event.
   * @returns {number}
   */
  choose() { throw new Error('no order'); }

  /** The side of which only items are left, or -1. */
  onlySide() {
    const { next, counts, done, queues } = this;
    if (done[0] < queues[0].length || done[1] < queues[1].length) return -1;
    return next[1] >= counts[1] ? 0 : next[0] >= counts[0] ? 1 : -1;
  }

  /** The rows, and the row of each event. */
  rows() {
    const { next, done, queues, counts } = this,
      rows = new Uint32Array(counts[0] + counts[1] + queues[0].length + queues[1].length);
    /** @type {number[]} */
    const eventRows = [];
    let r = 0;
    while (r < rows.length && this.onlySide() < 0) {
      const chosen = this.choose(), side = chosen & 1;
      if (chosen & 2) {
        const { k } = queues[side][done[side]++];
        eventRows[k] = r;
        rows[r++] = EVENT + k;
      } else rows[r++] = (side ? SIDE : 0) + next[side]++;
    }
    const last = this.onlySide();
    for (let row = (last ? SIDE : 0) + next[Math.max(last, 0)]; r < rows.length; r++, row++) rows[r] = row;
    return { rows, eventRows };
  }
}

/** What comes first by time, and of one time by packet. An item stands where its last byte does. */
class TimeOrder extends Order {
  /** @param {Direction[]} directions @param {number[]} counts @param {{ event: TalkEvent, k: number }[][]} queues */
  constructor(directions, counts, queues) {
    super(directions, counts, queues);
    this.time = [0, 0];
    this.packet = [0, 0];
    this.isEvent = [false, false];
    this.spans = [0, 0];
    this.look(0);
    this.look(1);
    this.last = -1;
  }

  /**
   * Finds what is next of a side.
   * @param {number} side
   */
  look(side) {
    const event = this.event(side), k = this.next[side], hasItem = k < this.counts[side];
    this.isEvent[side] = !hasItem;
    if (hasItem) {
      const { stream, items } = this.directions[side], end = items.endOf(k), { starts } = stream;
      while (this.spans[side] < starts.length - 1 && starts[this.spans[side] + 1] < end) this.spans[side]++;
      this.time[side] = stream.times[this.spans[side]];
      this.packet[side] = stream.packets[this.spans[side]];
      if (event) this.isEvent[side] = event.kind === 'close' ? this.isBefore(event, side) : this.isDue(side, event);
    } else if (!event) this.time[side] = this.packet[side] = Infinity;
    if (event && this.isEvent[side]) {
      this.time[side] = event.time ?? 0;
      this.packet[side] = event.packet ?? 0;
    }
  }

  /** @param {TalkEvent} event @param {number} side */
  isBefore(event, side) { return event.time < this.time[side] ||
    (event.time === this.time[side] && event.packet < this.packet[side]); }

  choose() {
    if (this.last >= 0) this.look(this.last);
    const { time, packet } = this;
    this.last = time[0] < time[1] || (time[0] === time[1] && packet[0] <= packet[1]) ? 0 : 1;
    return this.last + (this.isEvent[this.last] ? 2 : 0);
  }
}

/** One side goes on until it has asked, or has to wait for what it answers. */
class CauseOrder extends Order {
  /** @param {Direction[]} directions @param {number[]} counts @param {{ event: TalkEvent, k: number }[][]} queues */
  constructor(directions, counts, queues) {
    super(directions, counts, queues);
    this.needs = [this.needsOf(0), this.needsOf(1)];
    this.turn = 0;
    this.hasAsked = false;
  }

  /**
   * For each item of a side how many of the other side's items have to come before it: an answer comes after its request.
   * @param {number} side
   */
  needsOf(side) {
    const needs = new Uint32Array(this.counts[side]), asked = new Asked();
    const mine = this.directions[side].items, other = this.directions[1 - side].items;
    if (!needs.length) return needs;
    for (let k = 0; k < this.counts[1 - side]; k++) {
      const code = other.code[k];
      if (isRequest(code) && asked.get(code, other.a[k], other.b[k]) < 0) asked.set(code, other.a[k], other.b[k], k);
    }
    if (!asked.size) return needs;
    for (let k = 0; k < needs.length; k++) if (isAnswer(mine.code[k])) needs[k] = asked.get(mine.code[k], mine.a[k], mine.b[k]) + 1;
    return needs;
  }

  /** @param {number} side */
  isOver(side) { return this.next[side] >= this.counts[side]; }

  /** @param {number} side */
  waits(side) { return this.isOver(side) || (!this.isOver(1 - side) && this.needs[side][this.next[side]] > this.next[1 - side]); }

  /** @param {number} side */
  asks(side) { return !this.isOver(side) && isRequest(this.directions[side].items.code[this.next[side]]); }

  choose() {
    const { turn, next } = this;
    for (const side of [turn, 1 - turn]) {
      const event = this.event(side);
      if (event && this.isDue(side, event) && (side === turn || this.isOver(side))) return side + 2;
    }
    const isDone = this.waits(turn) || (this.hasAsked && !this.asks(turn)) || (next[turn] === 1 && next[1 - turn] === 0);
    if (isDone && (!this.waits(1 - turn) || this.isOver(turn))) this.turn = 1 - turn;
    this.hasAsked = this.asks(this.turn);
    return this.turn;
  }
}

/** @param {Direction[]} directions @param {number[]} counts @param {TalkEvent[]} events @param {boolean} hasTimes */
export function orderedRows(directions, counts, events, hasTimes) {
  const queues = [0, 1].map(side => events.map((event, k) => ({ event, k })).filter(({ event }) => event.side === side)
    .sort((x, y) => x.event.place - y.event.place || x.event.rank - y.event.rank));
  return new (hasTimes ? TimeOrder : CauseOrder)(directions, counts, queues).rows();
}
