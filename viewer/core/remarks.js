// What the two directions show together: which answer belongs to which request, who chokes whom, and remarks on single rows.
// tools/remarks.json has the words of each remark, and `bt_tool capture` makes the same ones.
import { CODE } from './items.js';
import { PieceSet } from './piece_set.js';
import { Asked, EVENT, isAnswer, isRequest } from './row_order.js';
import { STOPS, firstClose } from './talk_events.js';

/** The remarks; a row's flags have a bit for each. */
export const REMARKS = ['unasked', 'choked', 'again', 'unanswered', 'elsewhere'];
export const UNASKED = 1, CHOKED = 2, AGAIN = 4, UNANSWERED = 8, ELSEWHERE = 16;
const FAST = 4n;
const MOST_BITFIELD = 1 << 20;

/** What is known of one side while the rows go by. */
class Side {
  constructor() {
    this.asked = new Asked();           // its open requests, by row
    this.isChoking = true;
    this.isInterested = false;
    this.isStopped = false;             // what it says later isn't known
    this.allowed = new PieceSet();      // what it may ask for while it is choked
    this.came = new PieceSet();         // pieces of which it was sent a block
    this.told = new PieceSet();         // pieces that it said it has
    this.pipeline = 0;
    this.deepest = 0;                   // how many requests were open at once
    this.lastAnswered = -1;             // the latest of its requests that got an answer
    this.lastChoke = -1;
    this.lastUnchoke = -1;              // the row with which it last stopped choking
    this.cancelled = new Set();         // the rows of its requests that it cancelled
    // from these rows on the state is: bit 0, it chokes the other; bit 1, it is interested
    this.stateRows = [0];
    this.states = [1];
  }

  /** @param {number} row @param {number} code */
  change(row, code) {
    const before = this.states[this.states.length - 1];
    if (code === CODE.unchoke && this.isChoking) this.lastUnchoke = row;
    if (code < 2) this.isChoking = code === CODE.choke; else this.isInterested = code === CODE.interested;
    if (code === CODE.choke) this.lastChoke = row;
    const state = (this.isChoking ? 1 : 0) | (this.isInterested ? 2 : 0);
    if (state === before) return;
    this.stateRows.push(row);
    this.states.push(state);
  }
}

export class Matcher {
  /** @param {import('./conversation.js').Conversation} talk */
  constructor(talk) {
    const { directions, rows, events, shown, hasTimes, connection } = talk;
    this.talk = talk;
    this.mate = new Uint32Array(rows.length);           // the row of the mate and 1; 0: none
    this.flags = new Uint8Array(rows.length);
    this.sides = [new Side(), new Side()];
    // with one direction alone nothing can be matched
    this.isMatched = shown.every(({ count }) => count > 0);
    // with the Fast Extension of both sides each request is answered
    this.isFast = directions.every(it => it.isWhole && it.sender.reserved & FAST);
    // without times nobody knows what came before the place from which on a direction isn't read
    for (const event of events) if (!hasTimes && STOPS.has(event.kind)) this.sides[event.side].isStopped = true;
    for (let r = 0; r < rows.length; r++) this.take(r, rows[r]);
    if (this.isFast) this.markUnanswered(firstClose(connection));
  }

  /**
   * Whether what a side said up to here is known.
   * @param {number} side
   */
  isKnown(side) { return this.talk.directions[side].isWhole && !this.sides[side].isStopped; }

  /** @param {number} r @param {number} row */
  take(r, row) {
    if (row >= EVENT) {
      const event = this.talk.events[row - EVENT];
      if (STOPS.has(event.kind)) this.sides[event.side].isStopped = true;
      return;
    }
    const side = row >>> 31, k = row & 0x7fffffff, { items } = this.talk.directions[side], code = items.code[k];
    if (code < 4) this.sides[side].change(r, code);
    else if (code === CODE.have || code === CODE.haveAll || code === CODE.bitfield) this.takeHave(r, side, k, code);
    else if (code === CODE.allowedFast) this.sides[1 - side].allowed.add(items.a[k]);
    else if (!this.isMatched) return;
    else if (isRequest(code)) this.takeRequest(r, side, k, code);
    else if (isAnswer(code)) this.takeAnswer(r, side, k, code);
    else if (code === CODE.cancel) {
      const asked = this.sides[side].asked.get(CODE.request, items.a[k], items.b[k]);
      if (asked >= 0) this.mate[r] = asked + 1;
      if (asked >= 0 && this.lengthAsked(asked) === items.c[k]) this.sides[side].cancelled.add(asked);
    }
  }

  /**
   * Whether the other side may have dropped a request: without the Fast Extension a choke rejects all that are open, and a cancel its own.
   * @param {number} asked the row of the request @param {number} side
   */
  isDropped(asked, side) {
    const { isChoking, lastUnchoke } = this.sides[1 - side];
    return !this.isFast && (isChoking || asked < lastUnchoke || this.sides[side].cancelled.has(asked));
  }

  /** @param {number} r @param {number} side @param {number} k @param {number} code */
  takeHave(r, side, k, code) {
    const { hasTimes, directions } = this.talk, { items, stream } = directions[side], { told, came } = this.sides[side];
    if (!hasTimes || !this.isKnown(1 - side)) return;
    if (code === CODE.haveAll) told.addAll();
    else if (code === CODE.bitfield) told.addBits(stream.part(items.start[k] + 5, Math.min(items.c[k], MOST_BITFIELD)));
    else {
      if (!came.has(items.a[k]) && !told.has(items.a[k])) this.flags[r] |= ELSEWHERE;
      told.add(items.a[k]);
    }
  }

  /** @param {number} r @param {number} side @param {number} k @param {number} code */
  takeRequest(r, side, k, code) {
    const mine = this.sides[side], other = this.sides[1 - side], { hasTimes, directions } = this.talk,
      { a, b } = directions[side].items;
    const asked = mine.asked.get(code, a[k], b[k]), isOpen = asked >= 0 && !(code === CODE.request && this.isDropped(asked, side));
    if (hasTimes && isOpen && this.isKnown(1 - side)) this.flags[r] |= AGAIN;
    mine.asked.set(code, a[k], b[k], r);
    if (code !== CODE.request) return;
    if (hasTimes && other.isChoking && !mine.allowed.has(a[k]) && !other.isStopped) this.flags[r] |= CHOKED;
    mine.deepest = Math.max(mine.deepest, ++mine.pipeline);
  }

  /** @param {number} r @param {number} side @param {number} k @param {number} code */
  takeAnswer(r, side, k, code) {
    const asker = this.sides[1 - side], { a, b, c } = this.talk.directions[side].items, asked = asker.asked.get(code, a[k], b[k]);
    const isBlock = code === CODE.piece || code === CODE.reject;
    if (code === CODE.piece) asker.came.add(a[k]);
    if (asked < 0 || (isBlock && this.lengthAsked(asked) !== c[k])) {
      if (this.isKnown(1 - side)) this.flags[r] |= UNASKED;
      return;
    }
    this.mate[r] = asked + 1;
    this.mate[asked] = r + 1;
    asker.asked.delete(code, a[k], b[k]);
    if (!isBlock) return;
    asker.pipeline = Math.max(0, asker.pipeline - 1);
    asker.lastAnswered = Math.max(asker.lastAnswered, asked);
  }

  /** @param {number} r the row of a request */
  lengthAsked(r) {
    const row = this.talk.rows[r];
    return this.talk.directions[row >>> 31].items.c[row & 0x7fffffff];
  }

  /**
   * With the Fast Extension a request gets a block or a reject (BEP 6). Those that got none count if the other end did what comes
   * later: it answered a later request, choked, or closed first.
   * @param {number} closer
   */
  markUnanswered(closer) {
    this.sides.forEach(({ asked, lastAnswered }, side) => {
      if (!this.isKnown(1 - side)) return;
      const lastChoke = this.talk.hasTimes ? this.sides[1 - side].lastChoke : -1;
      asked.blocks.each(r => {
        if (closer === 1 - side || lastAnswered > r || lastChoke > r) this.flags[r] |= UNANSWERED;
      });
    });
  }

  /**
   * The state of a side at a row.
   * @param {number} side @param {number} r
   */
  stateAt(side, r) {
    const { stateRows, states } = this.sides[side];
    let low = 0, high = stateRows.length - 1;
    while (low < high) {
      const middle = (low + high + 1) >> 1;
      if (stateRows[middle] <= r) low = middle; else high = middle - 1;
    }
    return states[low];
  }

  /** For each side and each remark: how many there are, and the row of the first. */
  counts() {
    const found = [0, 1].map(() => REMARKS.map(() => ({ count: 0, row: -1 })));
    this.flags.forEach((flags, r) => {
      for (let bit = 0; flags >> bit; bit++) {
        if (!(flags >> bit & 1)) continue;
        const one = found[this.talk.rows[r] >>> 31][bit];
        if (!one.count++) one.row = r;
      }
    });
    return found;
  }
}
