// Who closed first, after what, and what may be the reason. None of it is proved.
import { CODE } from './items.js';
import { EVENT } from './conversation.js';
import { PieceSet } from './piece_set.js';
import { CHOKED, UNANSWERED, UNASKED } from './remarks.js';

/** @typedef {import('./conversation.js').Conversation} Conversation */

const NEAR_ROWS = 200;          // a remark that far before a close may be its reason

/** @param {import('./types.js').TalkEvent} event */
const isWrong = event => event.kind === 'refused' && event.verdict.reason !== 'EndInside';

/**
 * Of a side the last row before row `upto`: a message, or a refusal that no cut is. -1 if there is none.
 * @param {Conversation} talk @param {number} side @param {number} upto
 */
function lastRow(talk, side, upto) {
  for (let r = upto - 1; r >= 0; r--) {
    const row = talk.rows[r];
    if (talk.sideOf(row) === side && (row < EVENT || isWrong(talk.events[row - EVENT]))) return r;
  }
  return -1;
}

/**
 * The first refusal of a side before row `upto`, by every reader or by the strict rules alone.
 * @param {Conversation} talk @param {number} side @param {number} upto
 */
function refusalRow(talk, side, upto) {
  const found = ['refused', 'bep'].map(kind => talk.events.findIndex((event, k) => event.kind === kind && event.side === side &&
    talk.eventRows[k] < upto));
  const k = found.find(one => one >= 0);
  return k === undefined ? -1 : talk.eventRows[k];
}

/**
 * The last row of a side with one of these remarks, not far before row `upto`, or -1.
 * @param {Conversation} talk @param {number} side @param {number} upto @param {number} flags
 */
function remarkRow(talk, side, upto, flags) {
  for (let r = upto - 1; r >= Math.max(0, upto - NEAR_ROWS); r--) {
    if (talk.matches.flags[r] & flags && talk.sideOf(talk.rows[r]) === side) return r;
  }
  return -1;
}

/**
 * Whether a side said that it has all pieces.
 * @param {Conversation} talk @param {number} side
 */
function isSeed(talk, side) {
  const { items, own, stream } = talk.directions[side], had = new PieceSet(), pieces = own?.pieces ?? null;
  for (let k = 0; k < talk.shown[side].count; k++) {
    if (items.code[k] === CODE.haveAll) return true;
    if (pieces === null) continue;
    if (items.code[k] === CODE.have) had.add(items.a[k]);
    else if (items.code[k] === CODE.bitfield) had.addBits(stream.part(items.start[k] + 5, items.c[k]));
  }
  if (!pieces || pieces > 1 << 20) return false;
  for (let index = 0; index < pieces; index++) if (!had.has(index)) return false;
  return true;
}

/**
 * The greatest index that a side named, or -1.
 * @param {Conversation} talk @param {number} side
 */
function greatestIndex(talk, side) {
  const { items } = talk.directions[side],
    named = new Set([CODE.have, CODE.request, CODE.piece, CODE.suggest, CODE.allowedFast, CODE.reject, CODE.cancel]);
  let most = -1;
  for (let k = 0; k < talk.shown[side].count; k++) if (named.has(items.code[k])) most = Math.max(most, items.a[k]);
  return most;
}

/**
 * The end that closed first, what both had sent by then, and the row that may be the reason, with what kind of row that is. Of a
 * connection that no end closed, the first refusal. Null if there is neither. `hasMetadata`: it carried all of the metadata.
 * @param {Conversation} talk @param {boolean} hasMetadata
 */
export function closingOf(talk, hasMetadata) {
  const k = talk.events.findIndex(event => event.isFirst);
  if (k < 0) {
    const rows = [0, 1].map(side => refusalRow(talk, side, talk.rows.length)).filter(row => row >= 0);
    return rows.length ? { event: null, row: -1, lasts: [-1, -1], kind: 'refusal', cause: Math.min(...rows) } : null;
  }
  const event = talk.events[k], row = talk.eventRows[k], other = 1 - event.side;
  return { event, row, lasts: [0, 1].map(side => lastRow(talk, side, row)), ...causeOf(talk, other, row, hasMetadata) };
}

/** @param {Conversation} talk @param {number} other @param {number} upto @param {boolean} hasMetadata */
function causeOf(talk, other, upto, hasMetadata) {
  const refusal = refusalRow(talk, other, upto), last = lastRow(talk, other, upto);
  if (refusal >= 0) return { kind: 'refusal', cause: refusal };
  if (talk.directions.some(({ gaps }) => gaps.length)) return { kind: 'gap', cause: last };
  const wrong = remarkRow(talk, other, upto, UNASKED | CHOKED);
  if (wrong >= 0) return { kind: 'remark', cause: wrong };
  if (isSeed(talk, 0) && isSeed(talk, 1)) return { kind: 'seeds', cause: last };
  // many clients open a connection for the metadata alone
  if (last >= 0 && hasMetadata && talk.nameOf(talk.rows[last]) === 'metadata-data') return { kind: 'metadata', cause: last };
  const open = remarkRow(talk, other, upto, UNANSWERED);
  if (open >= 0) return { kind: 'remark', cause: open };
  const isCounted = talk.directions[other].own?.pieces != null;
  return { kind: last < 0 ? 'nothing' : 'last', cause: last, most: isCounted ? -1 : greatestIndex(talk, other) };
}
