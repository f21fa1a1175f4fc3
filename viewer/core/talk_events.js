// The rows of a conversation that aren't messages: key exchanges, refusals, cut streams, gaps, closes.

/** @typedef {import('./direction.js').Direction} Direction @typedef {import('./traffic.js').Connection} Connection */
/** @typedef {import('./types.js').TalkEvent} TalkEvent @typedef {import('./types.js').Verdict} Verdict */

// of one place, what comes first
const RANK = { exchange: 0, bep: 1, refused: 2, cut: 2, gap: 3, close: 4 };
/** What the reading of a direction ends with: what its sender says later isn't known. */
export const STOPS = new Set(['refused', 'cut', 'gap']);

/**
 * The side that closed first, or -1.
 * @param {Connection | null} connection
 */
export function firstClose(connection) {
  const [a, b] = connection ? connection.halves.map(half => half.closed) : [];
  if (!a || !b) return a ? 0 : b ? 1 : -1;
  return (a.time - b.time || a.packet - b.packet) <= 0 ? 0 : 1;
}

/**
 * Why a direction may end inside a message for a reason that isn't its sender's, or null.
 * @param {Direction[]} directions @param {Connection | null} connection @param {number} side
 */
function whyCut(directions, connection, side) {
  if (directions[side].gaps.length) return 'the gap';
  if (!connection) return 'the end of the file';
  const first = firstClose(connection);
  return first < 0 ? "the capture's end" : first === side ? null : 'the close of the other end';
}

/**
 * Where and when a place of a stream was readable.
 * @param {Direction} direction @param {number} place @param {Connection | null} connection
 */
function arrivalOf({ stream }, place, connection) {
  const k = stream.starts.length ? stream.spanOf(Math.min(place, stream.length - 1)) : -1;
  const time = !stream.times ? null : k >= 0 ? stream.times[k] : connection?.start ?? 0;
  return { place, time, packet: k >= 0 && stream.packets ? stream.packets[k] : null };
}

/**
 * Whether the strict rules refuse what the others accept, or refuse it sooner.
 * @param {Direction} direction
 */
function differs({ free, bep }) { return bep !== null && !bep.ok && (free.ok || free.at !== bep.at || free.reason !== bep.reason); }

/**
 * The events of a side. Where only the strict rules refuse, that is an event too, and the rows go on.
 * @param {Direction[]} directions @param {Connection | null} connection @param {number} side @param {string} rules
 * @returns {TalkEvent[]}
 */
function eventsOfSide(directions, connection, side, rules) {
  const direction = directions[side], { verdict } = direction.shown(rules), closed = connection?.halves[side].closed;
  /** @type {TalkEvent[]} */
  const found = [];
  const put = (/** @type {keyof typeof RANK} */ kind, /** @type {any} */ more) =>
    found.push({ side, kind, rank: RANK[kind], ...more });
  if (direction.skipped > 0) put('exchange', { size: direction.skipped, ...arrivalOf(direction, 0, connection) });
  if (verdict && !verdict.ok) {
    const cut = verdict.reason === 'EndInside' ? whyCut(directions, connection, side) : null;
    put(cut ? 'cut' : 'refused', { verdict, cut, rules, ...arrivalOf(direction, verdict.at, connection) });
  }
  if (rules === 'free' && differs(direction)) put('bep',
    { verdict: direction.bep, rules: 'bep', ...arrivalOf(direction, direction.bep.at, connection) });
  if (direction.gaps.length) {
    const [gap] = direction.gaps;
    put('gap', { size: gap.size, more: direction.gaps.length - 1, ...arrivalOf(direction, Math.max(gap.at - 1, 0), connection),
      place: gap.at });
  }
  if (closed) put('close', { word: closed.kind, time: closed.time, packet: closed.packet, place: direction.stream.length });
  return found;
}

/** @param {Direction[]} directions @param {Connection | null} connection @param {string} rules @returns {TalkEvent[]} */
export function eventsOf(directions, connection, rules) {
  const found = [0, 1].flatMap(side => eventsOfSide(directions, connection, side, rules)), first = firstClose(connection);
  for (const event of found) event.isFirst = event.kind === 'close' && event.side === first;
  return found;
}
