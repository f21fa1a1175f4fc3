// Both directions of a connection in one order. What the proved reader doesn't say: this is made of its items, and isn't proved.
import { groupOf, nameOf } from './items.js';
import { Matcher } from './remarks.js';
import { EVENT, orderedRows } from './row_order.js';
import { eventsOf } from './talk_events.js';

export { EVENT };
export const EVENT_GROUP = 8;

export class Conversation {
  /**
   * @param {import('./direction.js').Direction[]} directions
   * @param {import('./traffic.js').Connection | null} connection
   * @param {string} rules `free` or `bep`
   */
  constructor(directions, connection, rules) {
    this.directions = directions;
    this.connection = connection;
    this.rules = rules;
    this.shown = directions.map(direction => direction.shown(rules));
    this.hasTimes = directions.some(direction => direction.stream.times !== null);
    this.events = eventsOf(directions, connection, rules);
    const { rows, eventRows } = orderedRows(directions, this.shown.map(({ count }) => count), this.events, this.hasTimes);
    this.rows = rows;
    this.eventRows = eventRows;
    this.matches = new Matcher(this);
  }

  /** @param {number} row */
  spanOf(row) {
    const direction = this.directions[row >>> 31];
    return direction.arrival(direction.items.endOf(row & 0x7fffffff));
  }

  /** @param {number} row @returns {number | null} */
  timeOf(row) {
    if (row >= EVENT) return this.events[row - EVENT].time;
    const { times } = this.directions[row >>> 31].stream;
    return times ? times[this.spanOf(row)] : null;
  }

  /** @param {number} row @returns {number | null} */
  packetOf(row) {
    if (row >= EVENT) return this.events[row - EVENT].packet;
    const { packets } = this.directions[row >>> 31].stream;
    return packets ? packets[this.spanOf(row)] : null;
  }

  /** @param {number} row */
  sideOf(row) { return row >= EVENT ? this.events[row - EVENT].side : row >>> 31; }

  /** @param {number} row */
  codeOf(row) { return this.directions[row >>> 31].items.code[row & 0x7fffffff]; }

  /** @param {number} row */
  nameOf(row) { return row >= EVENT ? this.events[row - EVENT].kind : nameOf(this.codeOf(row)); }

  /** @param {number} row */
  groupOf(row) { return row >= EVENT ? EVENT_GROUP : groupOf(this.codeOf(row)); }

  /** How many rows each group has. */
  groupCounts() {
    const counts = new Uint32Array(EVENT_GROUP + 1);
    counts[EVENT_GROUP] = this.events.length;
    this.directions.forEach(({ items: { code } }, side) => {
      for (let k = 0; k < this.shown[side].count; k++) counts[groupOf(code[k])]++;
    });
    return counts;
  }

  /**
   * The row of the message that has this byte of a direction, or of the refusal there; or -1.
   * @param {number} side @param {number} offset
   */
  rowAt(side, offset) {
    const refusal = this.events.findIndex(event => event.side === side && event.verdict && event.verdict.at === offset);
    if (refusal >= 0) return this.eventRows[refusal];
    const k = Math.min(this.directions[side].items.at(offset), this.shown[side].count - 1);
    return k < 0 ? -1 : this.rows.indexOf((side ? 0x80000000 : 0) + k);
  }
}
