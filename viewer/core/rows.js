// A row of a conversation, and a whole message, as the page shows them.
import { CODE } from './items.js';
import { EVENT } from './conversation.js';
import { peerName } from './peer_id.js';
import { verdictLine } from './proved_reader.js';
import { jsonOf, lineOf, wordsOf } from './show_lines.js';

const BYTES_BEFORE = 32, BYTES_SHOWN = 768;
const MOST_REFUSED = 1 << 20;

export class Rows {
  /** @param {import('./conversation.js').Conversation} talk */
  constructor(talk) { this.talk = talk; }

  /**
   * The words of `show`, or of an event.
   * @param {number} row
   */
  words(row) {
    const { events, directions } = this.talk;
    if (row >= EVENT) {
      const { verdict, kind } = events[row - EVENT];
      return verdict ? verdictLine(verdict) : kind;
    }
    const { items, read } = directions[row >>> 31];
    return wordsOf(items, row & 0x7fffffff, read);
  }

  /** @param {number} r */
  row(r) {
    const { talk } = this, { rows, matches } = talk, row = rows[r], time = talk.timeOf(row);
    const made = {
      r, time, packet: talk.packetOf(row), words: this.words(row), group: talk.groupOf(row), name: talk.nameOf(row),
        side: talk.sideOf(row),
      flags: matches.flags[r], bands: [matches.stateAt(0, r), matches.stateAt(1, r)], delta: r && time !== null
        ? time - talk.timeOf(rows[r - 1]) : null,
    };
    if (row < EVENT) return { ...made, ...this.itemOf(row), ...this.mateOf(r, time) };
    const event = talk.events[row - EVENT];
    return { ...made, event, offset: event.place };
  }

  /** @param {number} row */
  itemOf(row) {
    const { directions } = this.talk, side = row >>> 31, k = row & 0x7fffffff, { items, sender } = directions[side];
    const code = items.code[k], a = items.a[k];
    return {
      message: k, offset: items.start[k], size: items.sizeOf(k), code, a, b: items.b[k], c: items.c[k],
      client: code === CODE.extHandshake ? sender.client : code === CODE.handshake ? peerName(sender.peerId) : null,
      extension: code === CODE.extRaw ? directions[1 - side].sender.extensions.get(a) ?? null : null,
    };
  }

  /**
   * What answers the row, or what it answers.
   * @param {number} r @param {number | null} time
   */
  mateOf(r, time) {
    const { talk } = this, mate = talk.matches.mate[r] - 1;
    if (mate < 0) return {};
    const other = talk.rows[mate];
    return { mate, mateName: talk.nameOf(other), latency: time === null ? null : Math.abs(talk.timeOf(other) - time) };
  }

  /**
   * A message with its bytes; a refusal with the bytes from the start of what is refused. The bytes around are shown too.
   * @param {number} r
   */
  message(r) {
    const { talk } = this, row = talk.rows[r], made = this.row(r), { stream, own } = talk.directions[made.side],
      { pieces, limit, isGuessed } = own ?? { pieces: null, limit: 0 };
    const part = row >= EVENT ? this.refusedBytes(talk.events[row - EVENT], stream) : this.itemBytes(row);
    const from = Math.max(0, part.start - part.start % 16 - BYTES_BEFORE), end = part.start + part.bytes.length;
    return { ...made, ...part, own: { pieces, limit, isGuessed }, rules: talk.rules, before: stream.part(from, part.start - from),
      after: stream.part(end, Math.max(0, BYTES_SHOWN - part.bytes.length)) };
  }

  /** @param {number} row */
  itemBytes(row) {
    const { items, read } = this.talk.directions[row >>> 31], k = row & 0x7fffffff;
    return {
      start: items.start[k], bytes: read(items.start[k], items.sizeOf(k)), line: lineOf(items, k, read),
        json: jsonOf(items, k, read), left: 0, whole: 0,
      fields: { code: items.code[k], a: items.a[k], b: items.b[k], c: items.c[k], wide: items.wide.get(k)?.toString() ?? null },
    };
  }

  /** @param {import('./types.js').TalkEvent} event @param {import('./stream.js').Stream} stream */
  refusedBytes(event, stream) {
    /** @type {{ line: string, json: string, fields: any, left: number, whole: number }} */
    const empty = { line: '', json: '', fields: null, left: 0, whole: 0 };
    if (!event.verdict) return { ...empty, start: Math.min(event.place, stream.length), bytes: new Uint8Array(0) };
    const { start, at, message } = event.verdict, left = stream.length - start;
    const whole = left >= 4 && message > 0 ? new DataView(stream.part(start, 4).buffer).getUint32(0) + 4 : message === 0
      ? Math.min(left, 68) : left;
    const shown = whole <= Math.min(left, MOST_REFUSED) ? whole : Math.min(left, at - start + 16);
    return { ...empty, start, bytes: stream.part(start, Math.max(shown, Math.min(left, at - start + 1))), whole, left };
  }
}
