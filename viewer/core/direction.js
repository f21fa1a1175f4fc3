// One direction of a connection: its stream from the handshake on, what its sender says of itself, and, by the proved reader, its
// items and its verdicts under both rule sets.
import { Items, ITEM_WORDS } from './items.js';
import { clientOf } from './show_lines.js';
import { parseTree, childOf } from './bencode_tree.js';
import { hexOf, printable } from './text.js';
import { Stream } from './stream.js';

export const HANDSHAKE_BYTES = 68;
const HELLO = Uint8Array.from('\x13BitTorrent protocol', letter => letter.charCodeAt(0));
const EXCHANGE = 2048;          // the key exchange of message stream encryption has at most as many bytes with an empty payload
const EVERY_EXTENSION = 0x100005n;
const LONGEST_MESSAGE = 1048576;
const USUAL_LIMIT = 262144, USUAL_METADATA_ID = 3;
const HANDSHAKES_READ = 200;    // extended handshakes whose names are taken
const FIRST_BATCHES = 16;       // extended handshakes come among the first messages

/** @returns {import('./types.js').Sender} */
const unknownSender = () => ({ reserved: 0n, infoHash: '', peerId: new Uint8Array(0), metadataId: null, donthaveId: null, client: null,
  extensions: new Map() });

export class Direction {
  /**
   * @param {Stream} stream all bytes up to the first gap
   * @param {import('./types.js').Gap[]} gaps
   * @param {import('./half.js').Half | null} half
   */
  constructor(stream, gaps, half) {
    this.sent = stream.length;
    this.skipped = stream.find(HELLO, EXCHANGE);
    this.stream = this.skipped >= 0 ? stream.after(this.skipped) : stream;
    this.isBegun = this.skipped >= 0;
    this.isWhole = this.isBegun && this.stream.length >= HANDSHAKE_BYTES;
    this.gaps = gaps.map(({ at, size }) => ({ at: at - Math.max(this.skipped, 0), size }));
    this.half = half;
    this.items = new Items();
    this.sender = unknownSender();
    /** @type {import('./types.js').Receiver | null} */ this.own = null;
    /** @type {import('./types.js').Verdict | null} */ this.free = null;
    /** @type {import('./types.js').Verdict | null} */ this.bep = null;
  }

  /**
   * Reads bytes of the stream.
   * @type {import('./types.js').ReadPart}
   */
  read = (from, size) => this.stream.part(from, size);

  /**
   * What the sender says: reserved bits, ids, name. The proved reader reads it, for a receiver with every extension. The id of
   * ut_metadata is looked for to the end only if `isAsked`: if there is another direction, which needs it.
   * @param {import('./proved_reader.js').ProvedReader} reader @param {boolean} isAsked
   */
  hearSender(reader, isAsked) {
    if (!this.isWhole) return;
    const head = this.stream.part(0, HANDSHAKE_BYTES), { sender } = this;
    Object.assign(sender, { reserved: BigInt(`0x${hexOf(head.subarray(20, 28))}`), infoHash: hexOf(head.subarray(28, 48)),
      peerId: head.slice(48) });
    let batches = 0, heard = 0;
    /** @type {import('./types.js').Receiver} */
    const own = { reserved: EVERY_EXTENSION, limit: LONGEST_MESSAGE, pieces: null, metadataId: 0, strict: false };
    reader.read(own, this.stream, (words, count) => {
      for (let w = 0; w < count * ITEM_WORDS; w += ITEM_WORDS) {
        const last = words[w + 21];
        if (words[w + 11] >>> 16 !== 20 || (last & 255) !== 1) continue;
        const start = words[w] + words[w + 1] * 4294967296;
        if (heard++ < HANDSHAKES_READ) this.hearExtensions(this.stream.part(start + 6, words[w + 18]));
        if (last >>> 24) sender.metadataId ??= last >>> 8 & 255;
      }
      return sender.metadataId !== null || (++batches === FIRST_BATCHES && !isAsked);
    });
  }

  /**
   * The names of a dictionary's extensions, by the ids under which the sender wants them; and what it calls itself.
   * @param {Uint8Array} dictionary
   */
  hearExtensions(dictionary) {
    this.sender.client ??= clientOf(dictionary);
    for (const { key, child } of childOf(dictionary, parseTree(dictionary).root, 'm')?.children ?? []) {
      if (!key || child?.type !== 'integer') continue;
      const id = Number(child.value), name = printable(dictionary.subarray(key.body, Math.min(key.end, key.body + 40)), '.');
      if (name === 'lt_donthave' && id >= 0 && id < 256) this.sender.donthaveId ??= id;
      if (id > 0) this.sender.extensions.set(id, name);
    }
  }

  /**
   * The receiver of this direction, as the other direction describes it.
   * @param {Direction} other @param {import('./types.js').Options} options
   */
  receiver(other, options) {
    const heard = other.isWhole ? other.sender : null;
    const guess = options.isRaw ? { reserved: EVERY_EXTENSION, metadataId: USUAL_METADATA_ID }
      : { reserved: this.sender.reserved, metadataId: 0 };
    const metadataId = options.metadataId ?? (heard ? heard.metadataId ?? 0 : guess.metadataId), donthaveId = heard?.donthaveId ?? 0;
    return {
      reserved: options.reserved ?? (heard ? heard.reserved : guess.reserved),
      metadataId,
      // of two equal ids only that of ut_metadata counts
      donthaveId: donthaveId === metadataId ? 0 : donthaveId,
      pieces: options.pieces ?? null,
      limit: options.limit ?? USUAL_LIMIT,
      infoHash: options.infoHash ?? null,
      isGuessed: !heard,
    };
  }

  /**
   * Reads the stream. Items are taken under `free`; those before a refusal under `bep` are the same.
   * @param {import('./proved_reader.js').ProvedReader} reader @param {Direction} other @param {import('./types.js').Options}
   *  options
   */
  judge(reader, other, options) {
    const own = this.own = this.receiver(other, options);
    this.items = new Items();
    this.free = this.bep = null;
    if (!this.isBegun && !options.isRaw) return;
    this.free = reader.read({ ...own, strict: false }, this.stream, (words, count) => this.items.take(words, count));
    this.bep = reader.read({ ...own, strict: true }, this.stream, null);
  }

  /** The receiver as options of bt_tool. */
  optionWords() {
    const { reserved, metadataId, donthaveId, pieces, infoHash, limit } = this.own;
    return [`--reserved ${reserved.toString(16).padStart(16, '0')}`, `--metadata-id ${metadataId}`,
      donthaveId ? `--donthave-id ${donthaveId}` : '', pieces === null ? '' : `--pieces ${pieces}`,
      infoHash ? `--info-hash ${infoHash}` : '', limit === USUAL_LIMIT ? '' : `--limit ${limit}`].filter(Boolean).join(' ');
  }

  /**
   * How many items there are under a rule set, and its verdict.
   * @param {string} rules
   */
  shown(rules) {
    const verdict = rules === 'bep' ? this.bep : this.free;
    return { count: !verdict ? 0 : verdict.ok ? this.items.count : verdict.message, verdict };
  }

  /**
   * The span whose arrival completed the bytes before this place.
   * @param {number} place
   */
  arrival(place) { return this.stream.spanOf(Math.max(0, place - 1)); }
}
