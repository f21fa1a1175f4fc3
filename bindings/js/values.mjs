// The values of the wire that bt.mjs and end.mjs share: items, ids, refusals, and the checks of arguments. Nothing of it is proved.
import { lineOf, membersOf, shown } from './json.mjs';
import { ITEM_SIZE } from './library.mjs';

export const FAST = 0x4n, DHT = 0x1n, EXTENSIONS = 0x100000n;

/** The ids of messages, and those of a keep-alive and the handshake, which have none on the wire. */
export const Id = Object.freeze({
  CHOKE: 0, UNCHOKE: 1, INTERESTED: 2, NOT_INTERESTED: 3, HAVE: 4, BITFIELD: 5, REQUEST: 6, PIECE: 7, CANCEL: 8, PORT: 9, SUGGEST: 13,
  HAVE_ALL: 14, HAVE_NONE: 15, REJECT: 16, ALLOWED_FAST: 17, EXTENDED: 20, KEEP_ALIVE: 256, HANDSHAKE: 257,
});

/** What an extended message is. */
export const Kind = Object.freeze({
  EXT_HANDSHAKE: 1, METADATA_REQUEST: 2, METADATA_DATA: 3, METADATA_REJECT: 4, METADATA_OTHER: 5, METADATA_MALFORMED: 6, EXT_RAW: 7,
  DONTHAVE: 8,
});

/** Thrown if a stream breaks a rule, or if the peer would refuse a message that is to be written. */
export class Refused extends Error {
  constructor(at, reason, number) {
    super(`message ${number} refused at byte ${at}: ${reason}`);
    this.name = 'Refused';
    /** The offset on the stream. */
    this.at = at;
    /** The name of the rule that is broken, like 'WrongLength'. */
    this.reason = reason;
    /** The number of the message; 0 is the handshake. */
    this.number = number;
  }

  /** For JSON.stringify: the members that the verdict of `bt_tool show --json` has. */
  toJSON() { return { verdict: 'refused', message: this.number, offset: this.at, reason: this.reason }; }
  /** Returns the line that `bt_tool show --json` prints. */
  jsonLine() { return lineOf(this.toJSON()); }
}

const flags = ids => ids.reduce((table, id) => { table[id] = 1; return table; }, new Uint8Array(512));
const WITH_INDEX = flags([4, 13, 17, 6, 8, 16, 7]), WITH_BEGIN = flags([6, 8, 16, 7]), WITH_LENGTH = flags([6, 8, 16]);
const WITH_PIECE = flags([2, 3, 4, 8]);
const FIELDS = ['start', 'size', 'id', 'name', 'index', 'begin', 'length', 'port', 'reserved', 'infoHash', 'peerId', 'extendedId', 'kind', 'piece',
  'totalSize', 'dictSize', 'metadataSize', 'utMetadata', 'body', 'data'];

// (what this file exports is slower to look up)
const { PORT, EXTENDED, KEEP_ALIVE, HANDSHAKE } = Id, { EXT_HANDSHAKE, METADATA_DATA } = Kind, WORDS = ITEM_SIZE / 4, HANDSHAKE_SIZE = 68;

const bigAt = (words, w) => BigInt(words[w + 1]) << 32n | BigInt(words[w]);

/**
 * How many words the addon writes of an item: where it starts in the batch's bytes; its size; its index, or the number of its row of an
 * extended message; and its id with flags and the kind above it.
 */
export const KEPT = 4;
/** How many words a bt_extended has, and the first of a bt_item's that is one of them. */
export const EXTENDED_WORDS = 8;
const EXTENDED_AT = 14;
const INDEX = 1 << 24, BEGIN = 1 << 25, LENGTH = 1 << 26;
const WHAT = Uint32Array.from(WITH_INDEX, (has, id) => id | has * INDEX | WITH_BEGIN[id] * BEGIN | WITH_LENGTH[id] * LENGTH);
// Where the body begins, or where a message without one ends.
const BODY_AT = Uint8Array.from(WITH_INDEX, (has, id) => 5 + 4 * (has + WITH_BEGIN[id] + WITH_LENGTH[id]));
[BODY_AT[PORT], BODY_AT[EXTENDED], BODY_AT[KEEP_ALIVE]] = [7, 6, 4];
export const u32At = (bytes, at) => (bytes[at] << 24 | bytes[at + 1] << 16 | bytes[at + 2] << 8 | bytes[at + 3]) >>> 0;

/**
 * What items keep, beside some numbers of their own: bytes of the stream, and the offset on the stream of the first of these.
 * @typedef {{ names: { name(id: number, kind: number): string }, bytes: Uint8Array, base: number }} Batch
 */

/** The numbers of the bt_extended that begins at this word. (An object for each costs less than memory of its own for those of a batch.) */
export class Extended {
  /**
   * @param {Uint32Array} words
   * @param {number} w
   */
  constructor(words, w) {
    const flags = words[w + 7], size = (flags & 255) === METADATA_DATA ? w : w + 2;
    this.dictSize = words[w + 4];
    this.piece = words[w + 6];
    /** Its kind, the id for ut_metadata, whether it has a size, and whether it has such an id: a byte each. */
    this.flags = flags;
    /** The size of the metadata. */
    this.size = words[size + 1] ? wide(bigAt(words, size)) : words[size];
  }
}

/**
 * The item of the bt_item that begins at this word.
 * @param {Batch} batch
 * @param {Uint32Array} words
 * @param {number} w
 */
export function itemOf(batch, words, w) {
  const id = words[w + 11] >>> 16, at = words[w] - batch.base >>> 0;
  if (id !== EXTENDED) return new Item(batch, at, WHAT[id], words[w + 8]);
  return new Item(batch, at, id | (words[w + 21] & 255) << 16, new Extended(words, w + EXTENDED_AT));
}

const wide = number => number <= Number.MAX_SAFE_INTEGER ? Number(number) : number;

/**
 * The handshake or a message. A field that this kind of item doesn't have is null. Each is read when it is asked for: an item keeps the
 * batch that it came in, and the bytes of the stream, of which `data`, `body` and others are views.
 */
export class Item {
  /**
   * @param {Batch} batch
   * @param {number} at Where it starts in the batch's bytes.
   * @param {number} what Its id, with flags and the kind above it.
   * @param {number | Extended} value Its index, or the numbers of an extended message.
   */
  constructor(batch, at, what, value) {
    this._batch = batch;
    this._at = at;
    this._what = what;
    this._value = value;
  }

  /** Its offset on the stream. */
  get start() { return this._batch.base + this._at; }
  /** How many bytes it has. */
  get size() { return this.id === HANDSHAKE ? HANDSHAKE_SIZE : 4 + u32At(this._batch.bytes, this._at); }
  /** Its `Id`, or the number of an unknown message. */
  get id() { return this._what & 65535; }
  /** Its name as `bt_tool show` prints it, like 'have' or 'metadata-request'. */
  get name() { return this._batch.names.name(this.id, this.kind ?? 0); }
  get index() { return this._what & INDEX ? this._value : null; }
  get begin() { return this._what & BEGIN ? u32At(this._batch.bytes, this._at + 9) : null; }
  get length() { return this._what & LENGTH ? u32At(this._batch.bytes, this._at + 13) : null; }
  get port() {
    const { data } = this;
    return this.id === PORT ? data[5] << 8 | data[6] : null;
  }

  /** All its bytes. */
  get data() {
    const at = this._at;
    return this._batch.bytes.subarray(at, at + this.size);
  }

  /** The bitfield, block or payload, which is empty if the message has none. */
  get body() {
    const { id } = this, at = this._at;
    return id === HANDSHAKE ? null : this._batch.bytes.subarray(at + BODY_AT[id], at + this.size);
  }

  /** The reserved bits of a handshake, as a BigInt. */
  get reserved() {
    const { bytes } = this._batch, at = this._at + 20;
    return this.id === HANDSHAKE ? BigInt(u32At(bytes, at)) << 32n | BigInt(u32At(bytes, at + 4)) : null;
  }

  get infoHash() { return this.id === HANDSHAKE ? this.data.subarray(28, 48) : null; }
  get peerId() { return this.id === HANDSHAKE ? this.data.subarray(48, 68) : null; }
  /** What an extended message is: a `Kind`. */
  get kind() { return this._what >>> 16 & 255 || null; }
  /** The id within the extension protocol. */
  get extendedId() { return this.kind && this._batch.bytes[this._at + 5]; }
  /** The number of a metadata block, or the piece that the peer no longer has (lt_donthave). */
  get piece() { return WITH_PIECE[this.kind] ? this._value.piece : null; }
  /** How many bytes the metadata has, by a data message; a BigInt from 2^53 on. */
  get totalSize() { return this.kind === METADATA_DATA ? this._value.size : null; }
  /** How many bytes of the body are the dictionary of an extended message. */
  get dictSize() { return this.kind && this._value.dictSize; }
  /** How many bytes the metadata has, by an extended handshake; a BigInt from 2^53 on. */
  get metadataSize() { return this.kind === EXT_HANDSHAKE && this._value.flags >>> 16 & 255 ? this._value.size : null; }
  /** The id for ut_metadata that an extended handshake announces. */
  get utMetadata() { return this.kind === EXT_HANDSHAKE && this._value.flags >>> 24 ? this._value.flags >>> 8 & 255 : null; }

  /** What follows the dictionary of an extended message, as the block of a data message. */
  get rest() { return this.kind ? this.body.subarray(this.dictSize) : null; }

  /** Returns the fields that it has, as a plain object. */
  toObject() { return Object.fromEntries(FIELDS.map(name => [name, this[name]]).filter(([, value]) => value !== null)); }

  /**
   * For JSON.stringify: the members that `bt_tool show --json` has. A number from 2^53 on is exact if the engine has JSON.rawJSON, as Node
   * has from version 22 on, and otherwise the nearest one.
   */
  toJSON() { return shown(membersOf(this)); }
  /** Returns the line that `bt_tool show --json` prints, in which each number is exact. */
  jsonLine() { return lineOf(membersOf(this)); }

  [Symbol.for('nodejs.util.inspect.custom')]() { return this.toObject(); }
}

/** The names of items, each asked for once. */
export class Names {
  constructor(ask) {
    this.ask = ask;
    this.known = [];
  }

  /** The name of an item, by its id and the kind of an extended message. */
  name(id, kind) {
    return this.known[1024 * kind + id] ??= this.ask(id, kind);
  }
}

/**
 * An iterator over what a function returns until it returns null. It isn't a generator, since one takes twice as long for small messages.
 */
export class Items {
  constructor(take) {
    this.take = take;
    this.over = false;
  }

  next() {
    if (this.over) return { value: undefined, done: true };
    // (one that throws is at its end)
    this.over = true;
    const value = this.take();
    if (value === null) return { value: undefined, done: true };
    this.over = false;
    return { value, done: false };
  }

  return(value) {
    this.over = true;
    return { value, done: true };
  }
}

// So it is iterable, and has `map` and the like in a Node or a browser that has them.
Object.setPrototypeOf(Items.prototype, Object.getPrototypeOf(Object.getPrototypeOf([][Symbol.iterator]())));

/** Adds the items of a batch to columns of numbers, 0 for what an item doesn't have, from row `from` on. */
export function fill(columns, from, { words, bytes, base }) {
  const { start, size, id, kind, index, begin, length, body } = columns;
  for (let row = from, w = 0; w < words.length; row++, w += KEPT) {
    const at = words[w], what = words[w + 3], number = what & 65535;
    start[row] = base + at;
    size[row] = words[w + 1];
    id[row] = number;
    kind[row] = what >>> 16 & 255;
    if (what & INDEX) index[row] = words[w + 2];
    if (what & BEGIN) begin[row] = u32At(bytes, at + 9);
    if (what & LENGTH) length[row] = u32At(bytes, at + 13);
    if (number !== HANDSHAKE) body[row] = words[w + 1] - BODY_AT[number];
  }
}

/** The same for so many bt_items, of which the first one starts at this offset. */
export function fillOf(columns, from, structs, count, base) {
  const { start, size, id, kind, index, begin, length, body } = columns;
  for (let row = from, w = 0, at = base; row < from + count; row++, w += WORDS) {
    const number = structs[w + 11] >>> 16, what = WHAT[number];
    start[row] = at;
    at += size[row] = structs[w + 2];
    id[row] = number;
    if (number === EXTENDED) kind[row] = structs[w + 21] & 255;
    // (numbers that a message doesn't have mean nothing there; no branch of them can be foretold)
    index[row] = structs[w + 8] & -(what >>> 24 & 1);
    begin[row] = structs[w + 9] & -(what >>> 25 & 1);
    length[row] = structs[w + 10] & -(what >>> 26 & 1);
    body[row] = structs[w + 4];
  }
}

/** What a value is, for a message. */
export function kindOf(value) {
  if (value === undefined || value === null) return String(value);
  return typeof value === 'object' ? value.constructor?.name ?? 'object' : typeof value;
}

/** A number of so many bits. */
export function number(value, bits, what) {
  if (typeof value === 'number' && bits <= 32 && value >= 0 && value < 2 ** bits && Number.isInteger(value)) return value;
  if (typeof value !== 'number' && typeof value !== 'bigint') throw new TypeError(`${what} is ${kindOf(value)}, not a number`);
  if (typeof value === 'number' && !Number.isSafeInteger(value) || value < 0 || BigInt(value) >> BigInt(bits)) {
    throw new RangeError(`${what} is ${value}, not an integer of ${bits} bits`);
  }
  return value;
}

const isShared = bytes => typeof SharedArrayBuffer !== 'undefined' && bytes.buffer instanceof SharedArrayBuffer;

/** The bytes of a Uint8Array or an ArrayBuffer: a copy, if another thread may change them. */
export function content(value, what, size = null) {
  const bytes = value instanceof ArrayBuffer ? new Uint8Array(value) : value;
  if (!(bytes instanceof Uint8Array)) throw new TypeError(`${what} is ${kindOf(value)}, not a Uint8Array`);
  if (size !== null && bytes.length !== size) throw new RangeError(`${what} has ${bytes.length} bytes, not ${size}`);
  return isShared(bytes) ? new Uint8Array(bytes) : bytes;
}

/** How much memory short chunks share, and which are short. */
const SHARED = 8192, SHORT = 1024;

/**
 * The bytes that are kept and some more, in memory that nothing else writes to. `kept` comes from an earlier call, or is empty: what is after
 * it in its memory is free. There is room for as many again if many are kept, so that a long message in short chunks isn't copied for each of
 * them; and short chunks share memory, since small arrays of their own cost more than what is read of them.
 */
export function appended(kept, more) {
  const n = kept.length, size = n + more.length, to = kept.byteOffset + n, { buffer } = kept;
  if (to + more.length <= buffer.byteLength) {
    const bytes = new Uint8Array(buffer, kept.byteOffset, size);
    bytes.set(more, n);
    return bytes;
  }
  const room = n > more.length ? 2 * size : size, bytes = new Uint8Array(new ArrayBuffer(size <= SHORT ? SHARED : room), 0, size);
  bytes.set(kept);
  bytes.set(more, n);
  return bytes;
}

/** Writes the bt_item of a message at an address of some memory, of numbers that fit. */
export function putItem(view, bytes, at, { index = 0, begin = 0, length = 0, port = 0, id, extendedId = 0 }) {
  bytes.fill(0, at, at + ITEM_SIZE);
  view.setUint32(at + 32, Number(number(index, 32, 'index')), true);
  view.setUint32(at + 36, Number(number(begin, 32, 'begin')), true);
  view.setUint32(at + 40, Number(number(length, 32, 'length')), true);
  view.setUint16(at + 44, Number(number(port, 16, 'port')), true);
  view.setUint16(at + 46, Number(number(id, 16, 'id')), true);
  view.setUint8(at + 48, Number(number(extendedId, 8, 'extendedId')));
}

/** Throws TypeError for the first name that isn't among these. */
export function allKnown(given, names, what) {
  if (typeof given !== 'object' || given === null) throw new TypeError(`${what} is ${kindOf(given)}, not an object`);
  const unknown = Object.keys(given).find(name => !names.includes(name));
  if (unknown !== undefined) throw new TypeError(`${what} has no ${unknown}: it has ${names.join(', ')}`);
}

export const OWN = ['reserved', 'infoHash', 'pieces', 'metadataId', 'donthaveId', 'strict', 'limit'];

/** The receiver with all fields, each of which fits. */
export function completed(own = {}) {
  allKnown(own, OWN, 'own');
  const { reserved = FAST | DHT | EXTENSIONS, infoHash = null, pieces = null, metadataId = 3, donthaveId = 0, strict = false, limit = 262144 } = own;
  if (pieces !== null) number(pieces, 32, 'pieces');
  return {
    reserved: BigInt(number(reserved, 64, 'reserved')), pieces, strict: Boolean(strict), limit: Number(number(limit, 32, 'limit')),
    infoHash: infoHash === null ? null : content(infoHash, 'infoHash', 20).slice(), metadataId: Number(number(metadataId, 8, 'metadataId')),
    donthaveId: Number(number(donthaveId, 8, 'donthaveId')),
  };
}
