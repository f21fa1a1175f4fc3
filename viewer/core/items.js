// The items of a stream in columns, 22 bytes each. An item's size is the way to the next one's start.

export const ITEM_WORDS = 22;
// codes of extended messages are 512 and bt_extended.kind; the others are bt_item.id
const EXTENDED = 512;
export const CODE = {
  choke: 0, unchoke: 1, interested: 2, notInterested: 3, have: 4, bitfield: 5, request: 6, piece: 7, cancel: 8, port: 9,
  suggest: 13, haveAll: 14, haveNone: 15, reject: 16, allowedFast: 17, keepAlive: 256, handshake: 257,
  extHandshake: 513, metadataRequest: 514, metadataData: 515, metadataReject: 516, metadataOther: 517,
  metadataMalformed: 518, extRaw: 519, dontHave: 520,
};
/** @type {Record<number, string>} */
export const NAMES = {
  0: 'choke', 1: 'unchoke', 2: 'interested', 3: 'not-interested', 4: 'have', 5: 'bitfield', 6: 'request', 7: 'piece',
  8: 'cancel', 9: 'port', 13: 'suggest', 14: 'have-all', 15: 'have-none', 16: 'reject', 17: 'allowed-fast',
  256: 'keep-alive', 257: 'handshake', 513: 'ext-handshake', 514: 'metadata-request', 515: 'metadata-data',
  516: 'metadata-reject', 517: 'metadata-other', 518: 'metadata-malformed', 519: 'extended', 520: 'donthave',
};
/** @param {number} code */
export const nameOf = code => NAMES[code] ?? 'unknown';

/** Groups, by which rows are coloured and filtered. */
export const GROUPS = ['handshake', 'state', 'have', 'request', 'piece', 'cancel', 'extended', 'other'];
const OTHER = 7;
const groups = new Uint8Array(1024).fill(OTHER);
[[257], [0, 1, 2, 3], [4, 5, 13, 14, 15, 17], [6], [7], [8, 16], [513, 514, 515, 516, 517, 518, 519, 520]]
  .forEach((codes, group) => codes.forEach(code => groups[code] = group));
/** @param {number} code */
export const groupOf = code => groups[code];

/** @param {number} low @param {number} high */
function wideNumber(low, high) {
  const value = low + high * 4294967296;
  return value <= Number.MAX_SAFE_INTEGER ? value : BigInt(high) << 32n | BigInt(low);
}

/** @template {Float64Array | Uint16Array | Uint32Array} T @param {T} made @param {T | undefined} old */
function grown(made, old) {
  if (old) made.set(old);
  return made;
}

const INDEX_BEGIN_LENGTH = new Set([CODE.request, CODE.cancel, CODE.reject]);
const INDEX = new Set([CODE.have, CODE.suggest, CODE.allowedFast]);
const NO_FIELDS = new Set([0, 1, 2, 3, CODE.haveAll, CODE.haveNone, CODE.keepAlive, CODE.handshake]);

export class Items {
  constructor() {
    this.count = 0;
    this.end = 0;               // one past the last item's last byte
    /**
     * total_size or metadata_size, by item
     * @type {Map<number, number | bigint>}
     */
    this.wide = new Map();
    this.reserve(1024);
  }

  /** @param {number} room */
  reserve(room) {
    this.start = grown(new Float64Array(room), this.start);
    this.code = grown(new Uint16Array(room), this.code);
    this.a = grown(new Uint32Array(room), this.a);
    this.b = grown(new Uint32Array(room), this.b);
    this.c = grown(new Uint32Array(room), this.c);
    this.room = room;
  }

  /**
   * Takes the items of a batch.
   * @param {Uint32Array} words @param {number} count
   */
  take(words, count) {
    if (this.count + count > this.room) this.reserve(Math.max(this.room * 2, this.count + count));
    let k = this.count;
    for (let w = 0; w < count * ITEM_WORDS; w += ITEM_WORDS, k++) {
      this.start[k] = words[w] + words[w + 1] * 4294967296;
      const id = words[w + 11] >>> 16;
      if (id === 20) this.takeExtended(k, words, w); else this.takeMessage(k, id, words, w);
    }
    this.count = k;
    this.end = this.start[k - 1] + words[(count - 1) * ITEM_WORDS + 2];
    return false;
  }

  /**
   * Fields that don't apply to the message are left unchanged in the struct, so only the others are read.
   * @param {number} k @param {number} id @param {Uint32Array} words @param {number} w
   */
  takeMessage(k, id, words, w) {
    this.code[k] = id;
    if (id === CODE.piece) {
      this.a[k] = words[w + 8];
      this.b[k] = words[w + 9];
      this.c[k] = words[w + 4];
    } else if (INDEX_BEGIN_LENGTH.has(id)) {
      this.a[k] = words[w + 8];
      this.b[k] = words[w + 9];
      this.c[k] = words[w + 10];
    } else if (INDEX.has(id)) this.a[k] = words[w + 8];
    else if (id === CODE.port) this.a[k] = words[w + 11] & 65535;
    else if (!NO_FIELDS.has(id)) this.c[k] = words[w + 4];
  }

  /** @param {number} k @param {Uint32Array} words @param {number} w */
  takeExtended(k, words, w) {
    const last = words[w + 21], code = EXTENDED + (last & 255), dictionary = words[w + 18];
    this.code[k] = code;
    this.b[k] = dictionary;
    this.c[k] = words[w + 4] - dictionary;
    if (code === CODE.extHandshake) {
      this.a[k] = last >>> 24 ? last >>> 8 & 255 : 256;         // 256: no ut_metadata
      if (last >>> 16 & 255) this.wide.set(k, wideNumber(words[w + 16], words[w + 17]));
    } else if (code === CODE.extRaw) this.a[k] = words[w + 12] & 255;
    else {
      this.a[k] = words[w + 20];
      if (code === CODE.metadataData) this.wide.set(k, wideNumber(words[w + 14], words[w + 15]));
    }
  }

  /** @param {number} k */
  endOf(k) { return k + 1 < this.count ? this.start[k + 1] : this.end; }

  /** @param {number} k */
  sizeOf(k) { return this.endOf(k) - this.start[k]; }

  /**
   * The last item that starts at or before this offset, or -1.
   * @param {number} offset
   */
  at(offset) {
    let low = -1, high = this.count - 1;
    while (low < high) {
      const middle = (low + high + 1) >> 1;
      if (this.start[middle] <= offset) low = middle; else high = middle - 1;
    }
    return low;
  }
}
