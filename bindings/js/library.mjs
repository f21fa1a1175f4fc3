// The proved library as WebAssembly (dist/bt.wasm, crates/bt_c/bt.h): its memory and its structs. Addresses are BigInt, since it is
// built for 64 bits. The viewer uses this file too. Nothing of it is proved.

export const MORE = 0, ITEM = 1, REFUSED = 2, END = 3;
const ABI = 2;
export const OWN_SIZE = 48, READER_SIZE = 64, ITEM_SIZE = 88;
const NAME_ROOM = 24, PAGE = 65536;
// a module with a memory of 64 bits and nothing else
const MEMORY64 = Uint8Array.of(0, 0x61, 0x73, 0x6d, 1, 0, 0, 0, 5, 3, 1, 4, 1);

export const NEEDS_MEMORY64 = 'This browser cannot run the proved reader, which needs WebAssembly memories of 64 bits (memory64). ' +
  'Chromium and Chrome have them from version 133 on, Firefox from version 134 on.';
const NODE_NEEDS_MEMORY64 = 'This Node has WebAssembly memories of 64 bits (memory64) only with a flag: ' +
  'run node --experimental-wasm-memory64, or Node 24 or later.';

/**
 * The receiver: what a stream is judged by.
 * @typedef {{ reserved: bigint, limit: number, pieces: number | null, metadataId: number, infoHash: Uint8Array | null,
 *  donthaveId?: number, strict?: boolean }} Own
 */

/** Whether this is Node, and no browser. */
export function inNode() {
  return Boolean(/** @type {any} */ (globalThis).process?.versions?.node);
}

/**
 * Writes a bt_own at an address.
 * @param {DataView} view
 * @param {Uint8Array} bytes The same memory.
 * @param {number} at
 * @param {Own} own
 */
export function packOwn(view, bytes, at, { reserved, limit, pieces, metadataId, donthaveId, strict, infoHash }) {
  view.setBigUint64(at, reserved, true);
  view.setUint32(at + 8, limit, true);
  view.setUint32(at + 12, pieces ?? 0, true);
  bytes[at + 16] = pieces === null ? 0 : 1;
  bytes[at + 17] = infoHash ? 1 : 0;
  bytes[at + 18] = metadataId;
  bytes[at + 19] = donthaveId ?? 0;
  bytes[at + 20] = strict ? 1 : 0;
  bytes.set(infoHash ?? new Uint8Array(20), at + 21);
}

export class Library {
  /** @param {BufferSource | WebAssembly.Module} source */
  static async make(source) {
    if (!WebAssembly.validate(MEMORY64)) throw new Error(inNode() ? NODE_NEEDS_MEMORY64 : NEEDS_MEMORY64);
    const module = source instanceof WebAssembly.Module ? source : await WebAssembly.compile(source);
    return new Library((await WebAssembly.instantiate(module, {})).exports);
  }

  /** @param {any} calls */
  constructor(calls) {
    this.calls = calls;
    /** @type {DataView | undefined} */
    this.seen = undefined;
    /** @type {Uint8Array | undefined} */
    this.all = undefined;
    if (calls.bt_abi() !== ABI) throw new Error('The library has another version of its structs.');
    const at = this.take(512);
    this.own = at;
    this.reader = at + 64;
    this.item = at + 128;
    this.written = at + 256;
    this.small = at + 384;
  }

  /**
   * Returns the address of memory that nothing else uses: pages by which the memory grows.
   * @param {number} size
   */
  take(size) {
    const pages = Math.ceil(size / PAGE), { memory } = this.calls;
    try {
      return Number(memory.grow(BigInt(pages))) * PAGE;
    } catch (error) {
      // before memory64 was settled, it took a number
      if (!(error instanceof TypeError)) throw error;
      return Number(memory.grow(pages)) * PAGE;
    }
  }

  /** The memory. What is taken of it doesn't move, but a view ends when it grows. */
  get view() {
    if (this.seen?.buffer !== this.calls.memory.buffer) this.seen = new DataView(this.calls.memory.buffer);
    return this.seen;
  }

  get bytes() {
    if (this.all?.buffer !== this.calls.memory.buffer) this.all = new Uint8Array(this.calls.memory.buffer);
    return this.all;
  }

  /**
   * Writes a bt_own.
   * @param {number} at
   * @param {Own} own
   */
  putOwn(at, own) {
    packOwn(this.view, this.bytes, at, own);
  }

  /**
   * Makes a reader at the start of a stream, at `this.reader`.
   * @param {Own} own
   */
  begin(own) {
    this.putOwn(this.own, own);
    this.calls.bt_reader_init(BigInt(this.reader), BigInt(this.own));
  }

  /**
   * Reads items of the `n` bytes at `from` into `items`, which has room for so many and one more.
   * @param {number} from
   * @param {number} n
   * @param {number} items
   * @param {number} room
   */
  batch(from, n, items, room) {
    const answer = this.calls.bt_reader_batch(BigInt(this.reader), BigInt(from), BigInt(n), BigInt(items), BigInt(room), BigInt(this.small));
    return { answer, count: Number(this.view.getBigUint64(this.small, true)), used: Number(this.view.getBigUint64(this.small + 8, true)) };
  }

  /**
   * Reads the `n` bytes at `from`, after which the stream ends, and returns the answer.
   * @param {number} from
   * @param {number} n
   * @param {number} item
   */
  finish(from, n, item) {
    return this.calls.bt_reader_finish(BigInt(this.reader), BigInt(from), BigInt(n), BigInt(item));
  }

  /**
   * Returns the bt_verdict at an address: which message is refused, where and why.
   * @param {number} at
   */
  verdict(at) {
    const [message, place] = [0, 8].map(from => Number(this.view.getBigUint64(at + from, true)));
    return { message, at: place, reason: this.reasonName(this.view.getUint8(at + 16)) };
  }

  /**
   * Returns the bt_item at an address, after a refusal: where it is and why.
   * @param {number} at
   */
  refusal(at) {
    const start = Number(this.view.getBigUint64(at, true)), reason = this.view.getUint8(at + 49);
    return { start, at: start + Number(this.view.getBigUint64(at + 8, true)), number: reason, reason: this.reasonName(reason) };
  }

  /** @param {number} reason */
  reasonName(reason) {
    return this.text(Number(this.calls.bt_reason_name(reason, BigInt(this.small), BigInt(NAME_ROOM))));
  }

  /**
   * Returns the name of the bt_item at an address.
   * @param {number} at
   */
  itemName(at) {
    return this.text(Number(this.calls.bt_item_name(BigInt(at), BigInt(this.small), BigInt(NAME_ROOM))));
  }

  /** @param {number} size */
  text(size) {
    return String.fromCharCode(...this.bytes.subarray(this.small, this.small + size));
  }
}
