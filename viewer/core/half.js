// One direction of a TCP connection, put together from its segments as spans of the file, in the order of the stream. No byte is
// copied. Of bytes that were sent twice the first ones count. Nothing of this is proved.
import { FIN, RST, SYN } from './packet_headers.js';
import { Stream } from './stream.js';

/**
 * From one sequence number to another; they wrap at 2^32.
 * @param {number} to @param {number} from
 */
const distance = (to, from) => (to - from) | 0;

/** Its places count from the first segment that was captured. */
export class Half {
  /** @param {import('./file_bytes.js').FileBytes} file */
  constructor(file) {
    this.file = file;
    // the spans, disjoint and sorted by place: place, offset in the file, size, time and number of the packet
    /** @type {number[]} */ this.places = [];
    /** @type {number[]} */ this.offsets = [];
    /** @type {number[]} */ this.sizes = [];
    /** @type {number[]} */ this.times = [];
    /** @type {number[]} */ this.packets = [];
    /** @type {number | null} */ this.zero = null;        // the sequence number of place 0
    /** @type {number | null} */ this.opening = null;     // the sequence number of the SYN
    this.end = 0;               // one past the last byte that is known to have been sent
    this.last = 0;              // a place near which the next one is
    this.acked = 0;             // one past the last byte that the other end acknowledged
    /** @type {number | null} */ this.fin = null;         // the place of the FIN
    /** @type {import('./types.js').Close | null} */ this.closed = null;   // the first FIN or RST
    this.repeated = 0;          // bytes that came again
    this.conflicts = 0;         // of these, those that differ from the first ones
    this.late = 0;              // segments that filled a hole
  }

  /** @param {number} sequence */
  placeOf(sequence) { return this.last + distance(sequence, (this.zero + this.last) >>> 0); }

  /**
   * Takes a segment that this end sent.
   * @param {number} time @param {import('./capture_file.js').Packet} packet @param {import('./packet_headers.js').Headers} segment
   */
  take(time, packet, segment) {
    const { flags } = segment;
    if (flags & (FIN | RST) && !this.closed) this.closed = { time, packet: packet.number, kind: flags & RST ? 'RST' : 'FIN' };
    if (flags & RST) return;
    const first = (segment.sequence + (flags & SYN ? 1 : 0)) >>> 0;
    if (flags & SYN) this.opening = segment.sequence;
    this.zero ??= first;
    const at = this.last = this.placeOf(first);
    this.end = Math.max(this.end, at + segment.length);
    if (segment.captured) this.insert(time, packet.number, at, packet.offset + segment.payload, segment.captured);
    if (flags & FIN) this.fin = at + segment.length;
  }

  /**
   * Takes an acknowledgement by the other end, which may be that of the SYN.
   * @param {number} acked @param {boolean} isOpening
   */
  hear(acked, isOpening) {
    this.zero ??= acked;
    if (isOpening) this.opening ??= (acked - 1) >>> 0;
    this.acked = Math.max(this.acked, this.placeOf(acked));
  }

  /**
   * Puts in those bytes that aren't there yet.
   * @param {number} time @param {number} packet @param {number} at @param {number} offset @param {number} size
   */
  insert(time, packet, at, offset, size) {
    const end = at + size;
    let k = this.firstAfter(at);
    while (at < end) {
      const start = k < this.places.length ? this.places[k] : end;
      const n = (start <= at ? Math.min(start + this.sizes[k], end) : Math.min(start, end)) - at;
      if (start <= at) this.compare(this.offsets[k] + at - start, offset, n);
      else {
        if (k < this.places.length) this.late++;
        this.put(k, at, offset, n, time, packet);
      }
      at += n;
      offset += n;
      k++;
    }
  }

  /**
   * The first span that ends after this place.
   * @param {number} at
   */
  firstAfter(at) {
    let low = 0, high = this.places.length;
    if (!high || this.places[high - 1] + this.sizes[high - 1] <= at) return high;
    while (low < high) {
      const middle = (low + high) >> 1;
      if (this.places[middle] + this.sizes[middle] > at) high = middle; else low = middle + 1;
    }
    return low;
  }

  /** @param {number} held @param {number} given @param {number} size */
  compare(held, given, size) {
    const first = this.file.part(held, size), second = this.file.part(given, size);
    this.repeated += size;
    for (let k = 0; k < size; k++) if (first[k] !== second[k]) this.conflicts++;
  }

  /** @param {number} k @param {number} at @param {number} offset @param {number} size @param {number} time @param {number} packet */
  put(k, at, offset, size, time, packet) {
    if (k === this.places.length) {
      this.places.push(at);
      this.offsets.push(offset);
      this.sizes.push(size);
      this.times.push(time);
      this.packets.push(packet);
    } else {
      this.places.splice(k, 0, at);
      this.offsets.splice(k, 0, offset);
      this.sizes.splice(k, 0, size);
      this.times.splice(k, 0, time);
      this.packets.splice(k, 0, packet);
    }
  }

  /** The place of the first byte: after the SYN, or the first that there is. */
  base() {
    if (this.opening !== null) return distance((this.opening + 1) >>> 0, this.zero);
    return this.places.length ? this.places[0] : 0;
  }

  /** The place, from the base on, and the length of each run of bytes that were sent and aren't there. */
  gaps() {
    const base = this.base();
    /** @type {import('./types.js').Gap[]} */
    const found = [];
    let at = base;
    this.places.forEach((start, k) => {
      if (start > at) found.push({ at: at - base, size: start - at });
      at = Math.max(at, start + this.sizes[k]);
    });
    // an acknowledgement counts the FIN as one byte, and a FIN that wasn't captured too
    const end = this.fin ?? Math.max(this.end, this.acked > at + 1 ? this.acked : at);
    if (end > at) found.push({ at: at - base, size: end - at });
    return found;
  }

  /** The bytes up to the first gap. */
  stream() {
    const base = this.base(), from = this.firstAfter(base);
    let to = from;
    for (let at = base; to < this.places.length && this.places[to] <= at; to++) at = this.places[to] + this.sizes[to];
    const starts = this.places.slice(from, to).map(place => place - base);
    const offsets = this.offsets.slice(from, to), sizes = this.sizes.slice(from, to);
    if (to > from && starts[0] < 0) {
      offsets[0] -= starts[0];
      sizes[0] += starts[0];
      starts[0] = 0;
    }
    return new Stream(this.file, starts, offsets, sizes, this.times.slice(from, to), this.packets.slice(from, to));
  }
}
