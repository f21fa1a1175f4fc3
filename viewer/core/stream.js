// Bytes of one direction, which lie in spans of a file, one after the other.

/**
 * The running maximum.
 * @param {number[]} list
 */
function highest(list) {
  let most = -Infinity;
  return list.map(one => most = Math.max(most, one));
}

export class Stream {
  /**
   * `times` and `packets` are null where there are none.
   * @param {import('./file_bytes.js').FileBytes} file
   * @param {number[]} starts @param {number[]} offsets @param {number[]} sizes
   * @param {number[] | null} times @param {number[] | null} packets
   */
  constructor(file, starts, offsets, sizes, times, packets) {
    this.file = file;
    this.starts = starts;
    this.offsets = offsets;
    this.sizes = sizes;
    // a byte is readable when it and all before it are there
    this.times = times && Float64Array.from(highest(times));
    this.packets = packets && Uint32Array.from(highest(packets));
    this.length = starts.length ? starts[starts.length - 1] + sizes[sizes.length - 1] : 0;
  }

  /**
   * A whole file as a stream.
   * @param {import('./file_bytes.js').FileBytes} file
   */
  static raw(file) { return file.length ? new Stream(file, [0], [0], [file.length], null, null)
    : new Stream(file, [], [], [], null, null); }

  /**
   * The span that has the byte at this place.
   * @param {number} place
   */
  spanOf(place) {
    let low = 0, high = this.starts.length - 1;
    while (low < high) {
      const middle = (low + high + 1) >> 1;
      if (this.starts[middle] <= place) low = middle; else high = middle - 1;
    }
    return low;
  }

  /** @param {number} from @param {Uint8Array} target @param {number} at @param {number} size */
  copy(from, target, at, size) {
    for (let k = size ? this.spanOf(from) : 0; size > 0; k++) {
      const inside = from - this.starts[k], n = Math.min(this.sizes[k] - inside, size);
      this.file.copy(this.offsets[k] + inside, target, at, n);
      from += n;
      at += n;
      size -= n;
    }
  }

  /** @param {number} from @param {number} size */
  part(from, size) {
    const found = new Uint8Array(Math.max(0, Math.min(size, this.length - from)));
    this.copy(from, found, 0, found.length);
    return found;
  }

  /**
   * The same stream without its first bytes.
   * @param {number} skipped
   */
  after(skipped) {
    if (!skipped) return this;
    const k = this.spanOf(skipped), inside = skipped - this.starts[k];
    const starts = this.starts.slice(k).map(start => Math.max(start - skipped, 0));
    const offsets = this.offsets.slice(k), sizes = this.sizes.slice(k);
    offsets[0] += inside;
    sizes[0] -= inside;
    return new Stream(this.file, starts, offsets, sizes, this.times && [...this.times.subarray(k)], this.packets &&
      [...this.packets.subarray(k)]);
  }

  /**
   * Where a pattern starts, at the place `within` at most, or -1.
   * @param {Uint8Array} pattern @param {number} within
   */
  find(pattern, within) {
    const head = this.part(0, within + pattern.length);
    for (let at = head.indexOf(pattern[0]); at >= 0 && at + pattern.length <= head.length; at = head.indexOf(pattern[0], at + 1)) {
      if (pattern.every((byte, k) => head[at + k] === byte)) return at;
    }
    return -1;
  }
}
