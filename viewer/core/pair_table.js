// A map from two numbers of 32 bits to a number from 0 to 2^32 - 2: what a request asks for, and where it stands. A Map of millions
// of requests takes ten times as long.

export class PairTable {
  constructor() {
    this.size = 0;
    this.make(1024);
  }

  /** @param {number} room a power of two */
  make(room) {
    this.mask = room - 1;
    this.first = new Uint32Array(room);
    this.second = new Uint32Array(room);
    this.value = new Uint32Array(room);     // the value and 1; 0: free
  }

  /**
   * Where the pair stands, or would.
   * @param {number} first @param {number} second
   */
  slot(first, second) {
    let at = Math.imul(first, 0x9e3779b1) ^ Math.imul(second >>> 4 ^ second << 28, 0x85ebca6b);
    at = (at ^ at >>> 15) & this.mask;
    while (this.value[at] && (this.first[at] !== first || this.second[at] !== second)) at = at + 1 & this.mask;
    return at;
  }

  /**
   * The value, or -1.
   * @param {number} first @param {number} second
   */
  get(first, second) { return this.value[this.slot(first, second)] - 1; }

  /** @param {number} first @param {number} second @param {number} value */
  set(first, second, value) {
    let at = this.slot(first, second);
    if (!this.value[at]) {
      if (++this.size * 2 > this.mask) {
        this.grow();
        at = this.slot(first, second);
      }
      this.first[at] = first;
      this.second[at] = second;
    }
    this.value[at] = value + 1;
  }

  /** @param {number} first @param {number} second */
  delete(first, second) {
    const free = this.slot(first, second);
    if (!this.value[free]) return;
    this.size--;
    this.value[free] = 0;
    // what stood after it because it was there moves up
    for (let at = free + 1 & this.mask; this.value[at]; at = at + 1 & this.mask) {
      const value = this.value[at];
      this.value[at] = 0;
      this.keep(this.first[at], this.second[at], value);
    }
  }

  /** @param {number} first @param {number} second @param {number} stored */
  keep(first, second, stored) {
    const at = this.slot(first, second);
    this.first[at] = first;
    this.second[at] = second;
    this.value[at] = stored;
  }

  grow() {
    const { first, second, value } = this;
    this.make((this.mask + 1) * 4);
    value.forEach((stored, k) => { if (stored) this.keep(first[k], second[k], stored); });
  }

  /** @param {(value: number) => void} take */
  each(take) { this.value.forEach(stored => { if (stored) take(stored - 1); }); }
}
