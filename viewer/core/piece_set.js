// A set of piece indexes, of which there may be millions, or few that lie far apart.

const BITS = 16;

export class PieceSet {
  constructor() {
    /** @type {Map<number, Uint32Array>} */
    this.chunks = new Map();
    this.hasAll = false;
  }

  /** @param {number} index */
  has(index) {
    const chunk = this.chunks.get(index >>> BITS);
    return this.hasAll || (chunk !== undefined && (chunk[(index & 65535) >>> 5] >>> (index & 31) & 1) === 1);
  }

  /** @param {number} index */
  add(index) {
    let chunk = this.chunks.get(index >>> BITS);
    if (!chunk) this.chunks.set(index >>> BITS, chunk = new Uint32Array(2048));
    chunk[(index & 65535) >>> 5] |= 1 << (index & 31);
  }

  addAll() { this.hasAll = true; }

  /**
   * Adds what a bitfield tells.
   * @param {Uint8Array} bytes
   */
  addBits(bytes) {
    bytes.forEach((byte, k) => {
      for (let bit = 0; byte && bit < 8; bit++) if (byte & 128 >> bit) this.add(8 * k + bit);
    });
  }
}
