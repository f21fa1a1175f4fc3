// SHA-1 (FIPS 180-4), to tell whether captured metadata is that of the info hash.

/**
 * A round's function and constant.
 * @param {number} k @param {number} b @param {number} c @param {number} d
 */
function mixed(k, b, c, d) {
  if (k < 20) return (b & c | ~b & d) + 0x5a827999;
  if (k < 40) return (b ^ c ^ d) + 0x6ed9eba1;
  return k < 60 ? (b & c | b & d | c & d) + 0x8f1bbcdc : (b ^ c ^ d) + 0xca62c1d6;
}

/** @param {number[]} h @param {Int32Array} w */
function addBlock(h, w) {
  let [a, b, c, d, e] = h;
  for (let k = 0; k < 80; k++) {
    if (k > 15) {
      const x = w[k - 3] ^ w[k - 8] ^ w[k - 14] ^ w[k - 16];
      w[k] = x << 1 | x >>> 31;
    }
    const next = (a << 5 | a >>> 27) + mixed(k, b, c, d) + e + w[k] | 0;
    e = d;
    d = c;
    c = b << 30 | b >>> 2;
    b = a;
    a = next;
  }
  [a, b, c, d, e].forEach((word, k) => h[k] = h[k] + word | 0);
}

/**
 * In hex digits.
 * @param {Uint8Array} bytes
 */
export function sha1(bytes) {
  const size = bytes.length, blocks = new Uint8Array(((size + 72) >> 6) << 6), view = new DataView(blocks.buffer);
  blocks.set(bytes);
  blocks[size] = 0x80;
  view.setUint32(blocks.length - 8, Math.floor(size / 536870912));
  view.setUint32(blocks.length - 4, (size << 3) >>> 0);
  const h = [0x67452301, 0xefcdab89, 0x98badcfe, 0x10325476, 0xc3d2e1f0], w = new Int32Array(80);
  for (let block = 0; block < blocks.length; block += 64) {
    for (let k = 0; k < 16; k++) w[k] = view.getInt32(block + 4 * k);
    addBlock(h, w);
  }
  return h.map(word => (word >>> 0).toString(16).padStart(8, '0')).join('');
}
