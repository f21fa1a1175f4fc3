// Bencoding as a tree with offsets, to be shown. It judges nothing: what is refused, the proved reader says.

/** @typedef {import('./types.js').BencodeNode} BencodeNode */

const DEEPEST = 64;
const LETTER = { i: 0x69, l: 0x6c, d: 0x64, e: 0x65, colon: 0x3a, zero: 0x30, nine: 0x39 };

/** @param {Uint8Array} bytes @param {number} from @param {number} to */
const ascii = (bytes, from, to) => String.fromCharCode(...bytes.subarray(from, Math.min(to, from + 40)));

class TreeParser {
  /** @param {Uint8Array} bytes */
  constructor(bytes) {
    this.bytes = bytes;
    this.bad = -1;              // the first byte that can't be read
  }

  /** @param {number} place @returns {null} */
  fail(place) {
    if (this.bad < 0) this.bad = place;
    return null;
  }

  /** @param {number} at @param {number} depth @returns {BencodeNode | null} */
  value(at, depth) {
    if (at >= this.bytes.length || depth > DEEPEST) return this.fail(at);
    const head = this.bytes[at];
    if (head === LETTER.i) return this.integer(at);
    if (head === LETTER.l || head === LETTER.d) return this.container(at, depth, head === LETTER.d);
    return this.isDigit(at) ? this.string(at) : this.fail(at);
  }

  /** @param {number} at */
  isDigit(at) { return this.bytes[at] >= LETTER.zero && this.bytes[at] <= LETTER.nine; }

  /** @param {number} at @returns {BencodeNode | null} */
  integer(at) {
    const end = this.bytes.indexOf(LETTER.e, at);
    if (end < 0 || end - at > 32) return this.fail(at + 1);
    const text = ascii(this.bytes, at + 1, end);
    return /^-?\d+$/.test(text) ? { type: 'integer', at, end: end + 1, value: text } : this.fail(at + 1);
  }

  /** @param {number} at @returns {BencodeNode | null} */
  string(at) {
    const colon = this.bytes.indexOf(LETTER.colon, at);
    if (colon < 0 || colon - at > 8) return this.fail(at);
    const text = ascii(this.bytes, at, colon);
    if (!/^\d+$/.test(text)) return this.fail(at);
    const end = colon + 1 + Number(text);
    return end > this.bytes.length ? this.fail(this.bytes.length) : { type: 'string', at, body: colon + 1, end };
  }

  /**
   * What can be read of it, even if its end can't.
   * @param {number} at @param {number} depth @param {boolean} isDictionary @returns {BencodeNode}
   */
  container(at, depth, isDictionary) {
    /** @type {BencodeNode} */
    const node = { type: isDictionary ? 'dictionary' : 'list', at, end: -1, children: [] };
    let place = at + 1;
    while (place < this.bytes.length && this.bytes[place] !== LETTER.e) {
      const key = isDictionary ? this.isDigit(place) ? this.string(place) : this.fail(place) : undefined;
      const child = key === null ? null : this.value(key ? key.end : place, depth + 1);
      if (child || key) node.children.push(key ? { key, child } : { child });
      if (!child || this.bad >= 0) {
        node.end = child ? child.end : key ? key.end : place;
        return node;
      }
      place = child.end;
    }
    if (place >= this.bytes.length) this.fail(place);
    node.end = Math.min(place + 1, this.bytes.length);
    return node;
  }
}

/**
 * The value that starts at `at`, and where it ends: -1 if it can't be read whole.
 * @param {Uint8Array} bytes @param {number} [at] @returns {{ root: BencodeNode | null, end: number }}
 */
export function parseTree(bytes, at = 0) {
  const parser = new TreeParser(bytes), root = parser.value(at, 0);
  return { root, end: root && parser.bad < 0 ? root.end : -1 };
}

/**
 * The first value under a key of a dictionary, or undefined.
 * @param {Uint8Array} bytes @param {BencodeNode | null | undefined} node @param {string} name
 */
export function childOf(bytes, node, name) {
  if (node?.type !== 'dictionary') return undefined;
  return node.children.find(({ key }) => key.end - key.body === name.length && ascii(bytes, key.body, key.end) === name)?.child;
}
