// The metadata that a connection carried, and what an info dictionary says.
import { CODE } from './items.js';
import { parseTree, childOf } from './bencode_tree.js';
import { utf8Of } from './text.js';
import { sha1 } from './sha1.js';

const MOST_BYTES = 16 << 20, BLOCK = 16384, ITEMS_READ = 2000000;

/** @param {import('./direction.js').Direction} direction @returns {import('./types.js').Info | null} */
function metadataOfOne({ items, stream, sender }) {
  /** @type {Map<number, number>} */
  const parts = new Map();
  let total = 0;
  for (let k = 0; k < Math.min(items.count, ITEMS_READ); k++) {
    if (items.code[k] !== CODE.metadataData) continue;
    total = Number(items.wide.get(k));
    parts.set(items.a[k], k);
  }
  if (!total || total > MOST_BYTES || parts.size < Math.ceil(total / BLOCK)) return null;
  const whole = new Uint8Array(total);
  for (const [index, k] of parts) {
    if (index * BLOCK + items.c[k] <= total) stream.copy(items.start[k] + 6 + items.b[k], whole, index * BLOCK, items.c[k]);
  }
  return sha1(whole) === sender.infoHash ? infoOf(whole, sender.infoHash) : null;
}

/**
 * The metadata, if all of it is there and its SHA-1 is the info hash.
 * @param {import('./direction.js').Direction[]} directions
 */
export function metadataOf(directions) {
  for (const direction of directions) {
    const found = metadataOfOne(direction);
    if (found) return found;
  }
  return null;
}

/** @param {Uint8Array} bytes an info dictionary @param {string} infoHash @returns {import('./types.js').Info} */
function infoOf(bytes, infoHash) {
  const { root } = parseTree(bytes), name = childOf(bytes, root, 'name'), hashes = childOf(bytes, root, 'pieces');
  const files = childOf(bytes, root, 'files')?.children;
  const number = (/** @type {import('./types.js').BencodeNode} */ node, /** @type {string} */ key) => {
    const found = childOf(bytes, node, key);
    return found?.type === 'integer' ? Number(found.value) : null;
  };
  const length = files ? files.reduce((sum, { child }) => sum + (number(child, 'length') ?? 0), 0) : number(root, 'length');
  return {
    infoHash, length, files: files?.length ?? 1, pieceLength: number(root, 'piece length'),
    name: name?.type === 'string' ? utf8Of(bytes.subarray(name.body, name.end)) : null,
    pieces: hashes?.type === 'string' ? Math.floor((hashes.end - hashes.body) / 20) : null,
  };
}

/**
 * What a .torrent file says, or null if it is none.
 * @param {Uint8Array} bytes
 */
export function torrentOf(bytes) {
  const { root } = parseTree(bytes), info = childOf(bytes, root, 'info');
  if (info?.type !== 'dictionary') return null;
  const part = bytes.slice(info.at, info.end);
  return infoOf(part, sha1(part));
}
