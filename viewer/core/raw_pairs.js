// Raw streams, of which two may be the directions of one connection.
import { Direction } from './direction.js';
import { Stream } from './stream.js';
import { FileBytes } from './file_bytes.js';

/** @typedef {import('./session.js').OpenFile} OpenFile */

/**
 * A file's name without the part that says which direction it has.
 * @param {string} name
 */
const stem = name => name.replace(/(c2s|s2c|[-_.](?:a|b|left|right|in|out))(?=\.[^.]*$|$)/i, '');
const empty = () => new Direction(Stream.raw(FileBytes.ofArray(new Uint8Array(0))), [], null);

/**
 * Whether two directions may be one connection's: their peer ids differ, and their info hashes are the same. The ends of a hybrid
 * torrent may name its two info hashes; the names of the files say that they belong together then.
 * @param {{ name: string, direction: Direction }} one @param {{ name: string, direction: Direction }} other
 */
function belong(one, other) {
  const hash = (/** @type {Direction} */ it) => String(it.read(28, 20)), id = (/** @type {Direction} */ it) =>
    String(it.read(48, 20));
  return id(one.direction) !== id(other.direction) &&
    (hash(one.direction) === hash(other.direction) || stem(one.name) === stem(other.name));
}

/**
 * Two files belong together if their names say so, or if they are the only two.
 * @param {OpenFile[]} files
 */
export function pairsOfRaw(files) {
  const found = files.map(({ name, bytes }) => ({ name, direction: new Direction(Stream.raw(bytes), [], null) })), used = new Set();
  /** @type {Omit<import('./session.js').Pair, 'number'>[]} */
  const pairs = [];
  for (const one of found) {
    if (used.has(one)) continue;
    used.add(one);
    const mate = found.find(other => !used.has(other) && (found.length === 2 || stem(other.name) === stem(one.name)) &&
      belong(one, other));
    if (mate) used.add(mate);
    pairs.push({ connection: null, isRaw: true, names: [one.name, mate?.name ?? ''],
      directions: [one.direction, mate?.direction ?? empty()] });
  }
  return pairs;
}
