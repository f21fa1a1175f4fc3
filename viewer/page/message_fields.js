// The fields of a message, by the layout that the standards give it.
import { grouped, plural } from './dom.js';
import { BITS } from './message_words.js';
import { CODE } from '../core/items.js';
import { hexOf, printable } from '../core/text.js';

/** @typedef {import('./hex_view.js').Field} Field */

const INDEX = new Set([4, 13, 17]), INDEX_BEGIN_LENGTH = new Set([6, 8, 16]);
const BITFIELD = 5, PIECE = 7, PORT = 9, EXTENDED = 20, DICTIONARY = 0x64;

/** A list of fields that lie in the bytes. */
class FieldList {
  /** @param {Uint8Array} bytes */
  constructor(bytes) {
    this.bytes = bytes;
    this.view = new DataView(bytes.buffer, bytes.byteOffset, bytes.length);
    /** @type {Field[]} */ this.fields = [];
  }

  /** @param {number} from @param {number} to @param {string} kind @param {string} name @param {any} value @param {string | null} [note] */
  put(from, to, kind, name, value, note = null) {
    if (from < this.bytes.length) this.fields.push({ from, to: Math.min(to, this.bytes.length), kind, name, value, note });
  }

  /** @param {number} at */
  word(at) { return at + 4 <= this.bytes.length ? this.view.getUint32(at) : '…'; }

  /** @param {number} at @param {string} kind @param {string} name @param {string | null} [note] */
  putWord(at, kind, name, note = null) { this.put(at, at + 4, kind, name, this.word(at), note); }
}

/** @param {Uint8Array} bytes */
function handshakeFields(bytes) {
  const list = new FieldList(bytes), reserved = bytes.length >= 28 ? list.view.getBigUint64(20) : 0n;
  list.put(0, 1, 'length', "name's length", bytes[0]);
  list.put(1, 20, 'text', 'protocol', printable(bytes.subarray(1, 20), '·'));
  list.put(20, 28, 'reserved', 'reserved', hexOf(bytes.subarray(20, 28)),
    BITS.filter(([bit]) => reserved & bit).map(([, name]) => name).join(', ') || 'no extension');
  list.put(28, 48, 'index', 'info hash', hexOf(bytes.subarray(28, 48)));
  list.put(48, 68, 'id', 'peer id', printable(bytes.subarray(48, 68), '·'));
  return { found: list.fields, dictionary: -1 };
}

/** @param {FieldList} list @param {any} fields what the proved reader says of it; null: it is refused */
function extendedFields(list, fields) {
  const { bytes } = list, end = bytes.length, isRaw = !fields || fields.code === CODE.extRaw;
  list.put(5, 6, 'begin', 'extended id', bytes[5], bytes[5] === 0 ? 'the extended handshake' : 'as the receiver numbered it');
  if (isRaw) {
    const isDictionary = bytes[6] === DICTIONARY;
    list.put(6, end, isDictionary ? 'dict' : 'block', 'payload', plural(Math.max(0, end - 6), 'byte'), fields ? 'not judged'
      : null);
    return isDictionary ? 6 : -1;
  }
  if (fields.code === CODE.dontHave) {
    list.putWord(6, 'index', 'index', 'piece');
    return -1;
  }
  list.put(6, 6 + fields.b, 'dict', 'dictionary', plural(fields.b, 'byte'));
  if (fields.c) list.put(6 + fields.b, end, 'block', fields.code === CODE.metadataData ? 'block' : 'rest',
    plural(fields.c, 'byte'));
  return 6;
}

/** @param {Uint8Array} bytes */
function bitsSet(bytes) {
  let set = 0;
  for (const byte of bytes) for (let bits = byte; bits; bits &= bits - 1) set++;
  return set;
}

/** @param {FieldList} list @param {number} id */
function payloadFields(list, id) {
  const { bytes } = list, end = bytes.length;
  if (INDEX.has(id) || INDEX_BEGIN_LENGTH.has(id) || id === PIECE) list.putWord(5, 'index', 'index', 'piece');
  if (INDEX_BEGIN_LENGTH.has(id) || id === PIECE) list.putWord(9, 'begin', 'begin', 'first byte in the piece');
  if (INDEX_BEGIN_LENGTH.has(id)) list.putWord(13, 'size', 'length', 'bytes of the block');
  else if (id === PIECE) list.put(13, end, 'block', 'block', plural(Math.max(0, end - 13), 'byte'));
  else if (id === BITFIELD) {
    list.put(5, end, 'block', 'bits', plural(Math.max(0, end - 5), 'byte'),
      `${grouped(bitsSet(bytes.subarray(5)))} of at most ${grouped((end - 5) * 8)} pieces`);
  } else if (id === PORT) list.put(5, 7, 'index', 'port', end >= 7 ? list.view.getUint16(5) : '…');
  else if (!INDEX.has(id) && end > 5) list.put(5, end, 'block', 'payload', plural(end - 5, 'byte'));
}

/**
 * The fields of a message that starts at bytes[0], and where in it a dictionary starts, or -1.
 * @param {Uint8Array} bytes @param {any} fields @param {boolean} isHandshake
 */
export function fieldsOf(bytes, fields, isHandshake) {
  if (isHandshake) return handshakeFields(bytes);
  const list = new FieldList(bytes), id = bytes[4];
  list.putWord(0, 'length', 'length', list.word(0) === 0 ? 'a keep-alive' : null);
  list.put(4, 5, 'id', 'id', id);
  if (id === EXTENDED) return { found: list.fields, dictionary: extendedFields(list, fields) };
  payloadFields(list, id);
  return { found: list.fields, dictionary: -1 };
}
