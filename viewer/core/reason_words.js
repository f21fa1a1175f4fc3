// A refusal in words, made from the table tools/reasons.json and the bytes. `bt_tool capture` makes the same sentences.

/**
 * @typedef {{ rules: string, section: string, title: string, words: string, cure: string, [variant: string]: any }} Reason
 * @typedef {{ title: string, words: string, section: string, cure: string }} ReasonWords
 * @typedef {{ pieces: number | null, limit: number, isGuessed?: boolean }} Judged what the receiver is, as far as a sentence names
 *  it
 */

/** @type {Record<number, string>} */
const IDS = { 0: 'choke', 1: 'unchoke', 2: 'interested', 3: 'not interested', 4: 'have', 5: 'bitfield', 6: 'request', 7: 'piece',
  8: 'cancel',
  9: 'port', 13: 'suggest piece', 14: 'have all', 15: 'have none', 16: 'reject request', 17: 'allowed fast', 20: 'extended' };
/** @type {Record<number, string>} */
const LENGTHS = { 0: '1', 1: '1', 2: '1', 3: '1', 4: '5', 6: '13', 7: '9 or more', 8: '13', 9: '3', 13: '5', 14: '1', 15: '1',
  16: '13', 17: '5',
  20: '2 or more' };
const BITFIELD = 5, EXTENDED = 20, HASHES = new Set([21, 22, 23]);

/** @param {number | undefined} byte */
const byteText = byte => byte === undefined ? 'none' : `0x${byte.toString(16).padStart(2, '0')}`;

/** @param {number} id @param {number | null} pieces */
function lengthsOf(id, pieces) {
  if (id !== BITFIELD) return LENGTHS[id] ?? 'another';
  return pieces === null ? '1 or more' : `${1 + Math.ceil(pieces / 8)} for ${pieces} pieces`;
}

/**
 * What the sentences name.
 * @param {import('./types.js').Verdict} verdict @param {Uint8Array} bytes @param {Judged} own
 */
function factsOf({ at, start }, bytes, own) {
  const inside = at - start, id = bytes[4], { pieces } = own;
  const number = (/** @type {number} */ place) =>
    place + 4 <= bytes.length ? ((bytes[place] << 24 | bytes[place + 1] << 16 | bytes[place + 2] << 8 | bytes[place + 3]) >>> 0)
      : '?';
  const length = number(0);
  return {
    at, inside, id, length, pieces, last: pieces - 1, limit: own.limit, byte: byteText(bytes[inside]), name: IDS[id] ??
      `unknown (${id})`,
    index: number(inside), whole: typeof length === 'number' ? length + 4 : '?', lengths: lengthsOf(id, pieces),
    extension: id === EXTENDED ? 'Extension Protocol' : 'Fast Extension',
  };
}

/**
 * Which of a reason's sentences fits, by the end of its name.
 * @param {import('./types.js').Verdict} verdict @param {Uint8Array} bytes
 */
function variantOf({ reason, message, at, start }, bytes) {
  if (reason === 'EndInside') return message === 0 ? '_handshake' : at - start < 4 ? '_length' : '';
  if (reason === 'BadField') return bytes[5] === 0 ? '' : '_metadata';
  return reason === 'BadBencode' && at - start >= bytes.length ? '_cut' : '';
}

/**
 * `bytes` are the refused message, as far as it is there.
 * @param {Record<string, Reason>} table @param {import('./types.js').Verdict} verdict @param {Uint8Array} bytes
 * @param {Judged} own @returns {ReasonWords}
 */
export function reasonWords(table, verdict, bytes, own) {
  const reason = table[verdict.reason], facts = factsOf(verdict, bytes, own);
  const fill = (/** @type {string} */ text) => text.replace(/\{(\w+)\}/g, (_, name) =>
    String(facts[/** @type {keyof typeof facts} */ (name)]));
  const cure = own.isGuessed && reason.cure_guessed ? '_guessed' : reason.cure_hashes && HASHES.has(bytes[4]) ? '_hashes' : '';
  return { title: fill(reason.title), words: fill(reason[`words${variantOf(verdict, bytes)}`]), section: reason.section,
    cure: reason[`cure${cure}`] };
}
