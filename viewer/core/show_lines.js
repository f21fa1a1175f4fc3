// An item in the words of `bt_tool show` and of `bt_tool show --json`.
import { CODE, NAMES, nameOf } from './items.js';
import { parseTree, childOf } from './bencode_tree.js';
import { hexOf, utf8Of } from './text.js';

/** @typedef {import('./items.js').Items} Items @typedef {import('./types.js').ReadPart} ReadPart */

/**
 * The words after the name.
 * @param {Items} items @param {number} k @param {ReadPart} read
 */
function fieldsOf(items, k, read) {
  const code = items.code[k], a = items.a[k], b = items.b[k], c = items.c[k];
  switch (code) {
    case CODE.handshake: {
      const all = read(items.start[k], 68);
      return ` ${hexOf(all.subarray(20, 28))} ${hexOf(all.subarray(28, 48))} ${hexOf(all.subarray(48))}`;
    }
    case CODE.have: case CODE.suggest: case CODE.allowedFast: case CODE.port: case CODE.dontHave:
    case CODE.metadataRequest: case CODE.metadataReject: return ` ${a}`;
    case CODE.request: case CODE.cancel: case CODE.reject: case CODE.piece: return ` ${a} ${b} ${c}`;
    case CODE.bitfield: return ` ${c}`;
    case CODE.extHandshake: return ` ${b} ${c} size=${items.wide.get(k) ?? '-'} ut_metadata=${a < 256 ? a : '-'}`;
    case CODE.metadataData: return ` ${a} ${items.wide.get(k)} ${c}`;
    case CODE.metadataOther: case CODE.metadataMalformed: return ` ${b} ${c}`;
    case CODE.extRaw: return ` ${a} ${c}`;
    default: return NAMES[code] ? '' : ` ${code} ${c}`;
  }
}

/** @param {Items} items @param {number} k @param {ReadPart} read */
export const wordsOf = (items, k, read) => nameOf(items.code[k]) + fieldsOf(items, k, read);

/** @param {Items} items @param {number} k @param {ReadPart} read */
export const lineOf = (items, k, read) => `${items.start[k]} ${wordsOf(items, k, read)}`;

/**
 * The names and values after the item's name.
 * @param {Items} items @param {number} k @param {ReadPart} read @returns {Record<string, any>}
 */
function jsonFieldsOf(items, k, read) {
  const code = items.code[k], a = items.a[k], b = items.b[k], c = items.c[k], start = items.start[k];
  switch (code) {
    case CODE.handshake: {
      const all = read(start, 68), peerId = all.subarray(48);
      return { reserved: hexOf(all.subarray(20, 28)), info_hash: hexOf(all.subarray(28, 48)), peer_id: hexOf(peerId),
        peer_id_text: utf8Of(peerId) };
    }
    case CODE.have: case CODE.suggest: case CODE.allowedFast: case CODE.dontHave: return { index: a };
    case CODE.request: case CODE.cancel: case CODE.reject: return { index: a, begin: b, length: c };
    case CODE.piece: return { index: a, begin: b, bytes: c };
    case CODE.bitfield: return { bytes: c };
    case CODE.port: return { port: a };
    case CODE.extHandshake: return { dictionary: b, rest: c, metadata_size: items.wide.get(k) ?? null, ut_metadata: a < 256 ? a
      : null,
      client: clientOf(read(start + 6, b)) };
    case CODE.metadataRequest: case CODE.metadataReject: return { piece: a };
    case CODE.metadataData: return { piece: a, total_size: items.wide.get(k), bytes: c };
    case CODE.metadataOther: case CODE.metadataMalformed: return { dictionary: b, rest: c };
    case CODE.extRaw: return { id: a, bytes: c };
    default: return NAMES[code] ? {} : { id: code, bytes: c };
  }
}

/** @param {Items} items @param {number} k @param {ReadPart} read */
export function jsonOf(items, k, read) {
  const pairs = Object.entries({ offset: items.start[k], item: nameOf(items.code[k]), ...jsonFieldsOf(items, k, read) });
  return `{${pairs.map(([name, value]) => `"${name}":${typeof value === 'bigint' ? value : JSON.stringify(value)}`).join(',')}}`;
}

/** @param {import('./types.js').Verdict} verdict */
export function verdictJson(verdict) {
  return JSON.stringify(verdict.ok ? { verdict: 'ok', messages: verdict.messages, bytes: verdict.bytes }
    : { verdict: 'refused', message: verdict.message, offset: verdict.at, reason: verdict.reason });
}

/**
 * What `v` of an extended handshake's dictionary says, or null.
 * @param {Uint8Array} dictionary
 */
export function clientOf(dictionary) {
  const found = childOf(dictionary, parseTree(dictionary).root, 'v');
  return found?.type === 'string' ? utf8Of(dictionary.subarray(found.body, found.end)) : null;
}
