// A bencoded dictionary as lines of a tree. The tree is this page's own: where it ends is compared with the proved reader's answer.
import { escape, grouped, plural } from './dom.js';
import { hexOf, printable } from '../core/text.js';

/** @typedef {import('../core/types.js').BencodeNode} BencodeNode @typedef {import('./hex_view.js').Field} Field */

const MOST_CHILDREN = 500, TEXT_SHOWN = 120, HEX_SHOWN = 32;
/** @type {Record<string, string>} */
const MEANINGS = { m: 'names of extensions, with the ids under which the sender wants them', v: 'client', p: 'listening port',
  reqq: 'how many requests it queues at most', metadata_size: 'bytes of the info dictionary',
    total_size: 'bytes of the whole metadata',
  upload_only: '1: wants no pieces', e: '1: prefers encryption', complete_ago: 'seconds since it was complete' };
/** @type {Record<string, string>} */
const TYPES = { 0: 'request', 1: 'data', 2: 'reject' };

/** @param {Uint8Array} bytes @param {BencodeNode} node */
function stringHtml(bytes, node) {
  const body = bytes.subarray(node.body, Math.min(node.end, node.body + TEXT_SHOWN)), size = node.end - node.body;
  if (body.every(byte => byte > 31 &&
    byte < 127)) return `<q>${escape(String.fromCharCode(...body))}${size > TEXT_SHOWN ? '…' : ''}</q>`;
  return `<code>${hexOf(body.subarray(0, HEX_SHOWN))}${size > HEX_SHOWN ? '…' : ''}</code>`;
}

/**
 * What a value means, as clients use it.
 * @param {string} name @param {Uint8Array} bytes @param {BencodeNode} node
 */
function meaningOf(name, bytes, node) {
  if (name === 'msg_type') return TYPES[node.value] ?? '';
  if (node.type !== 'string') return MEANINGS[name] ?? '';
  const body = bytes.subarray(node.body, node.end);
  if ((name === 'yourip' || name === 'ipv4') && body.length === 4) return [...body].join('.');
  if (name === 'pieces' && body.length % 20 === 0) return plural(body.length / 20, 'SHA-1 hash', 'SHA-1 hashes');
  if (name === 'added') return plural(Math.floor(body.length / 6), 'peer');
  if (name === 'added6') return plural(Math.floor(body.length / 18), 'peer');
  return MEANINGS[name] ?? '';
}

class TreeLines {
  /** @param {Uint8Array} bytes @param {Field[]} fields @param {number} base */
  constructor(bytes, fields, base) {
    this.bytes = bytes;
    this.fields = fields;
    this.base = base;
    /** @type {string[]} */ this.lines = [];
  }

  /** @param {number} from @param {number} to @param {string} kind @param {string} name */
  add(from, to, kind, name) { return this.fields.push({ from, to, kind, name }) - 1; }

  /** @param {BencodeNode} node @param {BencodeNode | undefined} key @param {number} depth */
  walk(node, key, depth) {
    const { bytes } = this, keyBytes = key ? bytes.subarray(key.body, key.end) : new Uint8Array(0),
      name = printable(keyBytes.subarray(0, 60), '.');
    const from = key ? key.at : node.at, whole = this.add(from, node.end < 0 ? bytes.length : node.end, 'dict', name || node.type);
    if (key) this.add(key.at, key.end, 'key', `key ${name}`);
    const isText = keyBytes.every(byte => byte > 31 && byte < 127);
    const label = key ? `<span class="tkey">${escape(isText ? name : hexOf(keyBytes))}</span>` : '', meaning = key
      ? meaningOf(name, bytes, node) : '';
    const head = `<div class="tline" data-f="${whole}" style="--d:${depth}"><span class="tat">${this.base + from}</span>${label}`;
    if (node.children) this.container(node, head, meaning, depth);
    else {
      this.add(node.at, node.end, node.type === 'integer' ? 'int' : 'string', node.type);
      const value = node.type === 'integer' ? `<span class="tint">${node.value}</span>` : stringHtml(bytes, node);
      const size = node.type === 'string' && node.end - node.body > 24 ? ` ${grouped(node.end - node.body)} bytes` : '';
      this.lines.push(`${head}<span class="tval">${value}</span><span class="tnote">${escape(meaning)}${size}</span></div>`);
    }
  }

  /** @param {BencodeNode} node @param {string} head @param {string} meaning @param {number} depth */
  container(node, head, meaning, depth) {
    const count = node.children.length;
    const note = `${count}${meaning ? ` · ${escape(meaning)}` : ''}`;
    this.lines.push(`${head}<span class="tkind">${node.type}</span><span class="tnote">${note}</span></div>`);
    for (const { key, child } of node.children.slice(0, MOST_CHILDREN)) if (child) this.walk(child, key, depth + 1);
    if (count <= MOST_CHILDREN) return;
    this.lines.push(`<div class="tline" style="--d:${depth + 1}"><span class="tat"></span>… ${count - MOST_CHILDREN} more</div>`);
  }
}

/**
 * The tree as HTML. Its parts are added to `fields`, for the hex view. Offsets are counted from `base`.
 * @param {Uint8Array} bytes @param {BencodeNode | null} root @param {Field[]} fields @param {number} base
 */
export function treeHtml(bytes, root, fields, base) {
  const made = new TreeLines(bytes, fields, base);
  if (root) made.walk(root, undefined, 0);
  return made.lines.join('');
}
