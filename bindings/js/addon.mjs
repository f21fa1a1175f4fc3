// The proved library as an addon for Node (bt.node, made of addon/bt_node.c): where it is, and what bt.mjs wants of it. Nothing of this
// file is proved. What is read stays in the caller's buffer.
import { existsSync } from 'node:fs';
import { createRequire } from 'node:module';
import { resolve } from 'node:path';
import { fileURLToPath } from 'node:url';
import { ITEM, ITEM_SIZE, OWN_SIZE, packOwn, READER_SIZE } from './library.mjs';
import { Extended, EXTENDED_WORDS, fill, Id, Item, KEPT, Names, putItem } from './values.mjs';

const ABI = 2, VERDICT_SIZE = 24, HEAD_WORDS = 8, ROOM = 2048, HANDSHAKE_SIZE = 68;
const ITEMS_AT = HEAD_WORDS, EXTENDED_AT = HEAD_WORDS + KEPT * ROOM, OUT_WORDS = EXTENDED_AT + EXTENDED_WORDS * ROOM;
const { EXTENDED } = Id, DEFAULT_PLACES = ['./bt.node', '../../dist/x86_64-linux/bt.node'];

/** The calls of the addon at a path or a file URL. They throw for what doesn't fit. */
export function addonAt(place) {
  const path = /^file:/.test(String(place)) ? fileURLToPath(place) : resolve(place);
  if (`${process.platform} ${process.arch}` !== 'linux x64') throw new Error('The addon bt.node is built for Linux on x86-64.');
  const found = createRequire(import.meta.url)(path);
  if (found.abi() !== ABI || !found.readerBatch) throw new Error(`${path} is of another version of the library.`);
  return found;
}

/** The calls of the usual addon: BT_ADDON of the environment, or bt.node beside this file, or that of the repository. */
export function usualAddon() {
  const places = DEFAULT_PLACES.map(name => fileURLToPath(new URL(name, import.meta.url))), path = process.env.BT_ADDON ?? places.find(existsSync);
  if (path === undefined) throw new Error(`There is no bt.node at ${places.join(' or ')}; BT_ADDON may name it.`);
  return addonAt(path);
}

/** The names of items. */
export function namesOf(addon) {
  return new Names((id, kind) => {
    const item = new DataView(new ArrayBuffer(ITEM_SIZE));
    item.setUint16(46, id, true);
    item.setUint8(84, kind);
    return addon.itemName(new Uint8Array(item.buffer));
  });
}

/** What bt.mjs wants of a library: readers and writers whose state is a bt_reader that JavaScript keeps. wasm.mjs has the same calls. */
export class Addon {
  constructor(addon) {
    this.addon = addon;
    this.names = namesOf(addon);
    this.out = new Uint32Array(OUT_WORDS);
    // The last batch, if its words lie in `out` and aren't all taken.
    this.last = null;
    this.own = new Uint8Array(OWN_SIZE);
    this.item = new Uint8Array(ITEM_SIZE);
    this.view = new DataView(this.item.buffer);
    this.written = new Uint8Array(ITEM_SIZE);
    this.shown = new DataView(this.written.buffer);
    this.area = new Uint8Array(256);
  }

  reasonName(reason) { return this.addon.reasonName(reason); }

  putOwn(own) {
    packOwn(new DataView(this.own.buffer), this.own, 0, own);
    return this.own;
  }

  /** The state of a reader at the start of a stream. */
  begin(own) {
    const state = new Uint8Array(READER_SIZE);
    this.addon.readerInit(state, this.putOwn(own));
    return state;
  }

  /**
   * Reads items of the bytes from `at` on. Returns the status, how many items there are and how many bytes they have, and the place and
   * reason of a refusal. `kept` and `fill` are for the items that were read last.
   */
  batch(state, bytes, at, ended) {
    this.release();
    const { out } = this, status = this.addon.readerBatch(state, bytes, at, ended ? 1 : 0, out);
    return { status, count: out[0], used: out[2] + out[3] * 4294967296, place: out[4] + out[5] * 4294967296, reason: out[6] };
  }

  /** The batch of the items, which lie in bytes that begin at the offset `base` on the stream. */
  kept(bytes, base) {
    this.last = { names: this.names, words: this.out, bytes, base };
    return this.last;
  }

  /** An item of a batch, by its number there. */
  itemAt(batch, row) {
    const { words } = batch, w = ITEMS_AT + KEPT * row, what = words[w + 3], value = words[w + 2];
    return new Item(batch, words[w], what, (what & 65535) === EXTENDED ? new Extended(words, EXTENDED_AT + EXTENDED_WORDS * value) : value);
  }

  /** Where an item starts on the stream. */
  startAt({ words, base }, row) { return base + words[ITEMS_AT + KEPT * row]; }
  /** Hears that all items of a batch are taken. */
  taken(batch) { if (batch === this.last) this.last = null; }

  /** Copies the words of the last batch if they aren't all taken, before others are written there. */
  release() {
    if (this.last) this.last.words = this.out.slice(0, this.out[1] ? EXTENDED_AT + EXTENDED_WORDS * this.out[1] : ITEMS_AT + KEPT * this.out[0]);
    this.last = null;
  }

  /** Puts the items into columns, from row `from` on. */
  fill(columns, from, bytes, base) {
    const { out } = this;
    fill(columns, from, { words: out.subarray(ITEMS_AT, ITEMS_AT + KEPT * out[0]), bytes, base });
  }

  /** Judges a whole stream. */
  check(own, bytes) {
    const verdict = new Uint8Array(VERDICT_SIZE), view = new DataView(verdict.buffer);
    const status = this.addon.check(this.putOwn(own), bytes, verdict);
    return { status, message: Number(view.getBigUint64(0, true)), at: Number(view.getBigUint64(8, true)), reason: verdict[16] };
  }

  handshake(reserved, infoHash, peerId) {
    const given = new Uint8Array(48), out = new Uint8Array(HANDSHAKE_SIZE);
    new DataView(given.buffer).setBigUint64(0, reserved, true);
    given.set(infoHash, 8);
    given.set(peerId, 28);
    this.addon.writeHandshake(given, out);
    return out;
  }

  /** The state of a writer. */
  writer(own, reserved) {
    const state = new Uint8Array(READER_SIZE);
    this.addon.writerInit(state, this.putOwn(own), reserved);
    return state;
  }

  write(state, message, body, room) {
    putItem(this.view, this.item, 0, message);
    return this.wrote(this.addon.write(state, this.space(room), this.written, this.item, body));
  }

  writeMetadata(state, kind, piece, totalSize, block, room) {
    return this.wrote(this.addon.writeMetadata(state, this.space(room), this.written, kind, piece, totalSize, block));
  }

  writeExtendedHandshake(state, metadataId, hasSize, size, room) {
    return this.wrote(this.addon.writeExtendedHandshake(state, this.space(room), this.written, metadataId, hasSize, size));
  }

  /** Room for a message, which is the same memory in each call. */
  space(room) {
    if (room > this.area.length) this.area = new Uint8Array(Math.max(room, 2 * this.area.length));
    return this.area;
  }

  /** What a call wrote: the bytes that `shown` says, or where and why they are refused. */
  wrote(status) {
    const { shown } = this, start = Number(shown.getBigUint64(0, true)), size = Number(shown.getBigUint64(8, true));
    return { status, bytes: status === ITEM ? this.area.slice(0, size) : null, place: start + size, reason: shown.getUint8(49) };
  }
}
