// The proved library as WebAssembly (bt.wasm), as bt.mjs wants it: addon.mjs has the same calls. Nothing of this file is proved.
// The library sees only its own memory, so what is read or written is copied there, except what is inside long blocks.
import { ITEM, ITEM_SIZE, MORE, OWN_SIZE, READER_SIZE, REFUSED } from './library.mjs';
import { fillOf, Id, itemOf, Names, putItem, u32At } from './values.mjs';

const ROOM = 2048, WINDOW = 20 * ROOM, SPAN = 1 << 20, HANDSHAKE_SIZE = 68, PIECE_HEAD = 13, LONG = 512, MANY = 64, WORDS = ITEM_SIZE / 4;
const { PIECE } = Id, ACCEPTED = { place: 0, reason: 0 };

export class Wasm {
  /** @param {import('./library.mjs').Library} library */
  constructor(library) {
    this.library = library;
    this.items = library.take((ROOM + 1) * ITEM_SIZE);
    this.area = library.take(SPAN);
    this.room = SPAN;
    this.count = 0;
    this.see();
    // The arguments of bt_reader_batch that don't change.
    this.given = [library.reader, this.items, ROOM, library.small].map(BigInt);
    // The state of a reader, if it lies in the library's memory.
    this.state = null;
    // The last batch, if its bt_items lie in the library's memory and aren't all taken.
    this.last = null;
    this.names = new Names((id, kind) => {
      putItem(library.view, library.bytes, library.item, { id });
      library.view.setUint8(library.item + 84, kind);
      return library.itemName(library.item);
    });
  }

  reasonName(reason) { return this.library.reasonName(reason); }

  begin(own) {
    this.leave();
    this.library.begin(own);
    this.state = new Uint8Array(READER_SIZE);
    return this.state;
  }

  batch(state, bytes, at, ended) {
    this.release();
    this.enter(state);
    const { library } = this, rest = bytes.length - at, isOpen = this.memory[library.reader + OWN_SIZE] !== 0;
    for (let least = WINDOW; ; least *= 2) {
      const n = this.put(bytes, at, isOpen, least), { answer, count, used } = this.readArea(n);
      // (only some of the bytes were copied, and a long message may not be whole there)
      const isCut = answer === MORE && n < rest, isLast = answer === MORE && !isCut && !count && ended;
      if (isCut && !count) continue;
      const status = isCut ? ITEM : isLast ? library.finish(this.area, n, this.items) : answer;
      const { place, reason } = status === REFUSED ? this.refused(this.items + count * ITEM_SIZE) : ACCEPTED;
      this.count = count;
      return { status, count, used, place, reason };
    }
  }

  /** Reads items of the first bytes of the area. */
  readArea(n) {
    const { batched, library: { calls }, given: [reader, items, room, small] } = this;
    const answer = calls.bt_reader_batch(reader, BigInt(this.area), BigInt(n), items, room, small);
    return { answer, count: batched[0], used: batched[2] + batched[3] * 4294967296 };
  }

  kept(bytes, base) {
    this.last = { names: this.names, words: this.structs, bytes, base };
    return this.last;
  }

  itemAt(batch, row) { return itemOf(batch, batch.words, WORDS * row); }
  startAt({ words }, row) { return words[WORDS * row] + words[WORDS * row + 1] * 4294967296; }
  taken(batch) { if (batch === this.last) this.last = null; }
  fill(columns, from, bytes, base) { fillOf(columns, from, this.structs, this.count, base); }

  /** The place and the reason of a bt_item, after a refusal. */
  refused(at) {
    const { view } = this.library;
    return { place: Number(view.getBigUint64(at, true) + view.getBigUint64(at + 8, true)), reason: view.getUint8(at + 49) };
  }

  /** Copies the bt_items of the last batch if they aren't all taken, before something else is written there. */
  release() {
    if (this.last) this.last.words = this.structs.slice(0, WORDS * this.count);
    this.last = null;
  }

  /** Makes the views of the library's memory, which end when it grows: of all its bytes, the bt_items and the bt_batch. */
  see() {
    const { bytes, small } = this.library;
    this.memory = bytes;
    this.structs = new Uint32Array(bytes.buffer, this.items, (ROOM + 1) * WORDS);
    this.batched = new Uint32Array(bytes.buffer, small, 4);
  }

  /** Puts the state of a reader into the library's memory, if it isn't there. */
  enter(state) {
    if (this.state === state) return;
    this.leave();
    this.memory.set(state, this.library.reader);
    this.state = state;
  }

  /** Takes the state of a reader out of the library's memory, before something else is written there. */
  leave() {
    if (this.state) this.save(this.state);
    this.state = null;
  }

  save(state) {
    const { reader } = this.library;
    state.set(this.memory.subarray(reader, reader + READER_SIZE));
  }

  check(own, bytes) {
    const n = this.put(bytes, 0, false, Infinity), { library, library: { small, view } } = this;
    library.putOwn(library.own, own);
    const status = library.calls.bt_check(BigInt(library.own), BigInt(this.area), BigInt(n), BigInt(small));
    return { status, message: Number(view.getBigUint64(small, true)), at: Number(view.getBigUint64(small + 8, true)), reason: view.getUint8(small + 16) };
  }

  handshake(reserved, infoHash, peerId) {
    const { library } = this;
    library.view.setBigUint64(library.small, reserved, true);
    library.bytes.set(infoHash, library.small + 8);
    library.bytes.set(peerId, library.small + 28);
    library.calls.bt_write_handshake(BigInt(library.small), BigInt(library.item), BigInt(HANDSHAKE_SIZE));
    return library.bytes.slice(library.item, library.item + HANDSHAKE_SIZE);
  }

  writer(own, reserved) {
    const { library } = this, state = new Uint8Array(READER_SIZE);
    this.leave();
    library.putOwn(library.own, own);
    library.calls.bt_writer_init(BigInt(library.reader), BigInt(library.own), reserved);
    this.save(state);
    return state;
  }

  write(state, message, body, room) {
    const { library } = this;
    putItem(library.view, library.bytes, library.item, message);
    return this.written('bt_write', state, [BigInt(library.item)], body, room);
  }

  writeMetadata(state, kind, piece, totalSize, block, room) {
    return this.written('bt_write_metadata', state, [kind, piece, totalSize], block, room);
  }

  writeExtendedHandshake(state, metadataId, hasSize, size, room) {
    return this.written('bt_write_extended_handshake', state, [metadataId, hasSize, size], null, room);
  }

  /** Makes a call that writes after its body, with these arguments in front. */
  written(call, state, before, body, room) {
    const { library } = this, n = body?.length ?? 0;
    this.leave();
    this.grow(n + room);
    const { bytes, view } = library, out = this.area + n;
    if (body) bytes.set(body, this.area);
    bytes.set(state, library.reader);
    const source = body ? [BigInt(this.area), BigInt(n)] : [];
    const status = library.calls[call](BigInt(library.reader), ...before, ...source, BigInt(out), BigInt(room), BigInt(library.written));
    this.save(state);
    const size = Number(view.getBigUint64(library.written + 8, true));
    return { status, bytes: status === ITEM ? bytes.slice(out, out + size) : null, ...this.refused(library.written) };
  }

  grow(wanted) {
    if (wanted <= this.room) return;
    this.release();
    this.room = Math.max(wanted, 2 * this.room);
    this.area = this.library.take(this.room);
    this.see();
  }

  /**
   * Copies bytes from `at` on into the library's memory, and returns how many lie there: some messages, `least` bytes of them that are
   * copied. Of a long block only the head of its message is: no rule looks at what is inside, and what is there in its place isn't read.
   */
  put(bytes, at, isOpen, least) {
    const stop = Math.min(bytes.length, at + Math.max(SPAN, least)), { skips, end } = blocksIn(bytes, at, stop, isOpen, least);
    this.grow(end - at);
    const { memory } = this, to = this.area - at;
    let from = at;
    for (let k = 0; k < skips.length; k += 2) {
      copy(memory, to, bytes, from, skips[k]);
      from = skips[k + 1];
    }
    copy(memory, to, bytes, from, end);
    return end - at;
  }
}

/** Copies some bytes, each to the place `to` further on. */
function copy(memory, to, bytes, from, end) {
  // (a view takes longer than this for the head of a message)
  if (end - from > 32) memory.set(bytes.subarray(from, end), from + to);
  else for (let k = from; k < end; k++) memory[k + to] = bytes[k];
}

/**
 * Where the insides of long blocks begin and end, in turn, and where the bytes end that are to lie in the library's memory. It looks no
 * further after many messages without a long block, since to frame small ones twice would take longer than to copy them.
 */
function blocksIn(bytes, at, stop, isOpen, least) {
  const skips = [];
  let from = isOpen ? at : at + HANDSHAKE_SIZE, skipped = 0;
  for (let others = 0; others < MANY && from + PIECE_HEAD <= stop && from - at - skipped < least; others++) {
    const next = from + 4 + u32At(bytes, from);
    if (bytes[from + 4] === PIECE && next - from >= LONG) {
      skips.push(from + PIECE_HEAD, Math.min(next, stop));
      skipped += Math.min(next, stop) - from - PIECE_HEAD;
      others = 0;
    }
    from = next;
  }
  return { skips, end: Math.min(stop, at + least + skipped) };
}
