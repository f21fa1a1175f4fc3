// The BitTorrent peer wire (BEP 3, 5, 6, 9 and 10) for Node and browsers, over the proved library: bt.node in Node, else bt.wasm.
//
//   const bt = await load();
//   for (const item of bt.read(bytes)) console.log(item.start, item.name);
//
// end.mjs has an end of a connection, for Node. Nothing of this file is proved. A library is used by one thread.
import { END, inNode, ITEM, Library, MORE, packOwn, REFUSED } from './library.mjs';
import { appended, completed, content, DHT, EXTENSIONS, FAST, Id, Item, Items, Kind, kindOf, number, Refused } from './values.mjs';
import { Wasm } from './wasm.mjs';

export { DHT, EXTENSIONS, FAST, Id, Item, Kind, Refused };

const HEAD = 17, DICT = 160;    // what a message has besides its body, and a dictionary that the library writes
const NOTHING = new Uint8Array();

/**
 * Loads the library, and returns its calls.
 * @param {string | URL | BufferSource | WebAssembly.Module} [source] A path (in Node) or URL of bt.wasm, or its bytes, or the module; or the
 *  path or file URL of bt.node. If it is left out, in Node the addon if it is there, and otherwise bt.wasm: that beside this file, or that
 *  of the repository. BT_ADDON of the environment may name the addon.
 */
export async function load(source) {
  if (source === undefined) return new Wire(inNode() ? await usualInNode() : await wasmOf(new URL('bt.wasm', import.meta.url)));
  return new Wire(isAddon(source) ? await addonOf(source) : await wasmOf(source));
}

const isAddon = source => (typeof source === 'string' || source instanceof URL) && /\.node$/.test(String(source));

async function addonOf(source) {
  const { Addon, addonAt } = await import('./addon.mjs');
  return new Addon(addonAt(source));
}

async function wasmOf(source) {
  return new Wasm(await Library.make(typeof source === 'string' || source instanceof URL ? await fetched(source) : source));
}

/** The addon if Node can load it, and otherwise bt.wasm. If neither can be, the error says why. */
async function usualInNode() {
  const { Addon, usualAddon } = await import('./addon.mjs');
  try {
    return new Addon(usualAddon());
  } catch (why) {
    const beside = new URL('bt.wasm', import.meta.url), isThere = (await import('node:fs')).existsSync(beside);
    return wasmOf(isThere ? beside : new URL('../../dist/bt.wasm', import.meta.url)).catch(error => {
      throw new Error(`${why.message} ${error.message}`, { cause: why });
    });
  }
}

async function fetched(source) {
  if (inNode() && !/^https?:/.test(String(source))) return (await import('node:fs/promises')).readFile(source);
  return (await fetch(source)).arrayBuffer();
}

/** The fields of a message, none of which may be left out. */
function given(fields) {
  const missing = Object.keys(fields).find(name => fields[name] === undefined);
  if (missing) throw new TypeError(`${missing} is missing`);
  return fields;
}

/** The calls of a loaded library. Each receiver is {reserved, infoHash, pieces, metadataId, donthaveId, strict, limit}; what is left out is usual. */
class Wire {
  /** @param {import('./addon.mjs').Addon | Wasm} library */
  constructor(library) {
    this.library = library;
  }

  /** Returns an iterator over the items of a whole stream. It throws Refused. */
  read(bytes, own) {
    const feed = new Feed(this.library, own);
    feed.bytes = content(bytes, 'bytes');
    return feed.items(true);
  }

  /**
   * Reads a whole stream into columns of numbers, a row an item, and 0 for what an item doesn't have. `body` are sizes: a body is the end
   * of its item. A stream that breaks a rule isn't thrown: `refused` says it, and the rows are those before.
   */
  columns(bytes, own) {
    const reader = new Reader(this.library, own), whole = content(bytes, 'bytes');
    let columns = grown(null, 0, 0), rows = 0, refused = null;
    try {
      for (let at = 0; ;) {
        const { count, used } = reader.next(whole, at, true);
        if (!count) break;
        // as many as there are if the rest is alike
        if (rows + count > columns.id.length) columns = grown(columns, rows, Math.ceil(1.1 * (rows + count) * whole.length / (at + used)));
        this.library.fill(columns, rows, whole.subarray(at), at);
        at += used;
        rows += count;
      }
    } catch (error) {
      if (!(error instanceof Refused)) throw error;
      refused = error;
    }
    for (const name in columns) columns[name] = columns[name].subarray(0, rows);
    return { ...columns, refused };
  }

  /** Judges a whole stream, and returns how many messages follow its handshake. Throws Refused. */
  check(bytes, own) {
    return this.judged(bytes, own).message;
  }

  /** Judges a whole stream, and returns the verdict, as `bt_tool show --json` prints it. It doesn't throw Refused. */
  verdict(bytes, own) {
    try {
      const { message, at } = this.judged(bytes, own);
      return { verdict: 'ok', messages: message, bytes: at };
    } catch (error) {
      if (!(error instanceof Refused)) throw error;
      return error.toJSON();
    }
  }

  judged(bytes, own) {
    const { library } = this, found = library.check(completed(own), content(bytes, 'bytes'));
    if (found.status !== END) throw new Refused(found.at, library.reasonName(found.reason), found.message);
    return found;
  }

  /** Returns a feed: it reads a stream that comes in chunks of any size. */
  feed(own) {
    return new Feed(this.library, own);
  }

  /** Returns the 68 bytes of a handshake. */
  handshake(infoHash, peerId, reserved = FAST | DHT | EXTENSIONS) {
    return this.library.handshake(BigInt(number(reserved, 64, 'reserved')), content(infoHash, 'infoHash', 20), content(peerId, 'peerId', 20));
  }

  /** Returns a writer, of your own values and the reserved bits of the peer's handshake. */
  writer(own, reserved) {
    return new Writer(this.library, own, reserved);
  }
}

const COLUMNS = {
  start: Float64Array, size: Uint32Array, id: Uint16Array, kind: Uint8Array, index: Uint32Array, begin: Uint32Array, length: Uint32Array,
  body: Uint32Array,
};

/** Columns with the first rows of these, and room for so many. */
function grown(columns, rows, room) {
  return Object.fromEntries(Object.entries(COLUMNS).map(([name, Type]) => {
    const made = new Type(room);
    if (rows) made.set(columns[name].subarray(0, rows));
    return [name, made];
  }));
}

/** How far a stream is read, as a bt_reader. */
class Reader {
  constructor(library, own) {
    this.library = library;
    this.count = 0;
    /** Where the next item starts on the stream. */
    this.start = 0;
    /** Whether more bytes are needed for an item. */
    this.isDry = false;
    this.state = library.begin(completed(own));
  }

  /** Reads some items from `at` on: none if no item is whole. Throws Refused if the stream is refused there. */
  next(bytes, at, ended) {
    const { library } = this, { status, count, used, place, reason } = library.batch(this.state, bytes, at, ended);
    if (!count && status === REFUSED) throw new Refused(place, library.reasonName(reason), this.count);
    if (!count && status === MORE && bytes.length - at >= MOST) throw new RangeError('a message has 4 GiB or more');
    this.count += count;
    this.start += used;
    this.isDry = status === MORE;
    return { count, used };
  }
}

// No item may have as many bytes.
const MOST = 2 ** 32 - 1;

/**
 * Reads a stream that comes in chunks of any size. What isn't taken from an iterator isn't lost: the next one begins with it.
 * A refusal is thrown again in each later iterator.
 */
class Feed {
  constructor(library, own) {
    this.library = library;
    this.reader = new Reader(library, own);
    /** What isn't read yet. */
    this.bytes = new Uint8Array();
    // The batch that is read, the number of the first of its items that isn't taken, and how many it has.
    this.batch = null;
    this.row = 0;
    this.rows = 0;
  }

  /** Where the next item starts on the stream. */
  get start() {
    return this.isEmpty ? this.reader.start : this.library.startAt(this.batch, this.row);
  }

  /** Takes all bytes of the chunk, and returns an iterator over the items that are whole. It throws Refused. */
  push(chunk) {
    this.bytes = appended(this.bytes, content(chunk, 'chunk'));
    this.reader.isDry = false;
    return this.items(false);
  }

  /** Ends the stream, and returns an iterator over the items that are left. If none is left and one is unfinished, it throws at once. */
  finish() {
    if (this.isEmpty) this.fill(true);
    return this.items(true);
  }

  get isEmpty() {
    return this.row === this.rows;
  }

  /** Reads more items, and returns whether there are any. */
  fill(ended) {
    const { library, reader, bytes } = this, base = reader.start;
    library.taken(this.batch);
    if (reader.isDry && !ended) return false;
    const { count, used } = reader.next(bytes, 0, ended);
    if (!count) return false;
    this.batch = library.kept(bytes, base);
    this.row = 0;
    this.rows = count;
    this.bytes = bytes.subarray(used);
    return true;
  }

  items(ended) {
    return new FeedItems(this, ended);
  }
}

/** What a feed has, as `Items`. It calls no function that it was given, which is quicker. */
class FeedItems extends Items {
  constructor(feed, ended) {
    super(null);
    this.feed = feed;
    this.ended = ended;
  }

  next() {
    const { feed } = this, done = this.over || feed.row === feed.rows && !this.more();
    // (with one object for both answers an engine needs none)
    return { value: done ? undefined : feed.library.itemAt(feed.batch, feed.row++), done };
  }

  /** Reads more items, and returns whether there are any. It is over if not, or if that throws. */
  more() {
    this.over = true;
    this.over = !this.feed.fill(this.ended);
    return !this.over;
  }
}

/**
 * Writes messages, each judged as the peer judges it. Write in the order in which you send. Each method returns the bytes of a
 * message. It throws Refused if the peer would refuse it, and RangeError for what doesn't fit; then nothing has changed.
 */
class Writer {
  constructor(library, own, reserved) {
    this.library = library;
    this.count = 1;
    const complete = completed(own);
    // what the peer is taken to be, as a bt_reader
    this.state = library.writer(complete, BigInt(number(reserved, 64, 'reserved')));
    const judged = new DataView(this.state.buffer);
    this.known = { ...complete, reserved: judged.getBigUint64(0, true), metadataId: judged.getUint8(18) };
  }

  /** What the peer is taken to be: it has announced neither its limit nor its rules, so these are yours. Set it if you know better. */
  get peer() {
    return { ...this.known };
  }

  set peer(own) {
    this.known = completed(own);
    packOwn(new DataView(this.state.buffer), this.state, 0, this.known);
  }

  /** Takes the id for ut_metadata if the peer's item announces one. */
  hear(item) {
    if (!(item instanceof Item)) throw new TypeError(`item is ${kindOf(item)}, not an Item`);
    if (item.utMetadata !== null) this.peer = { ...this.known, metadataId: item.utMetadata };
  }

  /** Returns what a call wrote. */
  sent({ status, bytes, place, reason }, why) {
    if (status === REFUSED) throw new Refused(place, this.library.reasonName(reason), this.count);
    if (status !== ITEM) throw new RangeError(why);
    this.count += 1;
    return bytes;
  }

  /** Writes a message by its id, the numbers that the id has, and its bitfield, block or payload. */
  message(id, { index = 0, begin = 0, length = 0, port = 0, extendedId = 0, body = NOTHING } = {}) {
    const written = this.library.write(this.state, { index, begin, length, port, id, extendedId }, content(body, 'body'), HEAD + body.length);
    return this.sent(written, `no message has the id ${id}`);
  }

  keepAlive() { return this.message(Id.KEEP_ALIVE); }
  choke() { return this.message(Id.CHOKE); }
  unchoke() { return this.message(Id.UNCHOKE); }
  interested() { return this.message(Id.INTERESTED); }
  notInterested() { return this.message(Id.NOT_INTERESTED); }
  have(index) { return this.message(Id.HAVE, given({ index })); }
  bitfield(body) { return this.message(Id.BITFIELD, given({ body })); }
  request(index, begin, length) { return this.message(Id.REQUEST, given({ index, begin, length })); }
  piece(index, begin, body) { return this.message(Id.PIECE, given({ index, begin, body })); }
  cancel(index, begin, length) { return this.message(Id.CANCEL, given({ index, begin, length })); }
  port(port) { return this.message(Id.PORT, given({ port })); }
  suggest(index) { return this.message(Id.SUGGEST, given({ index })); }
  haveAll() { return this.message(Id.HAVE_ALL); }
  haveNone() { return this.message(Id.HAVE_NONE); }
  reject(index, begin, length) { return this.message(Id.REJECT, given({ index, begin, length })); }
  allowedFast(index) { return this.message(Id.ALLOWED_FAST, given({ index })); }

  /** Writes an extended message under the id that the peer announced for it. */
  extended(extendedId, body) { return this.message(Id.EXTENDED, given({ extendedId, body })); }

  /** Writes the extended handshake: your id for ut_metadata, if it isn't 0, and the size of the metadata that you serve. */
  extendedHandshake(metadataId = 0, size = null) {
    const id = Number(number(metadataId, 8, 'metadataId')), shown = BigInt(number(size ?? 0, 63, 'size'));
    return this.sent(this.library.writeExtendedHandshake(this.state, id, size === null ? 0 : 1, shown, HEAD + DICT), 'there is no room for it');
  }

  metadataRequest(piece) { return this.metadata(Kind.METADATA_REQUEST, piece, 0, NOTHING); }
  metadataReject(piece) { return this.metadata(Kind.METADATA_REJECT, piece, 0, NOTHING); }

  /** Writes a block of the metadata. */
  metadataData(piece, totalSize, block) {
    if (Number(number(totalSize, 63, 'totalSize')) === 0) throw new RangeError('totalSize is 0');
    return this.metadata(Kind.METADATA_DATA, piece, totalSize, content(block, 'block'));
  }

  metadata(kind, piece, totalSize, block) {
    const room = HEAD + DICT + block.length, number32 = Number(number(piece, 32, 'piece'));
    return this.sent(this.library.writeMetadata(this.state, kind, number32, BigInt(totalSize), block, room), 'the peer announced no id for ut_metadata');
  }
}
