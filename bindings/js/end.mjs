// An end of a connection for Node, over the proved library as an addon (dist/x86_64-linux/bt.node), and a fetch by it.
//
//   const metadata = await fetch('127.0.0.1', 6881, infoHash);
//
// Nothing of this file is proved. An end opens no socket and reads no clock. It is used by the thread that made it.
import { once } from 'node:events';
import net from 'node:net';
import { namesOf, usualAddon } from './addon.mjs';
import { ITEM_SIZE, OWN_SIZE, packOwn, REFUSED } from './library.mjs';
import { allKnown, appended, completed, content, DHT, EXTENSIONS, FAST, Id, Item, itemOf, Items, Kind, number, OWN, Refused } from './values.mjs';

export { DHT, EXTENSIONS, FAST, Id, Item, Kind, Refused };

/** What an item made of an end. */
export const Event = Object.freeze({
  OTHER: 0, OPENED: 1, ANNOUNCED: 2, BLOCK: 3, REJECTED: 4, FETCHED: 5, MISMATCHED: 6, SERVED: 7, DECLINED: 8, REQUESTED: 9, PIECE: 10,
});

const OPTIONS = [...OWN, 'fetch', 'serve', 'most', 'window', 'peerId'], FETCH_OPTIONS = ['timeout', 'signal', 'most', 'limit'];
const CONFIG_SIZE = 80, HEARD_SIZE = 160, WATCH = 0, SERVE = 1, FETCH = 2, SAY_NONE = 2;
const DONE = 0, ITEM = 1, BUSY = 5;
const WHY = {
  6: 'out of memory', 7: 'the end is closed', 8: "limit isn't 32,768 to 1,048,576", 9: 'infoHash is missing',
  10: "serve hasn't 1 to 67,108,864 bytes",
};
const WITH_PIECE = [Event.BLOCK, Event.REJECTED, Event.SERVED, Event.DECLINED];
// The greatest size of metadata.
const MOST = 67_108_864;
// Clients of this kind answer one request at a time: a second one makes them stop.
const ONE_AT_A_TIME = [0x2d, 0x6c, 0x74];

const addon = usualAddon(), names = namesOf(addon);

function done(status) {
  if (status !== DONE) throw new (status >= 8 ? RangeError : Error)(WHY[status] ?? `status ${status}`);
}

/** How many blocks are asked for at once. */
function windowOf(value) {
  if (number(value, 8, 'window') < 1 || value > 8) throw new RangeError(`window is ${value}, not 1 to 8`);
  return Number(value);
}

/** The bytes of a bt_end_config. */
function configOf(own, role, most, window, peerId) {
  const config = new Uint8Array(CONFIG_SIZE), view = new DataView(config.buffer);
  packOwn(view, config, 0, own);
  view.setBigUint64(OWN_SIZE, BigInt(number(most, 64, 'most')), true);
  config.set(content(peerId, 'peerId', 20), OWN_SIZE + 8);
  config.set([SAY_NONE, windowOf(window), role], OWN_SIZE + 28);
  return config;
}

/**
 * One end of a connection. It exchanges handshakes, and fetches or serves the torrent's metadata.
 *
 *   const end = new End({ infoHash, fetch: true });
 *   socket.write(end.take());
 *   socket.on('data', data => {
 *     for (const { event, item } of end.receive(data)) console.log(event, item.name);
 *     socket.write(end.take());
 *   });
 */
export class End {
  #end;
  #heard = new Uint8Array(HEARD_SIZE);
  #view = new DataView(this.#heard.buffer);
  // Bytes of the stream, the offset of the first, where the unfinished item starts in them, and up to where the end took them.
  #bytes = new Uint8Array();
  #base = 0;
  #from = 0;
  #taken = 0;

  /**
   * Makes an end on a new connection. Its handshake waits to be sent. It announces that it has no pieces.
   *
   * The receiver's fields are those of `bt.read`; it has an `infoHash`, and a `limit` of 32,768 to 1,048,576. `fetch` fetches the
   * metadata, of at most `most` bytes, and asks for `window` blocks at once, 1 to 8. `serve` is metadata to serve.
   */
  constructor(options = {}) {
    allKnown(options, OPTIONS, 'options');
    const { fetch = false, serve = null, most = null, window = 8, peerId = Buffer.from('-XX0001-node-node-no'), ...own } = options;
    const metadata = serve === null ? new Uint8Array() : content(serve, 'serve');
    if (fetch && serve !== null) throw new RangeError('an end fetches or serves');
    if (most !== null && !number(most, 64, 'most')) throw new RangeError('most is 0');
    const role = fetch ? FETCH : serve === null ? WATCH : SERVE;
    const found = addon.endNew(configOf(completed({ reserved: FAST | EXTENSIONS, ...own }), role, most ?? 0, window, peerId), metadata);
    if (typeof found === 'number') done(found);
    this.#end = found;
  }

  /** Frees it. Later calls throw. What is dropped without it is freed when its object is collected. */
  close() {
    if (this.#end) addon.endFree(this.#end);
    this.#end = null;
  }

  #open() {
    if (!this.#end) throw new Error('the end is closed');
    return this.#end;
  }

  /**
   * Takes all bytes, and returns an iterator over the items in them, each handled before it is returned: {item, event, piece, id, size,
   * begins}. What isn't taken from an iterator comes with the next. It ends early if 1 MiB waits to be sent: send some, and receive again,
   * which may be no bytes. It throws Refused if the peer breaks a rule, and so does each later one.
   */
  receive(data) {
    this.#open();
    this.#bytes = appended(this.#bytes.subarray(this.#from), content(data, 'data'));
    this.#base += this.#from;
    this.#taken -= this.#from;
    this.#from = 0;
    return new Items(() => this.#next());
  }

  #next() {
    const status = addon.endNext(this.#open(), this.#bytes, this.#taken, this.#heard);
    this.#taken += Number(this.#view.getBigUint64(0, true));
    if (status === REFUSED) {
      const [message, at] = [136, 144].map(place => Number(this.#view.getBigUint64(place, true)));
      throw new Refused(at, addon.reasonName(this.#heard[152]), message);
    }
    if (status === ITEM) return this.#told();
    if (status !== BUSY) done(status);
    return null;
  }

  /** What the addon has put into #heard: an item, and what it made of the end. */
  #told() {
    const view = this.#view, struct = new Uint32Array(this.#heard.buffer, 8, ITEM_SIZE / 4), EVENT = 8 + ITEM_SIZE;
    const item = itemOf({ names, bytes: this.#bytes, base: this.#base }, struct, 0);
    this.#from = this.#taken;
    const event = view.getUint32(EVENT + 8, true), announced = event === Event.ANNOUNCED;
    return {
      item, event, piece: WITH_PIECE.includes(event) ? view.getUint32(EVENT + 12, true) : null,
      id: announced && view.getUint8(EVENT + 17) ? view.getUint8(EVENT + 16) : null,
      size: announced && view.getUint8(EVENT + 18) ? Number(view.getBigUint64(EVENT, true)) : null,
      begins: announced && view.getUint8(EVENT + 19) === 1,
    };
  }

  /** Returns all bytes that wait to be sent, which then wait no more. */
  take() {
    return addon.endTake(this.#open());
  }

  /** The metadata that was fetched, whose SHA-1 is the info hash; null while it isn't there. */
  get metadata() {
    const found = addon.endMetadata(this.#open());
    return found.length ? found : null;
  }

  /** Whether no block can come any more on this connection, whatever the peer sends. */
  get isHopeless() {
    return addon.endIsHopeless(this.#open()) === 1;
  }

  /** How often, on this connection, the blocks that came were those of other metadata. */
  get mismatches() {
    return addon.endMismatches(this.#open());
  }

  /** Asks for at most this many blocks at once from now on, 1 to 8. */
  setWindow(window) {
    addon.endSetWindow(this.#open(), windowOf(window));
  }
}

/** Says why a peer doesn't give the metadata. */
export class FetchError extends Error {
  constructor(why) {
    super(why);
    this.name = 'FetchError';
  }
}

/** Handles what the peer sent, and returns the metadata if that is there, of at most so many bytes. */
function handled(end, data, most) {
  for (const { event, item, size } of end.receive(data)) {
    if (event === Event.ANNOUNCED && size !== null && !(size > 0 && size <= most)) {
      throw new FetchError(`the peer announced metadata of ${size} bytes, not of 1 to ${most}`);
    }
    if (event === Event.OPENED && ONE_AT_A_TIME.every((byte, k) => item.peerId[k] === byte)) end.setWindow(1);
    if (event === Event.FETCHED) return end.metadata;
    if (event === Event.MISMATCHED) throw new FetchError('the peer sent other metadata');
  }
  if (end.isHopeless) throw new FetchError('the peer has no metadata, or rejected a block of it');
  return null;
}

async function send(socket, bytes, signal) {
  if (bytes.length && !socket.write(bytes)) await once(socket, 'drain', { signal });
}

/**
 * Fetches the metadata of a torrent from the peer at this host and port. Its SHA-1 is the info hash.
 *
 * It ends within `timeout` milliseconds, or when `signal` is aborted, and rejects with that signal's reason, a DOMException by the name
 * TimeoutError if the time is over. It rejects with Refused if the peer breaks a rule, with FetchError if it doesn't give the metadata or
 * announces more than `most` bytes, and with the socket's error if it isn't reached. `most` and `limit` are those of `End`.
 */
export async function fetch(host, port, infoHash, options = {}) {
  allKnown(options, FETCH_OPTIONS, 'options');
  const { timeout = 30000, signal, most, limit } = options;
  number(port, 16, 'port');
  number(timeout, 31, 'timeout');
  const end = new End({ infoHash: content(infoHash, 'infoHash', 20), fetch: true, most, limit }), stop = new AbortController();
  const greatest = Math.min(Number(most ?? MOST), MOST);
  const timer = setTimeout(() => stop.abort(new DOMException("the peer didn't give the metadata in time", 'TimeoutError')), Number(timeout));
  const abort = () => stop.abort(signal.reason);
  if (signal?.aborted) abort();
  signal?.addEventListener('abort', abort);
  const socket = net.connect({ host, port: Number(port), signal: stop.signal });
  try {
    // (it waits until the connection is there)
    socket.write(end.take());
    for await (const data of socket) {
      const metadata = handled(end, data, greatest);
      if (metadata) return metadata;
      await send(socket, end.take(), stop.signal);
    }
    throw new FetchError('the peer closed the connection');
  } catch (error) {
    throw stop.signal.aborted ? stop.signal.reason : error;
  } finally {
    signal?.removeEventListener('abort', abort);
    clearTimeout(timer);
    socket.destroy();
    end.close();
  }
}
