// The proved reader over a whole stream, in windows. Nothing of this file is proved. It copies bytes in and reads structs out.
import { ITEM, ITEM_SIZE, Library, NEEDS_MEMORY64, REFUSED } from '../../bindings/js/library.mjs';

export { NEEDS_MEMORY64 };

const ROOM = 8192;              // items of a batch
const WINDOW = 4 << 20;         // bytes of a stream that are in the library's memory at a time
const SLOT_WORDS = ITEM_SIZE / 4;

/**
 * Takes the items of a batch, 22 words each, and returns true to stop.
 * @typedef {(words: Uint32Array, count: number) => boolean} TakeItems
 */

export class ProvedReader {
  /** @param {Uint8Array} bytes */
  static async make(bytes) {
    return new ProvedReader(await Library.make(bytes));
  }

  /** @param {Library} library */
  constructor(library) {
    this.library = library;
    this.items = library.take((ROOM + 1) * ITEM_SIZE);
    this.window = library.take(WINDOW);
    const { buffer } = library.bytes;
    this.bytes = new Uint8Array(buffer, this.window, WINDOW);
    this.words = new Uint32Array(buffer, this.items, (ROOM + 1) * SLOT_WORDS);
  }

  /**
   * Begins a stream.
   * @param {import('./types.js').Receiver} receiver
   */
  begin({ infoHash, ...rest }) {
    const digits = infoHash?.match(/../g);
    this.library.begin({ ...rest, infoHash: digits ? Uint8Array.from(digits, it => parseInt(it, 16)) : null });
  }

  /**
   * Reads a stream to its end or its refusal. Null if `take` stopped it.
   * @param {import('./types.js').Receiver} receiver
   * @param {import('./stream.js').Stream} stream
   * @param {TakeItems | null} take
   * @returns {import('./types.js').Verdict | null}
   */
  read(receiver, stream, take) {
    this.begin(receiver);
    const { library, bytes, words, window } = this;
    let held = 0, at = 0, total = 0;
    do {
      const fresh = Math.min(WINDOW - held, stream.length - at);
      stream.copy(at, bytes, held, fresh);
      at += fresh;
      held += fresh;
      let from = 0, state = ITEM;
      while (state === ITEM) {
        const { answer, count, used } = library.batch(window + from, held - from, this.items, ROOM);
        state = answer;
        from += used;
        total += count;
        if (take && count && take(words, count)) return null;
        if (state === REFUSED) return this.refusal(count, total);
      }
      bytes.copyWithin(0, from, held);
      held -= from;
    } while (at < stream.length);
    if (library.finish(window, held, this.items) === REFUSED) return this.refusal(0, total);
    return { ok: true, messages: total - 1, bytes: stream.length };
  }

  /** @param {number} slot @param {number} message @returns {import('./types.js').Verdict} */
  refusal(slot, message) {
    const { start, at, reason } = this.library.refusal(this.items + slot * ITEM_SIZE);
    return { ok: false, message, start, at, reason };
  }
}

/**
 * The verdict as `bt_tool` prints it.
 * @param {import('./types.js').Verdict} verdict
 */
export const verdictLine = verdict => verdict.ok ? `ok messages=${verdict.messages} bytes=${verdict.bytes}`
  : `refused message=${verdict.message} at=${verdict.at} ${verdict.reason}`;
