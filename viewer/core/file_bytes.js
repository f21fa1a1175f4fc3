// The bytes of a file, read a page at a time when they are needed. So a capture of several gigabytes needn't fit into memory.

const PAGE = 4 << 20;
const PAGES_KEPT = 128;

export class FileBytes {
  /**
   * @param {number} length
   * @param {(from: number, to: number) => Uint8Array} read
   */
  constructor(length, read) {
    this.length = length;
    this.read = read;
    /** @type {(Uint8Array | undefined)[]} */
    this.pages = [];
    /** @type {number[]} */
    this.used = [];
    this.kept = 0;
    this.clock = 0;
    this.last = -1;
  }

  /**
   * Reads from a Blob, which only a worker can do at once.
   * @param {Blob} blob
   */
  static ofBlob(blob) {
    const { FileReaderSync } = /** @type {any} */ (globalThis), reader = new FileReaderSync();
    return new FileBytes(blob.size, (from, to) => new Uint8Array(reader.readAsArrayBuffer(blob.slice(from, to))));
  }

  /** @param {Uint8Array} bytes */
  static ofArray(bytes) { return new FileBytes(bytes.length, (from, to) => bytes.subarray(from, to)); }

  /** @param {number} k */
  page(k) {
    if (k !== this.last) {
      this.used[k] = ++this.clock;
      this.last = k;
    }
    return this.pages[k] ?? this.load(k);
  }

  /** @param {number} k */
  load(k) {
    if (this.kept === PAGES_KEPT) this.dropOldest(k);
    const from = k * PAGE, page = this.read(from, Math.min(from + PAGE, this.length));
    this.pages[k] = page;
    this.kept++;
    return page;
  }

  /** @param {number} wanted */
  dropOldest(wanted) {
    let oldest = -1;
    for (let k = 0; k < this.pages.length; k++) {
      if (this.pages[k] && k !== wanted && (oldest < 0 || this.used[k] < this.used[oldest])) oldest = k;
    }
    this.pages[oldest] = undefined;
    this.kept--;
  }

  /**
   * Copies `size` bytes from the offset `from` to the place `at` of the target.
   * @param {number} from @param {Uint8Array} target @param {number} at @param {number} size
   */
  copy(from, target, at, size) {
    while (size > 0) {
      const k = Math.floor(from / PAGE), inside = from - k * PAGE, n = Math.min(PAGE - inside, size);
      target.set(this.page(k).subarray(inside, inside + n), at);
      from += n;
      at += n;
      size -= n;
    }
  }

  /** @param {number} from @param {number} size */
  part(from, size) {
    const found = new Uint8Array(Math.max(0, Math.min(size, this.length - from)));
    this.copy(from, found, 0, found.length);
    return found;
  }
}

/** A view of some bytes of a file that lie side by side, whether or not a page ends between them. */
export class FileWindow {
  /** @param {FileBytes} file */
  constructor(file) {
    this.file = file;
    /** @type {DataView} */
    this.view = new DataView(new ArrayBuffer(0));
    this.held = -1;             // the page that the view shows
    this.base = 0;              // where in the view the bytes asked for begin
  }

  /**
   * Shows `size` bytes from this offset on, at `base` of `view`. False if the file ends before.
   * @param {number} from @param {number} size
   */
  show(from, size) {
    if (from + size > this.file.length) return false;
    const k = Math.floor(from / PAGE), inside = from - k * PAGE;
    if (inside + size > PAGE) {
      const part = this.file.part(from, size);
      this.view = new DataView(part.buffer);
      this.held = -1;
      this.base = 0;
      return true;
    }
    if (this.held !== k) {
      const page = this.file.page(k);
      this.view = new DataView(page.buffer, page.byteOffset, page.length);
      this.held = k;
    }
    this.base = inside;
    return true;
  }
}
