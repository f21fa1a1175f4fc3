// The loop that a user writes by hand: it frames and decodes. It gives no verdict and reads no bencoding.
export function* read(bytes) {
  const view = new DataView(bytes.buffer, bytes.byteOffset, bytes.byteLength);
  yield { start: 0, id: 257, index: null, begin: null, length: null, body: bytes.subarray(0, 68) };
  for (let at = 68; at + 4 <= bytes.length;) {
    const size = view.getUint32(at), end = at + 4 + size;
    if (end > bytes.length) return;
    yield size ? message(bytes, view, at, end) : { start: at, id: 256, index: null, begin: null, length: null, body: null };
    at = end;
  }
}

function message(bytes, view, start, end) {
  const id = view.getUint8(start + 4);
  switch (id) {
    case 4: case 13: case 17: return { start, id, index: view.getUint32(start + 5), begin: null, length: null, body: null };
    case 6: case 8: case 16:
      return { start, id, index: view.getUint32(start + 5), begin: view.getUint32(start + 9), length: view.getUint32(start + 13), body: null };
    case 7:
      return { start, id, index: view.getUint32(start + 5), begin: view.getUint32(start + 9), length: null, body: bytes.subarray(start + 13, end) };
    case 0: case 1: case 2: case 3: case 14: case 15: return { start, id, index: null, begin: null, length: null, body: null };
    default: return { start, id, index: null, begin: null, length: null, body: bytes.subarray(start + 5, end) };
  }
}

/** The items of chunks: what isn't whole is kept for the next one. */
export function* feed(bytes, size) {
  let rest = new Uint8Array(), base = 0;
  for (let from = 0; from < bytes.length; from += size) {
    const chunk = bytes.subarray(from, from + size), held = new Uint8Array(rest.length + chunk.length);
    held.set(rest);
    held.set(chunk, rest.length);
    const view = new DataView(held.buffer);
    let at = 0;
    if (base === 0 && held.length >= 68) {
      yield { start: 0, id: 257, index: null, begin: null, length: null, body: held.subarray(0, 68) };
      at = 68;
    }
    while (at + 4 <= held.length) {
      const n = view.getUint32(at), end = at + 4 + n;
      if (end > held.length) break;
      const item = n ? message(held, view, at, end) : { start: at, id: 256, index: null, begin: null, length: null, body: null };
      item.start = base + at;
      yield item;
      at = end;
    }
    rest = held.subarray(at);
    base += at;
  }
}

/** The bencoded value at `at`: strings as bytes, dictionaries as objects. It checks nothing. */
export function bdecode(bytes, at) {
  return new Bencoded(bytes, at).value();
}

class Bencoded {
  constructor(bytes, at) {
    this.bytes = bytes;
    this.at = at;
  }

  value() {
    switch (this.bytes[this.at]) {
      case 0x64: return this.dictionary();
      case 0x6c: return this.list();
      case 0x69: return this.at++, this.number(0x65);
      default: return this.string();
    }
  }

  dictionary() {
    const found = {};
    for (this.at++; this.bytes[this.at] !== 0x65;) found[this.key()] = this.value();
    this.at++;
    return found;
  }

  list() {
    const found = [];
    for (this.at++; this.bytes[this.at] !== 0x65;) found.push(this.value());
    this.at++;
    return found;
  }

  number(stop) {
    const isNegative = this.bytes[this.at] === 0x2d;
    let found = 0;
    for (this.at += isNegative; this.bytes[this.at] !== stop; this.at++) found = 10 * found + this.bytes[this.at] - 0x30;
    this.at++;
    return isNegative ? -found : found;
  }

  key() {
    let found = '';
    for (const end = this.number(0x3a) + this.at; this.at < end; this.at++) found += String.fromCharCode(this.bytes[this.at]);
    return found;
  }

  string() {
    const size = this.number(0x3a), at = this.at;
    this.at += size;
    return this.bytes.subarray(at, this.at);
  }
}
