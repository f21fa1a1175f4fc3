// Reads pcap and pcapng files, packet by packet.
import { FileWindow } from './file_bytes.js';

const SECTION = 0x0a0d0d0a;
/**
 * The first bytes of a pcap file: whether it is little-endian, and how many ticks a second has.
 * @type {Record<number, [boolean, number]>}
 */
const PCAP = { 0xd4c3b2a1: [true, 1e6], 0xa1b2c3d4: [false, 1e6], 0x4d3cb2a1: [true, 1e9], 0xa1b23c4d: [false, 1e9] };
const HEADERS = 4096;           // link, IP and TCP headers lie within the first bytes of a packet
const MOST_OPTIONS = 65536;
const MOST_INTERFACES = 1024;
const MOST_COMPARED = 1048604;   // the last length of a longer block isn't looked at, since its end needn't be read
const TIMESTAMP_RESOLUTION = 9, TIMESTAMP_OFFSET = 14;    // the options if_tsresol and if_tsoffset
const LATEST = (2 ** 64 - 1) / 1e9;     // the last time in seconds whose nanoseconds 64 bits hold

/**
 * A packet: `view` shows its first `seen` bytes at `at`; its `captured` bytes start at `offset` of the file, and on the wire it had
 * `wire` bytes.
 * @typedef {{ number: number, link: number, seconds: number, offset: number, captured: number, wire: number, view: DataView, at:
 *  number, seen: number }} Packet
 */

/** @param {Uint8Array} head */
export function isCapture(head) {
  if (head.length < 4) return false;
  const magic = new DataView(head.buffer, head.byteOffset, 4).getUint32(0);
  return magic === SECTION || magic in PCAP;
}

/**
 * Calls `take` for each packet, with one object that is filled anew each time.
 * @param {import('./file_bytes.js').FileBytes} file
 * @param {(packet: Packet) => void} take
 * @returns {{ packets: number, cut: boolean }} how many there are, and whether the file ends inside one
 */
export function eachPacket(file, take) {
  const window = new FileWindow(file);
  window.show(0, 4);
  return window.view.getUint32(window.base) === SECTION ? new PcapngReader(window, take).read() : readPcap(window, take);
}

/** @returns {Packet} */
const emptyPacket = () =>
  ({ number: 0, link: 0, seconds: 0, offset: 0, captured: 0, wire: 0, view: new DataView(new ArrayBuffer(0)), at: 0, seen: 0 });

/** @param {FileWindow} window @param {(packet: Packet) => void} take */
function readPcap(window, take) {
  const { length } = window.file, packet = emptyPacket();
  if (!window.show(0, 24)) return { packets: 0, cut: true };
  const [little, unit] = PCAP[window.view.getUint32(window.base)];
  packet.link = window.view.getUint32(window.base + 20, little) & 0xffff;
  let at = 24;
  while (window.show(at, 16)) {
    const { view, base } = window;
    packet.captured = view.getUint32(base + 8, little);
    packet.wire = view.getUint32(base + 12, little);
    packet.seconds = view.getUint32(base, little) + view.getUint32(base + 4, little) / unit;
    packet.offset = at + 16;
    if (packet.offset + packet.captured > length) return { packets: packet.number, cut: true };
    giveTo(take, packet, window);
    at = packet.offset + packet.captured;
  }
  return { packets: packet.number, cut: at < length };
}

/** @param {(packet: Packet) => void} take @param {Packet} packet @param {FileWindow} window */
function giveTo(take, packet, window) {
  packet.seen = Math.min(packet.captured, HEADERS);
  window.show(packet.offset, packet.seen);
  packet.view = window.view;
  packet.at = window.base;
  packet.number++;
  take(packet);
}

class PcapngReader {
  /** @param {FileWindow} window @param {(packet: Packet) => void} take */
  constructor(window, take) {
    this.window = window;
    this.take = take;
    this.packet = emptyPacket();
    this.little = true;
    /** @type {Face[]} the interfaces of the section */
    this.faces = [];
  }

  read() {
    const { window } = this, { length } = window.file;
    let at = 0;
    while (window.show(at, 12)) {
      if (window.view.getUint32(window.base) === SECTION) this.beginSection(window.view.getUint32(window.base + 8));
      const kind = window.view.getUint32(window.base, this.little), size = window.view.getUint32(window.base + 4, this.little);
      if (size < 12) throw new Error('a block of the pcapng file has an impossible length');
      if (at + size > length) return { packets: this.packet.number, cut: true };
      if (size <= MOST_COMPARED && window.show(at + size - 4, 4) && window.view.getUint32(window.base, this.little) !== size) {
        throw new Error('the two lengths of a block of the pcapng file differ');
      }
      this.readBlock(kind, at + 8, size - 12);
      at += size;
    }
    return { packets: this.packet.number, cut: at < length };
  }

  /** @param {number} order */
  beginSection(order) {
    if (order !== 0x4d3c2b1a && order !== 0x1a2b3c4d) throw new Error('a section of the pcapng file has an unknown byte order');
    this.little = order === 0x4d3c2b1a;
    this.faces = [];
  }

  /** @param {number} kind @param {number} body @param {number} size */
  readBlock(kind, body, size) {
    const { window, little } = this;
    if (kind === 1 && size >= 8) {
      const shown = Math.min(size, MOST_OPTIONS);
      window.show(body, shown);
      if (this.faces.length < MOST_INTERFACES) this.faces.push(faceOf(window.view, window.base, window.base + shown, little));
    } else if ((kind === 2 || kind === 6) && size >= 20) this.readPacket(kind, body, size);
    else if (kind === 3 && size >= 4) {
      window.show(body, 4);
      const wire = window.view.getUint32(window.base, little);
      const { link, snap } = this.face(0);
      // what follows the snap length is padding; 0 is none
      this.give(link, 0, body + 4, Math.min(wire, snap || wire, size - 4), wire);
    }
  }

  /** @param {number} number */
  face(number) {
    const face = this.faces[number];
    if (!face) throw new Error("a packet of the pcapng file names an interface that isn't described, or is beyond the first 1,024");
    return face;
  }

  /** @param {number} kind @param {number} body @param {number} size */
  readPacket(kind, body, size) {
    this.window.show(body, 20);
    const { view, base } = this.window, { little } = this;
    // the old packet block has two bytes of interface and two of drops
    const face = this.face(kind === 2 ? view.getUint16(base, little) : view.getUint32(base, little));
    const ticks = view.getUint32(base + 4, little) * 4294967296 + view.getUint32(base + 8, little);
    const captured = Math.min(view.getUint32(base + 12, little), size - 20);
    const seconds = Math.min(Math.max(ticks / face.unit + face.offset, 0), LATEST);
    this.give(face.link, seconds, body + 20, captured, view.getUint32(base + 16, little));
  }

  /** @param {number} link @param {number} seconds @param {number} offset @param {number} captured @param {number} wire */
  give(link, seconds, offset, captured, wire) {
    Object.assign(this.packet, { link, seconds, offset, captured, wire });
    giveTo(this.take, this.packet, this.window);
  }
}

/**
 * An interface as its packets need it: link type, snap length, time stamps in a second, and the seconds added to each.
 * @typedef {{ link: number, snap: number, unit: number, offset: number }} Face
 */

/**
 * Reads an interface description.
 * @param {DataView} view @param {number} at @param {number} end @param {boolean} little
 * @returns {Face}
 */
function faceOf(view, at, end, little) {
  const resolution = optionAt(view, at + 8, end, little, TIMESTAMP_RESOLUTION, 1);
  const value = resolution < 0 ? 6 : view.getUint8(resolution);
  const offset = optionAt(view, at + 8, end, little, TIMESTAMP_OFFSET, 8);
  return {
    link: view.getUint16(at, little),
    snap: view.getUint32(at + 4, little),
    unit: value & 128 ? 2 ** (value & 127) : 10 ** value,
    offset: offset < 0 ? 0 : Number(view.getBigInt64(offset, little)),
  };
}

/**
 * Where the value of the first option is that has this code and a value of this length; -1 if there is none.
 * @param {DataView} view @param {number} at @param {number} end @param {boolean} little @param {number} wanted @param {number} long
 */
function optionAt(view, at, end, little, wanted, long) {
  while (at + 4 <= end) {
    const code = view.getUint16(at, little), size = view.getUint16(at + 2, little);
    if (code === wanted && size === long && at + 4 + long <= end) return at + 4;
    if (code === 0) break;
    at += 4 + size + (-size & 3);
  }
  return -1;
}
