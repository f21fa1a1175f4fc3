// From a captured packet to the TCP segment or UDP datagram in it, also in a packet in another one. `links.js` finds where IP starts.
import { afterGre, ipStart } from './links.js';

export const FIN = 1, SYN = 2, RST = 4, ACK = 16;
export const TCP = 6, UDP = 17;
const IPV4_IN_IP = 4, IPV6_IN_IP = 41, GRE = 47, AUTHENTICATION = 51, FRAGMENT = 44;
const EXTENSIONS = new Set([0, 43, FRAGMENT, AUTHENTICATION, 60]);
/** How many packets may stand in one another. */
const DEPTH = 16;

/** What a packet carries. Places count in the packet; `length` is that of the payload on the wire. */
export class Headers {
  constructor() {
    this.protocol = 0;
    this.isSix = false;
    this.sourceAt = 0;          // where the addresses stand in the view
    this.targetAt = 0;
    this.sourcePort = 0;
    this.targetPort = 0;
    this.sequence = 0;
    this.acked = -1;            // -1 without the flag
    this.flags = 0;
    this.payload = 0;
    this.captured = 0;
    this.length = 0;
  }

  /**
   * Reads a packet. False unless it has a TCP segment or a UDP datagram, and is no fragment.
   * @param {import('./capture_file.js').Packet} packet
   */
  read(packet) {
    const { view, at, seen } = packet, end = at + seen;
    let start = ipStart(packet), wire = packet.wire - (start - at), last = at + packet.captured;
    for (let depth = 0; depth < DEPTH; depth++) {
      if (start < 0 || start + 20 > end) return false;
      const version = view.getUint8(start) >> 4;
      const found = version === 4 ? this.readIpv4(view, start, end, wire) : version === 6 ? this.readIpv6(view, start, end, wire) : null;
      if (!found) return false;
      const [head, total] = found, place = start + head;
      last = Math.min(last, start + total);
      this.isSix = version === 6;
      if (this.protocol === TCP) return place + 20 <= Math.min(last, end) && this.readTcp(view, place, last, total - head, at);
      if (this.protocol === UDP) return place + 8 <= Math.min(last, end) && this.readUdp(view, place, last, total - head, at);
      start = this.innerStart(view, place, Math.min(last, end));
      wire = total - head - (start - place);
    }
    return false;
  }

  /** Where the packet starts that is carried, or -1. @param {DataView} view @param {number} place @param {number} end */
  innerStart(view, place, end) {
    if (this.protocol === GRE) return afterGre(view, place, end);
    return this.protocol === IPV4_IN_IP || this.protocol === IPV6_IN_IP ? place : -1;
  }

  /**
   * The length of the headers and of the packet, or null.
   * @param {DataView} view @param {number} start @param {number} end @param {number} wire @returns {[number, number] | null}
   */
  readIpv4(view, start, end, wire) {
    if (view.getUint16(start + 6) & 0x3fff) return null;
    let head = 4 * (view.getUint8(start) & 15);
    this.protocol = view.getUint8(start + 9);
    this.sourceAt = start + 12;
    this.targetAt = start + 16;
    while (this.protocol === AUTHENTICATION && start + head + 2 <= end) {
      this.protocol = view.getUint8(start + head);
      head += 4 * (view.getUint8(start + head + 1) + 2);
    }
    // if the sender's network card cuts what is sent, the length is 0
    return [head, view.getUint16(start + 2) || wire];
  }

  /** @param {DataView} view @param {number} start @param {number} end @param {number} wire @returns {[number, number] | null} */
  readIpv6(view, start, end, wire) {
    if (start + 40 > end) return null;
    const size = view.getUint16(start + 4);
    let kind = view.getUint8(start + 6), head = 40;
    while (EXTENSIONS.has(kind) && start + head + 4 <= end) {
      const words = view.getUint8(start + head + 1);
      if (kind === FRAGMENT && view.getUint16(start + head + 2) & 0xfff9) return null;
      const size = kind === FRAGMENT ? 8 : kind === AUTHENTICATION ? 4 * (words + 2) : 8 * (words + 1);
      kind = view.getUint8(start + head);
      head += size;
    }
    this.protocol = kind;
    this.sourceAt = start + 8;
    this.targetAt = start + 24;
    return [head, size ? 40 + size : wire];
  }

  /** @param {DataView} view @param {number} tcp @param {number} last @param {number} size @param {number} at */
  readTcp(view, tcp, last, size, at) {
    const options = 4 * (view.getUint8(tcp + 12) >> 4), payload = Math.min(tcp + options, last);
    if (options < 20) return false;
    this.sourcePort = view.getUint16(tcp);
    this.targetPort = view.getUint16(tcp + 2);
    this.sequence = view.getUint32(tcp + 4);
    this.flags = view.getUint8(tcp + 13);
    this.acked = this.flags & ACK ? view.getUint32(tcp + 8) : -1;
    this.payload = payload - at;
    this.captured = last - payload;
    this.length = Math.max(size - options, 0);
    return true;
  }

  /** @param {DataView} view @param {number} udp @param {number} last @param {number} size @param {number} at */
  readUdp(view, udp, last, size, at) {
    this.sourcePort = view.getUint16(udp);
    this.targetPort = view.getUint16(udp + 2);
    this.payload = udp + 8 - at;
    // the length in the header counts the header too
    this.length = Math.max(Math.min(size, view.getUint16(udp + 4)) - 8, 0);
    this.captured = Math.min(last - udp - 8, this.length);
    return true;
  }

  /** @param {DataView} view */
  source(view) { return `${addressOf(view, this.sourceAt, this.isSix)}:${this.sourcePort}`; }

  /** @param {DataView} view */
  target(view) { return `${addressOf(view, this.targetAt, this.isSix)}:${this.targetPort}`; }
}

/**
 * An address as text (RFC 5952 for IPv6).
 * @param {DataView} view @param {number} at @param {boolean} isSix
 */
function addressOf(view, at, isSix) {
  const dotted = (/** @type {number} */ from) => [0, 1, 2, 3].map(k => view.getUint8(from + k)).join('.');
  if (!isSix) return dotted(at);
  const words = Array.from({ length: 8 }, (_, k) => view.getUint16(at + 2 * k));
  if (words.slice(0, 6).join() === '0,0,0,0,0,65535') return `[::ffff:${dotted(at + 12)}]`;
  let best = 0, from = -1;
  for (let k = 0; k < 8; k++) {
    let n = 0;
    while (k + n < 8 && words[k + n] === 0) n++;
    if (n > best && n > 1) { best = n; from = k; }
  }
  const text = (/** @type {number[]} */ list) => list.map(word => word.toString(16)).join(':');
  return `[${from < 0 ? text(words) : `${text(words.slice(0, from))}::${text(words.slice(from + best))}`}]`;
}
