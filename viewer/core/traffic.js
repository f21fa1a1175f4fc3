// The TCP connections of a capture, in the order of their first packets, and what else is in it. Nothing of this is proved.
import { ACK, RST, SYN, TCP, Headers } from './packet_headers.js';
import { eachPacket } from './capture_file.js';
import { Half } from './half.js';
import { UtpFlows } from './utp.js';

const PROGRESS_BYTES = 16 << 20;

/** A TCP connection. Its first end opened it, as far as that was captured. */
export class Connection {
  /** @param {[string, string]} ends @param {import('./file_bytes.js').FileBytes} file @param {number} time */
  constructor(ends, file, time) {
    this.ends = ends;
    this.halves = [new Half(file), new Half(file)];
    this.start = this.last = time;
    this.packets = 0;
    this.isReplaced = false;    // a later connection has its ports
  }

  /**
   * Whether this segment opens another connection between the same ports.
   * @param {string} source @param {Headers} segment
   */
  isOpenedAgain(source, segment) {
    const half = this.halves[this.ends.indexOf(source)];
    return (half.places.length > 0 || half.opening !== null) && segment.sequence !== half.opening;
  }
}

/** What a capture has. */
export class Traffic {
  /** @param {import('./file_bytes.js').FileBytes} file @param {(part: number) => void} [progress] */
  constructor(file, progress) {
    this.file = file;
    /** @type {Connection[]} */
    this.connections = [];
    /** @type {Map<string, Connection>} */
    this.latest = new Map();
    this.skipped = 0;           // packets that aren't TCP
    this.utp = new UtpFlows();
    /** @type {number | null} */
    this.began = null;          // the time of the first packet
    this.headers = new Headers();
    let told = 0;
    const { packets, cut } = eachPacket(file, packet => {
      if (packet.offset > told) {
        told = packet.offset + PROGRESS_BYTES;
        progress?.(packet.offset / file.length);
      }
      this.take(packet);
    });
    this.packets = packets;
    this.isCut = cut;
  }

  /** @param {import('./capture_file.js').Packet} packet */
  take(packet) {
    const { headers } = this;
    this.began ??= packet.seconds;
    const isRead = headers.read(packet);
    if (!isRead || headers.protocol !== TCP) {
      this.skipped++;
      if (isRead) {
        const { view } = packet;
        this.utp.take(view, packet.at + headers.payload, headers.captured, headers.length, headers.source(view), headers.target(view));
      }
      return;
    }
    this.takeSegment(packet, packet.seconds - this.began);
  }

  /** @param {import('./capture_file.js').Packet} packet @param {number} time */
  takeSegment(packet, time) {
    const { headers } = this, { flags } = headers, source = headers.source(packet.view), target = headers.target(packet.view);
    const key = source < target ? `${source} ${target}` : `${target} ${source}`, isFresh = (flags & (SYN | ACK)) === SYN;
    let connection = this.latest.get(key);
    if (!connection || (isFresh && connection.isOpenedAgain(source, headers))) {
      if (connection) connection.isReplaced = true;
      const opens = !(flags & SYN) || !(flags & ACK);
      connection = new Connection(opens ? [source, target] : [target, source], this.file, time);
      this.latest.set(key, connection);
      this.connections.push(connection);
    }
    connection.packets++;
    connection.last = time;
    // a connection of an end to itself isn't told apart
    const side = connection.ends.indexOf(source);
    connection.halves[side].take(time, packet, headers);
    if (headers.acked >= 0 && !(flags & RST)) connection.halves[1 - side].hear(headers.acked, (flags & SYN) !== 0);
  }
}
