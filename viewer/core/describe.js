// A connection as the page lists it.
import { peerName } from './peer_id.js';

const BARS = 48;

/**
 * The printable bytes of a peer id, and the others in hex.
 * @param {Uint8Array} id
 */
const peerIdText = id => Array.from(id, byte => byte > 32 && byte < 127 ? String.fromCharCode(byte)
  : `\\x${byte.toString(16).padStart(2, '0')}`).join('');

/** @param {bigint} reserved */
const reservedText = reserved => reserved.toString(16).padStart(16, '0');

/**
 * Bytes over time.
 * @param {import('./direction.js').Direction} direction @param {import('./traffic.js').Connection | null} connection
 */
function sparkOf({ stream }, connection) {
  const bars = new Float64Array(BARS);
  if (!stream.times || !connection) return bars;
  const span = Math.max(connection.last - connection.start, 1e-6);
  stream.times.forEach((time, k) => {
    bars[Math.min(BARS - 1, Math.max(0, Math.floor((time - connection.start) / span * BARS)))] += stream.sizes[k];
  });
  return bars;
}

/** @param {import('./direction.js').Direction} it */
function sideOf(it) {
  const { sender, half, own } = it;
  return {
    sent: it.sent, bytes: it.isBegun || it.free ? it.stream.length : 0, skipped: it.skipped, isWhole: it.isWhole,
      messages: it.items.count,
    client: it.isWhole ? sender.client ?? peerName(sender.peerId) : null, isNamed: sender.client !== null,
    infoHash: sender.infoHash, peerId: peerIdText(sender.peerId), metadataId: sender.metadataId,
      reserved: reservedText(sender.reserved),
    free: it.free, bep: it.bep, own: own && { ...own, reserved: reservedText(own.reserved) }, options: own && it.optionWords(),
    gaps: it.gaps.slice(0, 100), gapCount: it.gaps.length, gapBytes: it.gaps.reduce((sum, { size }) => sum + size, 0),
    repeated: half?.repeated ?? 0, conflicts: half?.conflicts ?? 0, late: half?.late ?? 0, closed: half?.closed ?? null,
  };
}

/** @param {import('./session.js').Pair} pair @param {number} id @param {Map<string, import('./types.js').Info>} torrents */
export function describe(pair, id, torrents) {
  const { connection, directions } = pair;
  return {
    id, number: pair.number, names: pair.names, isRaw: pair.isRaw, metadata: pair.metadata ?? null,
    torrent: torrents.get(directions.find(it => it.isWhole)?.sender.infoHash ?? '') ?? null,
    start: connection?.start ?? 0, last: connection?.last ?? 0, packets: connection?.packets ?? 0,
    sides: directions.map(sideOf), spark: directions.map(it => sparkOf(it, connection)),
  };
}
