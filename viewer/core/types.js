// The shapes of what the modules pass to one another. No code.

/**
 * What the proved reader says of a stream: accepted, with its messages and bytes; or refused, with the message, the offset at which
 * that starts, the offset of the refusal, and its reason.
 * @typedef {{ ok: boolean, messages?: number, bytes?: number, message?: number, start?: number, at?: number, reason?: string }}
 *  Verdict
 */

/**
 * Who receives a direction: what the reader judges it by. Without an info hash any is accepted; `pieces` null is unknown.
 * @typedef {{ reserved: bigint, limit: number, pieces: number | null, metadataId: number, donthaveId?: number, strict?: boolean,
 *  infoHash?: string | null, isGuessed?: boolean }} Receiver
 */

/**
 * What a user says of the receivers. What is null is taken from the other direction.
 * @typedef {{ reserved?: bigint | null, limit?: number | null, pieces?: number | null, metadataId?: number | null,
 *   infoHash?: string | null, isRaw?: boolean }} Options
 */

/**
 * What the sender of a direction says of itself.
 * @typedef {{ reserved: bigint, infoHash: string, peerId: Uint8Array, metadataId: number | null, donthaveId: number | null,
 *   client: string | null, extensions: Map<number, string> }} Sender
 */

/**
 * A row that isn't a message: a key exchange, a refusal, a stream that is cut, a gap, or a close.
 * @typedef {{ kind: string, side: number, place: number, rank: number, time: number | null, packet: number | null, size?: number,
 *   more?: number, verdict?: Verdict, cut?: string | null, rules?: string, word?: string, isFirst?: boolean }} TalkEvent
 */

/** @typedef {{ at: number, size: number }} Gap */

/** @typedef {{ time: number, packet: number, kind: string }} Close */

/**
 * Of an info dictionary.
 * @typedef {{ infoHash: string, name: string | null, pieces: number | null, pieceLength: number | null, length: number | null,
 *   files: number }} Info
 */

/**
 * Reads `size` bytes from an offset of a stream.
 * @typedef {(from: number, size: number) => Uint8Array} ReadPart
 */

/**
 * A part of a bencoded value. `at` and `end` are its first byte and the one after its last; `body` is where a byte string's bytes
 * start.
 * @typedef {{ type: string, at: number, end: number, body?: number, value?: string, children?: { key?: BencodeNode, child:
 *  BencodeNode }[] }} BencodeNode
 */

export {};
