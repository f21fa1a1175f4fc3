// Types of bt.mjs. The words about each name are there.

export const FAST: bigint, DHT: bigint, EXTENSIONS: bigint;

export const Id: Readonly<Record<'CHOKE' | 'UNCHOKE' | 'INTERESTED' | 'NOT_INTERESTED' | 'HAVE' | 'BITFIELD' | 'REQUEST' | 'PIECE' | 'CANCEL'
  | 'PORT' | 'SUGGEST' | 'HAVE_ALL' | 'HAVE_NONE' | 'REJECT' | 'ALLOWED_FAST' | 'EXTENDED' | 'KEEP_ALIVE' | 'HANDSHAKE', number>>;
export const Kind: Readonly<Record<'EXT_HANDSHAKE' | 'METADATA_REQUEST' | 'METADATA_DATA' | 'METADATA_REJECT' | 'METADATA_OTHER'
  | 'METADATA_MALFORMED' | 'EXT_RAW' | 'DONTHAVE', number>>;

export type Reason = 'BadProtocol' | 'WrongInfoHash' | 'TooLong' | 'UnknownId' | 'NotNegotiated' | 'WrongLength' | 'BadIndex' | 'SpareBits'
  | 'Late' | 'Missing' | 'BadBencode' | 'Unsorted' | 'BadField' | 'BadBlock' | 'StreamFull' | 'EndInside' | 'BadExtLength';
export type Bytes = Uint8Array | ArrayBuffer;

/** The receiver. What is left out is usual. */
export interface Own {
  reserved?: bigint | number;
  infoHash?: Bytes | null;
  pieces?: number | null;
  metadataId?: number;
  donthaveId?: number;
  strict?: boolean;
  limit?: number;
}

export class Refused extends Error {
  private constructor();
  readonly at: number;
  readonly reason: Reason;
  readonly number: number;
  toJSON(): RefusedVerdict;
  jsonLine(): string;
}

/** The verdict on a stream, as `bt_tool show --json` prints it. */
export interface AcceptedVerdict {
  readonly verdict: 'ok';
  /** How many messages follow the handshake. */
  readonly messages: number;
  readonly bytes: number;
}
export interface RefusedVerdict {
  readonly verdict: 'refused';
  /** The number of the message; 0 is the handshake. */
  readonly message: number;
  readonly offset: number;
  readonly reason: Reason;
}
export type Verdict = AcceptedVerdict | RefusedVerdict;

/** The handshake or a message. A field that this kind of item doesn't have is null. */
export class Item {
  private constructor();
  readonly start: number;
  readonly size: number;
  readonly id: number;
  readonly name: string;
  readonly data: Uint8Array;
  readonly body: Uint8Array | null;
  readonly index: number | null;
  readonly begin: number | null;
  readonly length: number | null;
  readonly port: number | null;
  readonly reserved: bigint | null;
  readonly infoHash: Uint8Array | null;
  readonly peerId: Uint8Array | null;
  readonly extendedId: number | null;
  readonly kind: number | null;
  readonly piece: number | null;
  readonly totalSize: number | bigint | null;
  readonly dictSize: number | null;
  readonly metadataSize: number | bigint | null;
  readonly utMetadata: number | null;
  readonly rest: Uint8Array | null;
  toObject(): Record<string, unknown>;
  /** The members that `bt_tool show --json` has. */
  toJSON(): { readonly offset: number; readonly item: string } & Record<string, unknown>;
  jsonLine(): string;
}

/** A row an item, and 0 for what an item doesn't have. `body` are sizes. */
export interface Columns {
  readonly start: Float64Array;
  readonly size: Uint32Array;
  readonly id: Uint16Array;
  readonly kind: Uint8Array;
  readonly index: Uint32Array;
  readonly begin: Uint32Array;
  readonly length: Uint32Array;
  readonly body: Uint32Array;
  readonly refused: Refused | null;
}

export interface Feed {
  readonly start: number;
  push(chunk: Bytes): IterableIterator<Item>;
  finish(): IterableIterator<Item>;
}

export interface Message {
  index?: number;
  begin?: number;
  length?: number;
  port?: number;
  extendedId?: number;
  body?: Bytes;
}

export interface Writer {
  peer: Own;
  hear(item: Item): void;
  message(id: number, message?: Message): Uint8Array;
  keepAlive(): Uint8Array;
  choke(): Uint8Array;
  unchoke(): Uint8Array;
  interested(): Uint8Array;
  notInterested(): Uint8Array;
  have(index: number): Uint8Array;
  bitfield(body: Bytes): Uint8Array;
  request(index: number, begin: number, length: number): Uint8Array;
  piece(index: number, begin: number, body: Bytes): Uint8Array;
  cancel(index: number, begin: number, length: number): Uint8Array;
  port(port: number): Uint8Array;
  suggest(index: number): Uint8Array;
  haveAll(): Uint8Array;
  haveNone(): Uint8Array;
  reject(index: number, begin: number, length: number): Uint8Array;
  allowedFast(index: number): Uint8Array;
  extended(extendedId: number, body: Bytes): Uint8Array;
  extendedHandshake(metadataId?: number, size?: number | bigint | null): Uint8Array;
  metadataRequest(piece: number): Uint8Array;
  metadataReject(piece: number): Uint8Array;
  metadataData(piece: number, totalSize: number | bigint, block: Bytes): Uint8Array;
}

/** The calls of a loaded library. */
export interface Wire {
  read(bytes: Bytes, own?: Own): IterableIterator<Item>;
  columns(bytes: Bytes, own?: Own): Columns;
  /** How many messages follow the handshake. Throws Refused. */
  check(bytes: Bytes, own?: Own): number;
  /** The same, and what `check` throws. */
  verdict(bytes: Bytes, own?: Own): Verdict;
  feed(own?: Own): Feed;
  handshake(infoHash: Bytes, peerId: Bytes, reserved?: bigint | number): Uint8Array;
  writer(own: Own | undefined, reserved: bigint | number): Writer;
}

export function load(source?: string | URL | BufferSource | WebAssembly.Module): Promise<Wire>;
