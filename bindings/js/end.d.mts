// Types of end.mjs, which is for Node. The words about each name are there.
import { Bytes, Item, Own } from './bt.mjs';

export { DHT, EXTENSIONS, FAST, Id, Item, Kind, Refused } from './bt.mjs';

export const Event: Readonly<Record<'OTHER' | 'OPENED' | 'ANNOUNCED' | 'BLOCK' | 'REJECTED' | 'FETCHED' | 'MISMATCHED' | 'SERVED' | 'DECLINED'
  | 'REQUESTED' | 'PIECE', number>>;

/** What the peer said, and what that made of the end. */
export interface Heard {
  readonly item: Item;
  /** An `Event`. */
  readonly event: number;
  /** The number of a metadata block, of BLOCK, REJECTED, SERVED and DECLINED. */
  readonly piece: number | null;
  /** The id under which the peer wants metadata messages, and the size of metadata that it announced (ANNOUNCED). */
  readonly id: number | null;
  readonly size: number | null;
  /** Whether metadata of this size is fetched from now on (ANNOUNCED). */
  readonly begins: boolean;
}

export interface EndOptions extends Own {
  infoHash: Bytes;
  fetch?: boolean;
  serve?: Bytes | null;
  most?: number | bigint | null;
  window?: number;
  peerId?: Bytes;
}

export class End {
  constructor(options: EndOptions);
  receive(data: Bytes): IterableIterator<Heard>;
  take(): Uint8Array;
  readonly metadata: Uint8Array | null;
  readonly isHopeless: boolean;
  readonly mismatches: number;
  setWindow(window: number): void;
  close(): void;
}

export class FetchError extends Error {}

export interface FetchOptions {
  /** In milliseconds; 30,000 if it is left out. */
  timeout?: number;
  signal?: AbortSignal;
  most?: number | bigint;
  limit?: number;
}

export function fetch(host: string, port: number, infoHash: Bytes, options?: FetchOptions): Promise<Uint8Array>;
