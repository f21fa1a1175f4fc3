// Right uses of the package, and wrong ones after @ts-expect-error: `tsc` has to find each of these.
import { Columns, FAST, Id, Item, Kind, load, Reason, Refused, Verdict } from 'bt-peer-wire';
import { End, Event, fetch, FetchError } from 'bt-peer-wire/end';

const bt = await load(), hash = new Uint8Array(20);
for (const item of bt.read(hash, { strict: true, pieces: null, reserved: FAST })) {
  const start: number = item.start, index: number | null = item.index, same: boolean = item instanceof Item;
  // @ts-expect-error: an index may be null
  const number: number = item.index;
  // @ts-expect-error: an item is read-only
  item.id = Id.HAVE;
  // @ts-expect-error: no such field
  item.indx;
}
const columns: Columns = bt.columns(hash), ids: Uint16Array = columns.id, refused: Refused | null = columns.refused;
const reason: Reason | undefined = refused?.reason, kind: number = Kind.EXT_RAW;
const whole: number = bt.check(new ArrayBuffer(68)), feed = bt.feed({ limit: 32768 }), first: Item | undefined = feed.push(hash).next().value;
const verdict: Verdict = bt.verdict(hash), line: string | undefined = first?.jsonLine(), offset: number | undefined = first?.toJSON().offset;
if (verdict.verdict === 'ok') console.log(verdict.messages, verdict.bytes);
else console.log(verdict.message, verdict.offset, verdict.reason, refused?.toJSON().message, refused?.jsonLine());
// @ts-expect-error: a verdict that isn't known to be `ok` has no number of messages
verdict.messages;
const byPath = await load('bt.wasm'), byUrl = await load(new URL('bt.node', import.meta.url));
const writer = bt.writer({ metadataId: 3 }, FAST), bytes: Uint8Array = writer.message(Id.HAVE, { index: 3 });
writer.metadataData(0, 2n, writer.have(3));
// @ts-expect-error: no such reason
const other: Reason = 'TooShort';
// @ts-expect-error: no such id
Id.HELLO;
// @ts-expect-error: bytes, and no text
bt.read('text');
// @ts-expect-error: no such field of the receiver
bt.feed({ strickt: true });
// @ts-expect-error: `request` takes three numbers
writer.request(1, 2);
// @ts-expect-error: load gives a promise
load().read(hash);
// @ts-expect-error: an item comes only from a stream
new Item();

const end = new End({ infoHash: hash, fetch: true, most: 1 << 20, window: 1 });
for (const { event, item, piece, size } of end.receive(end.take())) if (event === Event.BLOCK) console.log(item.name, piece, size);
const found: Uint8Array | null = end.metadata, hopeless: boolean = end.isHopeless;
const metadata: Uint8Array = await fetch('127.0.0.1', 6881, hash, { timeout: 1000, signal: new AbortController().signal });
const error: Error = new FetchError('why');
// @ts-expect-error: an end needs an info hash
new End({ fetch: true });
// @ts-expect-error: no such event
Event.CLOSED;
// @ts-expect-error: metadata is read-only
end.metadata = found;
// @ts-expect-error: the port is a number
fetch('127.0.0.1', '6881', hash);
