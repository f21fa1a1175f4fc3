// Prints the items of a stream as `bt_tool show` does.
//
// usage: node examples/javascript/show.mjs [FILE..], or <STREAM
//
// The options of `show` are read from the environment: RULES=free or bep, LIMIT, PIECES, INFO_HASH in hex. PIECE is how many bytes are fed
// at once. With BT_WASM it reads through that WebAssembly, for which Node 20 and 22 need --experimental-wasm-memory64.
import fs from 'node:fs';
import { Id, Kind, load, Refused } from '../../bindings/js/bt.mjs';

const { RULES, LIMIT, PIECES, INFO_HASH, PIECE, BT_WASM } = process.env;
const bt = await load(BT_WASM);
const hex = bytes => Buffer.from(bytes).toString('hex');

/** The words of an item after its name. */
function words(item) {
  if (item.id === Id.HANDSHAKE) return [item.reserved.toString(16).padStart(16, '0'), hex(item.infoHash), hex(item.peerId)];
  switch (item.kind) {
    case Kind.EXT_HANDSHAKE:
      return [item.dictSize, item.rest.length, `size=${item.metadataSize ?? '-'}`, `ut_metadata=${item.utMetadata ?? '-'}`];
    case Kind.METADATA_REQUEST: case Kind.METADATA_REJECT: case Kind.DONTHAVE: return [item.piece];
    case Kind.METADATA_DATA: return [item.piece, item.totalSize, item.rest.length];
    case Kind.EXT_RAW: return [item.extendedId, item.body.length];
    case Kind.METADATA_OTHER: case Kind.METADATA_MALFORMED: return [item.dictSize, item.rest.length];
  }
  if (item.name === 'unknown') return [item.id, item.body.length];
  const numbers = [item.index, item.begin, item.length, item.port].filter(number => number !== null);
  return item.id === Id.BITFIELD || item.id === Id.PIECE ? [...numbers, item.body.length] : numbers;
}

const own = {
  strict: RULES === 'bep', limit: Number(LIMIT ?? 262144), pieces: PIECES === undefined ? null : Number(PIECES),
  infoHash: INFO_HASH === undefined ? null : new Uint8Array(Buffer.from(INFO_HASH, 'hex')),
};

/** The lines of a stream. */
function show(stream, size) {
  const feed = bt.feed(own), lines = [];
  const take = items => { for (const item of items) lines.push([item.start, item.name, ...words(item)].join(' ')); };
  try {
    for (let at = 0; at < stream.length; at += size) take(feed.push(stream.subarray(at, at + size)));
    take(feed.finish());
    lines.push(`ok messages=${lines.length - 1} bytes=${feed.start}`);
  } catch (refused) {
    if (!(refused instanceof Refused)) throw refused;
    lines.push(`refused message=${refused.number} at=${refused.at} ${refused.reason}`);
    process.exitCode = 1;
  }
  return lines.join('\n') + '\n';
}

const files = process.argv.slice(2);
process.stdout.write((files.length ? files : [0]).map(file => show(fs.readFileSync(file), Number(PIECE ?? 65536))).join(''));
