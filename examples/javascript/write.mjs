// Answers a peer: reads what it sent, and writes what it is to get. usage: node examples/javascript/write.mjs <STREAM >ANSWER
//
// Both handshakes are exchanged, and then a block of the torrent's metadata is asked for, and one of the first piece.
import { EXTENSIONS, FAST, Id, Kind, load } from '../../bindings/js/bt.mjs';

const bt = await load(), own = { reserved: FAST | EXTENSIONS, metadataId: 3 }, peerId = Buffer.from('-XX0001-000000000000');
const feed = bt.feed(own);
let writer;

/** What is said after an item, in the order in which it is sent. A message that the peer would refuse throws Refused. */
function* answers(item) {
  if (item.id === Id.HANDSHAKE) {
    yield bt.handshake(item.infoHash, peerId, own.reserved);
    writer = bt.writer(own, item.reserved);
    if (item.reserved & EXTENSIONS) yield writer.extendedHandshake(own.metadataId);
    if (item.reserved & FAST) yield writer.haveNone();
  }
  if (item.kind === Kind.EXT_HANDSHAKE) {
    writer.hear(item);    // the id under which the peer wants metadata messages
    if (item.utMetadata) yield writer.metadataRequest(0);
  }
  if (item.id === Id.HAVE_ALL) yield writer.interested();
  if (item.id === Id.UNCHOKE) yield writer.request(0, 0, 16384);
}

for await (const chunk of process.stdin) {
  for (const item of feed.push(chunk)) for (const bytes of answers(item)) process.stdout.write(bytes);
}
