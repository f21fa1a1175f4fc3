// Fetches the metadata of a torrent from a peer, with a socket of its own, and prints each event. bindings/js/end.mjs has this as `fetch`.
//
// usage: node examples/javascript/fetch.mjs INFO-HASH HOST:PORT >METADATA
import net from 'node:net';
import { End, Event } from '../../bindings/js/end.mjs';

const [digits, address] = process.argv.slice(2), [, host, port] = /^\[?(.*?)\]?:(\d+)$/.exec(address);
const eventNames = Object.keys(Event);

async function fetch(socket, infoHash) {
  const end = new End({ infoHash, fetch: true });
  socket.write(end.take());
  for await (const data of socket) {
    for (const { event, item } of end.receive(data)) console.error(eventNames[event], item.name);
    if (end.metadata || end.isHopeless || end.mismatches) break;
    socket.write(end.take());
  }
  return end.metadata;
}

const metadata = await fetch(net.connect(Number(port), host).setTimeout(30000, function () { this.destroy(); }), Buffer.from(digits, 'hex'));
if (!metadata) {
  console.error("fetch: the peer doesn't give the metadata");
  process.exit(1);
}
process.stdout.write(metadata);
