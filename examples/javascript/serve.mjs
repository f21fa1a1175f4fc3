// Serves the metadata of a torrent to peers that connect: the info dictionary, whose SHA-1 is the info hash.
//
// usage: node examples/javascript/serve.mjs FILE [PORT]. It prints its info hash and its address; fetch.mjs fetches from it.
import crypto from 'node:crypto';
import fs from 'node:fs';
import net from 'node:net';
import { End, Event, Refused } from '../../bindings/js/end.mjs';

const [file, port = 0] = process.argv.slice(2), metadata = fs.readFileSync(file), infoHash = crypto.createHash('sha1').update(metadata).digest();

/** Gives the end what came, and the peer what waits for it. */
function move(end, socket, data) {
  for (let sent; sent?.length !== 0; data = new Uint8Array()) {
    for (const { event, piece } of end.receive(data)) if (event === Event.SERVED) console.error('block', piece);
    socket.write(sent = end.take());
  }
}

const server = net.createServer(socket => {
  const end = new End({ infoHash, serve: metadata });
  socket.on('error', () => {}).on('close', () => end.close());
  socket.on('data', data => {
    try {
      move(end, socket, data);
    } catch (refused) {
      if (!(refused instanceof Refused)) throw refused;
      console.error(refused.message);
      socket.destroy();
    }
  });
  socket.write(end.take());
});
server.listen(Number(port), '127.0.0.1', () => console.log(`${infoHash.toString('hex')} 127.0.0.1:${server.address().port}`));
