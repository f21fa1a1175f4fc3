// Prints the messages that a peer sent, as they come. usage: node examples/javascript/read.mjs <STREAM
import { Id, load, Refused } from '../../bindings/js/bt.mjs';

const bt = await load(), feed = bt.feed();

function print(item) {
  if (item.id === Id.HANDSHAKE) console.log(item.name, Buffer.from(item.infoHash).toString('hex'));
  else if (item.id === Id.PIECE) console.log(item.name, item.index, item.begin, `${item.body.length} bytes`);
  else console.log(item.name, item.index ?? '');
}

try {
  for await (const chunk of process.stdin) for (const item of feed.push(chunk)) print(item);
  for (const item of feed.finish()) print(item);
} catch (refused) {
  if (!(refused instanceof Refused)) throw refused;
  console.log(`message ${refused.number} breaks a rule at byte ${refused.at}: ${refused.reason}`);
}
