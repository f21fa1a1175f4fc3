// Prints the events of an end that fetches, by what peers sent, and its answers. usage: node examples/javascript/events.mjs INFO-HASH FILE..
import fs from 'node:fs';
import { End, Event, Refused } from '../../bindings/js/end.mjs';

const [digits, ...files] = process.argv.slice(2), CHUNK = Number(process.env.PIECE ?? 65536), eventNames = Object.keys(Event);

function* lines(stream) {
  const end = new End({ infoHash: Buffer.from(digits, 'hex'), fetch: true });
  try {
    for (let at = 0; at < stream.length; at += CHUNK) {
      for (const { item, event, piece, id, size, begins } of end.receive(stream.subarray(at, at + CHUNK))) {
        const told = [piece, id, size, begins ? 'begins' : null].filter(it => it !== null);
        yield [item.start, item.name, eventNames[event], item.data.length, ...told].join(' ');
      }
    }
  } catch (refused) {
    if (!(refused instanceof Refused)) throw refused;
    yield `refused message=${refused.number} at=${refused.at} ${refused.reason}`;
  }
  yield `metadata ${end.metadata?.length ?? 0}, hopeless ${Number(end.isHopeless)}, mismatches ${end.mismatches}`;
  yield 'answers ' + Buffer.from(end.take().subarray(68)).toString('hex');
  end.close();
}

for (const file of files) for (const line of lines(fs.readFileSync(file))) console.log(line);
