// Prints the items of streams as `bt_tool show --json` does. usage: node examples/javascript/json.mjs [FILE..], or <STREAM
//
// Options are read from the environment: RULES=free or bep, LIMIT, PIECES and DONTHAVE_ID.
import fs from 'node:fs';
import { load, Refused } from '../../bindings/js/bt.mjs';

const { RULES, LIMIT = 262144, PIECES, DONTHAVE_ID = 0 } = process.env, files = process.argv.slice(2);
const bt = await load();
const own = { strict: RULES === 'bep', limit: Number(LIMIT), pieces: PIECES === undefined ? null : Number(PIECES), donthaveId: Number(DONTHAVE_ID) };

function* lines(stream) {
  try {
    for (const item of bt.read(stream, own)) yield item.jsonLine();
  } catch (refused) {
    if (!(refused instanceof Refused)) throw refused;
  }
  yield JSON.stringify(bt.verdict(stream, own));
}

for (const file of files.length ? files : [0]) process.stdout.write([...lines(fs.readFileSync(file))].join('\n') + '\n');
