// Broken captures must not break the viewer: node --experimental-wasm-memory64 tests/page/fuzz.mjs RUNS SEED WASM FILE.. Each run
// changes bytes of a file, drops and swaps packets, and reads it as the viewer's worker does. The rows have to be all messages and
// events, each once, in the order of time, and those of each side in its own order.
import fs from 'node:fs';
import { ProvedReader } from '../../viewer/core/proved_reader.js';
import { EVENT } from '../../viewer/core/conversation.js';
import { FileBytes } from '../../viewer/core/file_bytes.js';
import { Session } from '../../viewer/core/session.js';
import { parseTree } from '../../viewer/core/bencode_tree.js';

const [runs, first, wasm, ...files] = process.argv.slice(2), library = fs.readFileSync(wasm),
  reader = await ProvedReader.make(library);
let state = Number(first) || 1;
const random = n => {
  state = Math.imul(state ^ state >>> 15, 0x2c1b3c6d) + 0x9e3779b9 >>> 0;
  return (state >>> 4) % n;
};
const check = (holds, text) => { if (!holds) throw new Error(text); };

/** A pcap's packets, as slices with their headers. */
function packetsOf(bytes) {
  const view = new DataView(bytes.buffer, bytes.byteOffset), found = [];
  for (let at = 24; at + 16 <= bytes.length;) {
    const size = 16 + view.getUint32(at + 8, true);
    found.push(bytes.slice(at, at + size));
    at += size;
  }
  return found;
}

function brokenCapture(bytes) {
  const packets = packetsOf(bytes), times = n => Array.from({ length: random(n) });
  for (const _ of times(4)) if (packets.length > 4) packets.splice(random(packets.length), 1);
  for (const _ of times(4)) {
    const at = random(packets.length - 1);
    [packets[at], packets[at + 1]] = [packets[at + 1], packets[at]];
  }
  for (const _ of times(3)) packets.splice(random(packets.length), 0, packets[random(packets.length)]);
  for (const _ of times(6)) {
    const at = random(packets.length), copy = packets[at].slice(), room = copy.length - 16;
    if (room > 0) copy[16 + random(Math.min(room, random(2) ? 120 : room))] = random(256);
    packets[at] = copy;
  }
  const made = Buffer.concat([bytes.subarray(0, 24), ...packets]);
  return new Uint8Array(random(10) ? made : made.subarray(0, 1 + random(made.length - 1)));
}

function brokenStream(bytes) {
  const made = bytes.slice(0, random(3) ? bytes.length : 1 + random(bytes.length - 1));
  for (let n = random(5); n > 0; n--) made[random(made.length)] = random(256);
  return made;
}

/** Looks whether the rows are all items and events. */
function checkRows(talk) {
  const next = [0, 0], seen = new Set();
  let latest = -Infinity;
  for (const row of talk.rows) {
    if (row >= EVENT) {
      check(!seen.has(row), 'an event is there twice');
      seen.add(row);
      continue;
    }
    check((row & 0x7fffffff) === next[row >>> 31]++, 'an item is out of its order');
    const now = talk.timeOf(row);
    check(now === null || now >= latest, 'times are out of order');
    latest = now ?? latest;
  }
  check(next.every((n, side) => n === talk.shown[side].count) && seen.size === talk.events.length, 'rows are missing');
  check(talk.events.every(({ time }) => time === null || Number.isFinite(time)), 'an event has no time');
}

async function read(bytes) {
  const session = new Session(reader, () => {}), pieces = random(3) ? null : random(100);
  session.setOptions({ pieces });
  let listed;
  try { listed = session.open([{ name: 'a.bin', bytes: FileBytes.ofArray(bytes) }]); } catch (error) {
    // what a broken pcapng is refused with
    check(/block of the pcapng|section of the pcapng/.test(error.message), error.stack);
    return 0;
  }
  for (const { id } of listed.connections) for (const rules of ['free', 'bep']) {
    const { total } = session.select({ id, rules });
    checkRows(session.talk);
    check(session.summary().binRow.every(row => row <= total), 'the overview is wrong');
    for (let row = 0; row < Math.min(total, 200); row++) parseTree(session.message({ row }).bytes, 6);
    const found = await session.filter({ groups: Array(9).fill(true), side: random(2), text: '', isRemarked: false });
    check(found.total <= total, 'the filter found too much');
    for (const side of [0, 1]) {
      if (!session.pairs[id].directions[side].free) continue;
      for (const line of (await session.lines({ id, side, rules, json: true }).text()).trim().split('\n')) JSON.parse(line);
    }
  }
  return listed.connections.length;
}

// without memories of 64 bits one sentence says what is missing: in Node, its flag
const { validate } = WebAssembly;
WebAssembly.validate = () => false;
check(await ProvedReader.make(library).then(() => false, error => error.message.includes('node --experimental-wasm-memory64')), 'no sentence on memory64');
WebAssembly.validate = validate;

const sources = files.map(file => [new Uint8Array(fs.readFileSync(file)), file.endsWith('.bin')]);
let connections = 0;
for (let run = 0; run < Number(runs); run++) {
  const [bytes, isRaw] = sources[random(sources.length)], seed = state, made = isRaw ? brokenStream(bytes) : brokenCapture(bytes);
  try { connections += await read(made); } catch (error) {
    console.log(`run ${run}, state ${seed}: ${error.stack}`);
    process.exit(1);
  }
}
console.log(`${runs} runs, ${connections} connections`);
