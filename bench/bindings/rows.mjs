// The rows of bt.mjs beside loops by hand (hand.mjs), for Node (run.mjs) and for a browser (run_bindings).
import * as hand from './hand.mjs';

const PASSES = 5, CHUNK = 65536, SHORT = 40;

// Each job is a function of its own, so that the engine specializes it for its kind of item. It has a number, since an engine specializes
// functions of equal text as one.
let jobs = 0;
const job = (source, body) => new Function('source', 'bdecode', `return stream => {  // ${jobs++}
  let sum = 0;
  for (const item of source(stream)) ${body};
  return sum;
}`)(source, hand.bdecode);
const START = 'sum += item.start', FIELDS = 'sum += item.start + item.id + item.index', BODY = 'sum += item.id === 7 ? item.body.length : 1';
const NUMBERS = 'if (item.kind === 1) sum += item.metadataSize + item.utMetadata';
const NUMBERS_BY_HAND = `if (item.id === 20 && item.body[0] === 0) {
    const dict = bdecode(item.body, 1);
    sum += dict.metadata_size + dict.m.ut_metadata;
  }`;
const pair = (name, stream, body, byHand, ours) => [name, stream, job(byHand, body), job(ours, body)];

// The same of a feed, as one reads a socket.
const fed = (bt, size, body) => new Function('bt', 'size', `return stream => {  // ${jobs++}
  const feed = bt.feed();
  let sum = 0;
  for (let at = 0; at < stream.length; at += size) for (const item of feed.push(stream.subarray(at, at + size))) ${body};
  for (const item of feed.finish()) ${body};
  return sum;
}`)(bt, size);
const fedByHand = (size, body) => job(stream => hand.feed(stream, size), body);

function rowsOf(bt, { small, blocks, ext }) {
  /** A sum over columns, as FIELDS is one over items. */
  function summed(stream) {
    const { start, id, index } = bt.columns(stream);
    let sum = 0;
    for (let row = 0; row < id.length; row++) sum += start[row] + id[row] + index[row];
    return sum;
  }

  const read = stream => bt.read(stream);
  return [
    pair('read small, start', small, START, hand.read, read), pair('read small, start id index', small, FIELDS, hand.read, read),
    ['feed small', small, fedByHand(CHUNK, FIELDS), fed(bt, CHUNK, FIELDS)], ['feed small, 40 bytes', small, fedByHand(SHORT, FIELDS), fed(bt, SHORT, FIELDS)],
    ['columns small', small, job(hand.read, FIELDS), summed],
    pair('read blocks', blocks, BODY, hand.read, read), ['feed blocks', blocks, fedByHand(CHUNK, BODY), fed(bt, CHUNK, BODY)],
    pair('read ext', ext, START, hand.read, read), ['read ext, fields', ext, job(hand.read, NUMBERS_BY_HAND), job(read, NUMBERS)],
  ];
}

function seconds(run, stream) {
  const begin = performance.now();
  const sum = run(stream);
  return [(performance.now() - begin) / 1000, sum];
}

/** The least seconds of a row by hand and of ours, in some runs after those before. */
function measured([name, stream, byHand, ours], least, times) {
  for (let k = 0; k < times; k++) {
    const [one, two] = [seconds(byHand, stream), seconds(ours, stream)];
    if (one[1] !== two[1]) throw new Error(`${name}: the loop by hand finds ${one[1]}, and not ${two[1]}`);
    least = [Math.min(least[0], one[0]), Math.min(least[1], two[0])];
  }
  return least;
}

/** The lines of all rows: NAME, SECONDS BY HAND, SECONDS OURS. Each time is the best of so many. */
export function lines(bt, streams, times) {
  const rows = rowsOf(bt, streams);
  // (in passes, so that other work beside it for some seconds doesn't slow all runs of a row)
  let least = rows.map(() => [Infinity, Infinity]);
  for (let pass = 0; pass < PASSES; pass++) least = rows.map((row, k) => measured(row, least[k], Math.ceil(times / PASSES)));
  return rows.map(([name], k) => [name, ...least[k].map(it => it.toFixed(6))].join('\t'));
}
