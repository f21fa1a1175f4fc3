// Measures bt.mjs beside loops by hand in Node, in turn, and prints the lines of rows.mjs.
//
// usage: node bench/bindings/run.mjs FOLDER
//
// FOLDER has the streams small.bin, blocks.bin and ext.bin. Each time is the best of TIMES runs, 15 if it isn't given. With BT_WASM it
// measures that WebAssembly, for which Node 20 and 22 need --experimental-wasm-memory64.
import fs from 'node:fs';
import { load } from '../../bindings/js/bt.mjs';
import { lines } from './rows.mjs';

const [folder] = process.argv.slice(2);
const streams = Object.fromEntries(['small', 'blocks', 'ext'].map(name => [name, new Uint8Array(fs.readFileSync(`${folder}/${name}.bin`))]));
console.log(lines(await load(process.env.BT_WASM || undefined), streams, Number(process.env.TIMES ?? 15)).join('\n'));
