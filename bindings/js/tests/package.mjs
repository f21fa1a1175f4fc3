// Tests the package: `npm install` of its folder and of what `npm pack` makes, without a network, and its types by `tsc` on right and wrong
// uses. What isn't installed is left out, and that is said.
//
// usage: node bindings/js/tests/package.mjs
import assert from 'node:assert/strict';
import { execFileSync } from 'node:child_process';
import fs from 'node:fs';
import os from 'node:os';
import path from 'node:path';
import { fileURLToPath } from 'node:url';

const PACKAGE = fileURLToPath(new URL('..', import.meta.url)), DIST = path.join(PACKAGE, '../../dist');
const room = fs.mkdtempSync(path.join(os.tmpdir(), 'package-'));
const isThere = tool => process.env.PATH.split(':').some(folder => fs.existsSync(path.join(folder, tool)));
// The package looks for its libraries by itself.
const { BT_WASM, BT_ADDON, ...env } = process.env;
const USE = `
  import { load } from 'bt-peer-wire';
  import { End } from 'bt-peer-wire/end';
  const bt = await load();
  console.log(bt.check(bt.handshake(new Uint8Array(20), new Uint8Array(20))), new End({ infoHash: new Uint8Array(20) }).take().length);`;
const FLAGS = ['--input-type=module'];

function run(words, cwd) {
  try {
    return execFileSync(words[0], words.slice(1), { cwd, env, encoding: 'utf8', stdio: ['ignore', 'pipe', 'pipe'] });
  } catch (error) {
    throw new Error(`${words.join(' ')}:\n${error.stdout}${error.stderr}`);
  }
}

/** A folder in which the package is installed. */
function installed(name, source) {
  const folder = path.join(room, name);
  fs.mkdirSync(folder);
  fs.writeFileSync(path.join(folder, 'package.json'), '{ "name": "user", "private": true }');
  run(['npm', 'install', '--offline', '--no-audit', '--no-fund', '--cache', path.join(room, 'cache'), source], folder);
  return folder;
}

const TESTS = {
  ofTheFolder() {
    const folder = installed('folder', PACKAGE);
    assert.equal(run([process.execPath, ...FLAGS, '-e', USE], folder), '0 68\n');
  },

  ofAPack() {
    // (a copy, since packing puts the libraries beside the modules for a moment)
    const copy = path.join(room, 'clone/bindings/js');
    fs.cpSync(PACKAGE, copy, { recursive: true });
    fs.symlinkSync(DIST, path.join(room, 'clone/dist'));
    const made = run(['npm', 'pack', '--silent', '--cache', path.join(room, 'cache')], copy).trim().split('\n').at(-1);
    const folder = installed('pack', path.join(copy, made)), there = path.join(folder, 'node_modules/bt-peer-wire');
    assert.ok(!fs.lstatSync(there).isSymbolicLink());
    assert.deepEqual(fs.readdirSync(there).filter(name => !/\.m?js$|\.mts$/.test(name)).sort(), ['README.md', 'bt.node', 'bt.wasm', 'package.json']);
    fs.rmSync(path.join(room, 'clone'), { recursive: true });
    assert.equal(run([process.execPath, ...FLAGS, '-e', USE], folder), '0 68\n');
  },

  version() {
    const { version } = JSON.parse(fs.readFileSync(path.join(PACKAGE, 'package.json')));
    const wheels = fs.readdirSync(DIST).filter(name => name.endsWith('.whl'));
    assert.deepEqual(wheels.map(name => name.split('-')[1]), [version]);
  },
};

const TYPES = {
  types() {
    const folder = path.join(room, 'types');
    fs.mkdirSync(path.join(folder, 'node_modules'), { recursive: true });
    fs.symlinkSync(PACKAGE, path.join(folder, 'node_modules/bt-peer-wire'));
    fs.copyFileSync(new URL('types/uses.mts', import.meta.url), path.join(folder, 'uses.mts'));
    const words = ['tsc', '--strict', '--noEmit', '--target', 'es2022', '--lib', 'es2022,dom', 'uses.mts', '--module'];
    run([...words, 'node16'], folder);
    // (this one doesn't know `exports`; later versions of TypeScript call it node10)
    run([...words, 'es2022', '--moduleResolution', 'node'], folder);
  },
};

const chosen = { ...(isThere('npm') ? TESTS : {}), ...(isThere('tsc') ? TYPES : {}) };
for (const tool of ['npm', 'tsc']) if (!isThere(tool)) console.log(`package: what needs ${tool} is left out, since it isn't installed`);
for (const [name, test] of Object.entries(chosen)) {
  try {
    test();
  } catch (error) {
    console.log(`${name}: ${error.stack}`);
    process.exitCode = 1;
  }
}
fs.rmSync(room, { recursive: true });
console.log(`${Object.keys(chosen).length} tests`);
