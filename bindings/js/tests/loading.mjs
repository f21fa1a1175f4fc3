// Tests how `load` finds the library: through the addon without a flag, else through bt.wasm, each in a process of its own.
//
// usage: node bindings/js/tests/loading.mjs [LIBRARY]
//
// LIBRARY is bt.wasm, that of dist/ if it isn't given, and BT_ADDON the addon, if it isn't dist's.
import assert from 'node:assert/strict';
import { execFileSync } from 'node:child_process';
import fs from 'node:fs';
import { pathToFileURL } from 'node:url';

const place = name => new URL(`../../../${name}`, import.meta.url);
const WASM = fs.realpathSync(process.argv[2] ?? place('dist/bt.wasm')), ADDON = fs.realpathSync(process.env.BT_ADDON ?? place('dist/x86_64-linux/bt.node'));
const STREAM = place('examples/first.bin'), NAMES = 'handshake keep-alive have 81\n', NOWHERE = '/nowhere/bt.node';
const PROGRAM = `
  const fs = await import('node:fs'), { load } = await import(${JSON.stringify(String(new URL('../bt.mjs', import.meta.url)))});
  const bt = await load(SOURCE), stream = new Uint8Array(fs.readFileSync(new URL(${JSON.stringify(String(STREAM))})));
  console.log(...[...bt.read(stream)].map(item => item.name), bt.verdict(stream).bytes);`;
// (a Node that has memories of 64 bits at once knows the flag no more)
const MEMORY64 = WebAssembly.validate(Uint8Array.of(0, 0x61, 0x73, 0x6d, 1, 0, 0, 0, 5, 3, 1, 4, 1)) ? [] : ['--experimental-wasm-memory64'];
const WITHOUT_WASM = 'delete globalThis.WebAssembly;', WITHOUT_MEMORY64 = 'WebAssembly.validate = () => false;';

/** What a program prints that loads the library from a source, or the error that it ends with. */
function run(source, { flags = [], before = '', addon = ADDON } = {}) {
  const code = before + PROGRAM.replace('SOURCE', source), env = { ...process.env, BT_ADDON: addon };
  try {
    return execFileSync(process.execPath, ['--no-warnings', ...flags, '--input-type=module', '-e', code], { env, encoding: 'utf8', stdio: 'pipe' });
  } catch (error) {
    return error.stderr;
  }
}

const bytes = `(await import('node:fs')).readFileSync(${JSON.stringify(WASM)})`, quoted = it => JSON.stringify(String(it));

const TESTS = {
  throughTheAddonWithoutAFlag() {
    assert.equal(run(''), NAMES);
    assert.equal(run('', { before: WITHOUT_WASM }), NAMES);
  },

  theAddonByItsName() {
    for (const source of [quoted(ADDON), quoted(pathToFileURL(ADDON)), `new URL(${quoted(pathToFileURL(ADDON))})`]) {
      assert.equal(run(source, { before: WITHOUT_WASM, addon: NOWHERE }), NAMES, source);
    }
    assert.match(run(quoted(NOWHERE)), /nowhere/);
  },

  throughWebAssemblyIfThereIsNoAddon() {
    assert.equal(run('', { flags: MEMORY64, addon: NOWHERE }), NAMES);
    assert.equal(run('', { flags: [...MEMORY64, '--no-addons'] }), NAMES);
    const error = run('', { before: WITHOUT_MEMORY64, addon: NOWHERE });
    assert.match(error, /Error: .*nowhere.* run node --experimental-wasm-memory64, or Node 24 or later/s);
  },

  // (a browser has no `process`, and gets bt.wasm beside the module)
  asInABrowser() {
    const before = `const { readFileSync } = await import('node:fs');
      globalThis.process = undefined;
      globalThis.fetch = async url => ({ arrayBuffer: async () => readFileSync(${quoted(WASM)}), url: String(url).endsWith('/bindings/js/bt.wasm') || no() });`;
    assert.equal(run('', { flags: MEMORY64, before }), NAMES);
    assert.equal(run(bytes, { flags: MEMORY64, before }), NAMES);
    assert.match(run('', { before: before + WITHOUT_MEMORY64 }), /Error: This browser cannot run the proved reader, .*Chrome have them from version 133/);
  },

  webAssemblyByItsName() {
    for (const source of [quoted(WASM), `new URL(${quoted(pathToFileURL(WASM))})`, bytes, `new WebAssembly.Module(${bytes})`]) {
      assert.equal(run(source, { flags: MEMORY64, addon: NOWHERE }), NAMES, source);
    }
    assert.match(run(bytes, { before: WITHOUT_MEMORY64 }), /Error: .*--experimental-wasm-memory64/);
  },
};

for (const [name, test] of Object.entries(TESTS)) {
  try {
    test();
  } catch (error) {
    console.log(`${name}: ${error.stack}`);
    process.exitCode = 1;
  }
}
console.log(`${Object.keys(TESTS).length} tests`);
