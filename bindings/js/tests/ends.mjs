// Tests end.mjs: two ends, fetches over loopback, arguments that don't fit, the addon with random arguments, memory.
//
// usage: [ROUNDS=20000] [ENDS=3000] [MEBIBYTES=40] node --expose-gc bindings/js/tests/ends.mjs
//
// BT_ADDON is the addon, if it isn't dist's. ROUNDS are calls of the addon with random arguments, ENDS are ends that are dropped, and
// MEBIBYTES is how much memory these may leave.
import assert from 'node:assert/strict';
import crypto from 'node:crypto';
import { once } from 'node:events';
import { createRequire } from 'node:module';
import net from 'node:net';
import { Worker } from 'node:worker_threads';
import { load } from '../bt.mjs';
import { End, Event, EXTENSIONS, FAST, fetch, Id, Item, Refused } from '../end.mjs';

const bt = await load();
const { ROUNDS = 20000, ENDS = 3000, MEBIBYTES = 40, BT_ADDON = '../../../dist/x86_64-linux/bt.node' } = process.env;
const addon = createRequire(import.meta.url)(BT_ADDON);
const METADATA = Uint8Array.from({ length: 40000 }, (_, k) => k * k >> 3), infoHash = crypto.createHash('sha1').update(METADATA).digest();
const PEER = Buffer.from('-XX0001-000000000000'), NOTHING = new Uint8Array();
const hello = (peerId = PEER, hash = infoHash) => bt.handshake(hash, peerId, 0n);
const joined = parts => new Uint8Array(Buffer.concat(parts));
let state = 43;
const random = n => (state = Math.imul(state ^ state >>> 15, 0x2c1b3c6d) + 0x9e3779b9 >>> 0) % n;

/** Moves bytes between two ends until none waits. Returns what each heard, and the bytes that went to it. */
function exchanged(one, two, size) {
  const heard = [[], []], sent = [[], []], ends = [one, two];
  for (let moved = 1; moved;) {
    moved = 0;
    for (const k of [0, 1]) {
      const bytes = ends[1 - k].take();
      sent[k].push(bytes);
      moved += bytes.length;
      for (let at = 0; at < bytes.length; at += size) heard[k].push(...ends[k].receive(bytes.subarray(at, at + size)));
    }
  }
  return [heard, sent.map(joined)];
}

/** A server on loopback for one connection, and what `serve` does with its socket. */
async function peer(serve) {
  const server = net.createServer(socket => serve(socket.on('error', () => {}))).listen(0, '127.0.0.1');
  await once(server, 'listening');
  return server;
}

function byEnd(how) {
  return peer(socket => {
    const end = new End({ infoHash, ...how });
    socket.write(end.take());
    socket.on('data', data => {
      for (const _ of end.receive(data));
      socket.write(end.take());
    });
  });
}

async function fetched(server, options) {
  try {
    return await fetch('127.0.0.1', server.address().port, infoHash, { timeout: 20000, ...options });
  } finally {
    server.close();
  }
}

const TESTS = {
  twoEnds() {
    for (const size of [65536, 1, 1000]) {
      const one = new End({ infoHash, fetch: true }), two = new End({ infoHash, serve: METADATA, peerId: PEER });
      assert.deepEqual([one.metadata, one.isHopeless], [null, false]);
      const [[heard, other], [stream]] = exchanged(one, two, size);
      assert.deepEqual(one.metadata, METADATA);
      const events = heard.filter(it => it.event !== Event.OTHER).map(({ event, piece, id, size, begins }) => [event, piece, id, size, begins]);
      assert.deepEqual(events, [[Event.OPENED, null, null, null, false], [Event.ANNOUNCED, null, 3, 40000, true],
        [Event.BLOCK, 0, null, null, false], [Event.BLOCK, 1, null, null, false], [Event.FETCHED, null, null, null, false]]);
      assert.deepEqual(other.filter(it => it.event === Event.SERVED).map(it => it.piece), [0, 1, 2]);
      const read = [...bt.read(stream, { infoHash, reserved: FAST | EXTENSIONS })];
      assert.deepEqual(heard.map(it => it.item.toObject()), read.map(item => item.toObject()));
      assert.ok(heard[0].item instanceof Item);
      assert.deepEqual(heard[0].item.peerId, new Uint8Array(PEER));
    }
  },

  streamsOfChangedBytes() {
    const [, streams] = exchanged(new End({ infoHash, fetch: true }), new End({ infoHash, serve: METADATA }), 65536);
    const own = { infoHash, reserved: FAST | EXTENSIONS };
    for (let round = 0; round < 300; round++) {
      const stream = streams[random(2)].slice(), size = [1, 9, 1000, 65536][random(4)], end = new End({ infoHash, fetch: random(2) === 1 });
      for (let k = random(3); k > 0; k--) stream[random(200)] = random(256);
      const [part, feed] = [stream.subarray(0, 1000 * size), bt.feed(own)], chunks = [];
      for (let at = 0; at < part.length; at += size) chunks.push(part.subarray(at, at + size));
      const told = take => {
        const found = [];
        try {
          for (const chunk of chunks) found.push(...take(chunk));
        } catch (refused) {
          if (!(refused instanceof Refused)) throw refused;
          found.push(refused.message);
        }
        return found.map(it => it instanceof Item ? it.toObject() : it);
      };
      const heard = told(function* (chunk) { for (const { item } of end.receive(chunk)) yield item; });
      assert.deepEqual(heard.slice(0, -1), told(chunk => feed.push(chunk)).slice(0, heard.length - 1));
      end.close();
    }
  },

  aRefusalComesAgain() {
    const end = new End({ infoHash });
    for (const text of ['\x13BitTorrent protocoX', '', 'x']) {
      assert.throws(() => [...end.receive(Buffer.from(text, 'latin1'))], { name: 'Refused', number: 0, at: 19, reason: 'BadProtocol' });
    }
  },

  whatIsNotTakenComesLater() {
    const end = new End({ infoHash });
    for (const _ of end.receive(joined([hello(), new Uint8Array(8)]))) break;
    const items = [...end.receive(new Uint8Array(4))].map(({ item }) => [item.start, item.name, item.data.length]);
    assert.deepEqual(items, [[68, 'keep-alive', 4], [72, 'keep-alive', 4], [76, 'keep-alive', 4]]);
  },

  bytesAreTakenAtOnce() {
    const end = new End({ infoHash }), bytes = joined([hello(), Uint8Array.of(0, 0, 0, 1, 1)]), items = end.receive(bytes);
    bytes.fill(0);
    assert.deepEqual([...items].map(({ item }) => item.id), [Id.HANDSHAKE, Id.UNCHOKE]);
  },

  whatDoesNotFit() {
    for (const how of [{}, { infoHash, limit: 32767 }, { infoHash, serve: NOTHING }, { infoHash, fetch: true, serve: METADATA }, { infoHash, window: 0 },
      { infoHash, window: 9 }, { infoHash, peerId: NOTHING }, { infoHash, most: 0 }, { infoHash, most: -1 }, { infoHash: NOTHING }]) {
      assert.throws(() => new End(how), RangeError, JSON.stringify(how));
    }
    const end = new End({ infoHash });
    assert.throws(() => end.setWindow(0), RangeError);
    for (const call of [() => new End({ infoHash: 5 }), () => new End({ infoHash, serve: 5 }), () => end.receive(5), () => end.receive([1]),
      () => end.setWindow('1')]) assert.throws(call, TypeError, String(call));
    assert.throws(() => new End({ infoHash, windw: 3 }), { name: 'TypeError', message: /^options has no windw: it has .*window/ });
    assert.throws(() => new End({}), { name: 'RangeError', message: 'infoHash is missing' });
    assert.throws(() => new End(null), { name: 'TypeError', message: 'options is null, not an object' });
  },

  aClosedEnd() {
    const end = new End({ infoHash }), items = end.receive(hello());
    end.close();
    end.close();
    for (const call of [() => end.receive(NOTHING), () => end.take(), () => end.metadata, () => end.isHopeless, () => end.setWindow(1),
      () => items.next()]) assert.throws(call, /closed/, String(call));
  },

  async fetches() {
    assert.deepEqual(await fetched(await byEnd({ serve: METADATA })), METADATA);
    assert.deepEqual(await fetched(await byEnd({ serve: METADATA, peerId: Buffer.from('-lt0D80-000000000000') })), METADATA);
  },

  async fetchesThatFail() {
    await assert.rejects(fetched(await peer(socket => socket.write(hello()))), { name: 'FetchError', message: /no metadata/ });
    await assert.rejects(fetched(await peer(socket => socket.destroy())), Error);
    await assert.rejects(fetched(await peer(socket => socket.end())), { name: 'FetchError', message: /closed/ });
    await assert.rejects(fetched(await peer(socket => socket.end('HTTP/1.1 400\r\n\r\n'))), { name: 'Refused', reason: 'BadProtocol' });
    await assert.rejects(fetched(await peer(socket => socket.end(hello(PEER, Buffer.alloc(20))))), { name: 'Refused', reason: 'WrongInfoHash' });
    await assert.rejects(fetched(await peer(socket => setTimeout(() => socket.destroy(), 2000)), { timeout: 200 }), { name: 'TimeoutError' });
    const stop = new AbortController();
    setTimeout(() => stop.abort(), 100);
    await assert.rejects(fetched(await peer(socket => setTimeout(() => socket.destroy(), 2000)), { signal: stop.signal }), { name: 'AbortError' });
    await assert.rejects(fetched(await peer(() => {}), { signal: AbortSignal.abort(), timeout: 1000 }), { name: 'AbortError' });
    for (const most of [39999, 39999n]) {
      await assert.rejects(fetched(await byEnd({ serve: METADATA }), { most }), { name: 'FetchError', message: /of 40000 bytes, not of 1 to 39999$/ });
    }
    for (const size of ['0', '67108865', '9223372036854775807']) {
      const announced = Buffer.from(`\0d1:md11:ut_metadatai9ee13:metadata_sizei${size}ee`), head = Buffer.from([0, 0, 0, announced.length + 1, 20]);
      const told = bt.handshake(infoHash, PEER, EXTENSIONS);
      await assert.rejects(fetched(await peer(socket => socket.write(joined([told, head, announced])))), { name: 'FetchError', message: /not of 1 to 67108864$/ });
    }
    assert.deepEqual(await fetched(await byEnd({ serve: METADATA }), { most: 40000 }), METADATA);
    const closed = await peer(() => {}), { port } = closed.address();
    closed.close();
    await assert.rejects(fetch('127.0.0.1', port, infoHash), { code: 'ECONNREFUSED' });
    for (const timeout of [-1, 2 ** 31, NaN]) await assert.rejects(fetch('127.0.0.1', port, infoHash, { timeout }), RangeError);
    await assert.rejects(fetch('127.0.0.1', port, infoHash, { timeot: 3 }), { name: 'TypeError', message: /^options has no timeot/ });
    await assert.rejects(fetch('127.0.0.1', 70000, infoHash), RangeError);
    await assert.rejects(fetch('127.0.0.1', 6881, NOTHING), RangeError);
  },

  async anotherThread() {
    const code = `import(${JSON.stringify(String(new URL('../end.mjs', import.meta.url)))}).then(({ End }) => {
      const end = new End({ infoHash: new Uint8Array(20) });
      require('node:worker_threads').parentPort.postMessage(end.take().length);
    })`;
    for (let k = 0; k < 3; k++) {
      const worker = new Worker(code, { eval: true });
      assert.deepEqual(await Promise.all([once(worker, 'message'), once(worker, 'exit')]), [[68], [0]]);
    }
  },

  randomArguments() {
    const config = new Uint8Array(80), calls = Object.values(addon), shared = new Uint8Array(new SharedArrayBuffer(160));
    config.set([0, 0, 16, 0, 0, 0, 0, 0, 0, 128, 0, 0, 0, 0, 0, 0, 0, 1, 3]);
    const moved = new Uint8Array(160), frozen = Object.freeze({});
    structuredClone(moved, { transfer: [moved.buffer] });
    const fixed = [undefined, null, true, 0, -1, 1.5, NaN, Infinity, 2 ** 53, 10n, '', 'end', Symbol('end'), {}, [], frozen, () => 0, NOTHING, moved, shared,
      new Uint8Array(88), new Uint8Array(160), new Uint8Array(161).subarray(1), new Uint32Array(40), new Float64Array(20), new DataView(config.buffer),
      config.buffer, config, config, config, hello(), new Proxy({}, {}), new Proxy(config, {})];
    // Arguments of the right kinds, of which some are parts of one buffer that overlap.
    const area = new Uint8Array(400), part = size => random(4) ? new Uint8Array(size) : area.subarray(random(40)).subarray(0, size);
    const noise = size => part(size).map(() => random(3) ? 0 : random(256)), wide = () => BigInt.asUintN(64, BigInt(random(2 ** 32)) ** 2n);
    const stream = () => [hello(), new Uint8Array(random(300)), joined([hello(), noise(random(100))]), area, moved, NOTHING][random(6)];
    const out = () => new Uint32Array([20, 19, 500, 25000][random(4)]), write = () => [noise(64), part([0, 4, 30, 300][random(4)]), part(88)];
    const RIGHT = {
      readerInit: () => [part(64), noise(48)], readerBatch: () => [noise(64), stream(), random(90), random(2), out()],
      check: () => [noise(48), stream(), part(24)], writeHandshake: () => [noise(48), part(68)], writerInit: () => [part(64), noise(48), wide()],
      write: () => [...write(), noise(88), stream()], writeMetadata: () => [...write(), random(5), random(2 ** 32), wide(), stream()],
      writeExtendedHandshake: () => [...write(), random(256), random(2), wide()], itemName: () => [noise(88)], reasonName: () => [random(300)],
    };
    assert.deepEqual(Object.keys(addon).filter(name => !/^end|^abi$/.test(name)).sort(), Object.keys(RIGHT).sort());
    const right = new Map(Object.entries(RIGHT).map(([name, make]) => [addon[name], make]));
    const ends = [], any = () => random(3) ? fixed[random(fixed.length)] : ends.length ? ends[random(ends.length)] : 7;
    let returned = 0;
    for (let round = 0; round < Number(ROUNDS); round++) {
      const call = calls[random(calls.length)], given = Array.from({ length: random(6) }, any);
      if (random(4) === 0) for (let k = 0; k < 80; k += 1 + random(20)) config[k] = random(256);
      if (random(4) === 0) config.set([16, 0, 0, 0, 0, 0, 0, 128, 0, 0], 2);
      if (random(4) === 0) config[17] = 1;
      try {
        // half of the calls have arguments of the right kinds
        const found = random(2) ? call(...given) : right.has(call) ? call(...right.get(call)()) : call === addon.endNew ? call(config, fixed[random(2) ? 17 : 20]) : call(ends[random(ends.length + 1)],
          [hello(), new Uint8Array(random(300)), 3][random(3)], random(70), new Uint8Array(160));
        returned += 1;
        if (call === addon.endNew && typeof found === 'object') ends[random(2) ? random(ends.length + 1) : ends.length % 50] = found;
      } catch (error) {
        if (!(error instanceof TypeError)) throw error;
      }
    }
    assert.ok(returned > ROUNDS / 20 - 100, `only ${returned} calls returned`);
  },

  async nothingIsLeftOfEnds() {
    const make = async count => {
      for (let k = 0; k < count; k++) {
        const end = new End({ infoHash, fetch: true, limit: 32768 });
        for (const _ of end.receive(hello()));
        if (k % 3 === 0) end.close();
        // (Node frees what is collected between two events)
        if (k % 50 === 0) await new Promise(setImmediate);
      }
    };
    const resident = async () => {
      globalThis.gc?.();
      await new Promise(resolve => setTimeout(resolve, 50));
      globalThis.gc?.();
      return process.memoryUsage().rss / 2 ** 20;
    };
    await make(Number(ENDS) / 10);
    const before = await resident();
    await make(Number(ENDS));
    const more = await resident() - before;
    assert.ok(more < Number(MEBIBYTES), `${ENDS} dropped ends leave ${more.toFixed(1)} MiB`);
  },
};

for (const [name, test] of Object.entries(TESTS)) {
  try {
    await test();
  } catch (error) {
    console.log(`${name}: ${error.stack}`);
    process.exitCode = 1;
  }
}
console.log(`${Object.keys(TESTS).length} tests`);
