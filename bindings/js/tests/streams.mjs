// Tests bt.mjs: values that don't fit, chunks, refusals, messages written.
//
// usage: node bindings/js/tests/streams.mjs [LIBRARY]. LIBRARY is what `load` takes: bt.node or bt.wasm.
//
// The messages' bytes are those of BEP 3, BEP 5, BEP 6, BEP 9 and BEP 10.
import assert from 'node:assert/strict';
import fs from 'node:fs';
import { inspect } from 'node:util';
import { EXTENSIONS, FAST, Id, Item, Kind, load, Refused } from '../bt.mjs';

const bt = await load(process.argv[2]);
const example = name => new Uint8Array(fs.readFileSync(new URL(`../../../examples/${name}.bin`, import.meta.url)));
const bytesOf = text => new Uint8Array(Buffer.from(text.replaceAll(' ', ''), 'hex')), hexOf = text => Buffer.from(text).toString('hex');
const joined = parts => new Uint8Array(Buffer.concat(parts));
const HASH = Uint8Array.from({ length: 20 }, (_, k) => k), PEER_TEXT = '-XX0001-000000000000';
const PEER = new Uint8Array(Buffer.from(PEER_TEXT));
const HELLO = bt.handshake(HASH, PEER), STRICT = { pieces: 8, strict: true };
const EXAMPLES = ['first', 'fetching', 'serving', 'downloading'];

/** A writer after a have-none, to a peer that has all extensions. */
function openWriter(own = {}, metadataId = 7) {
  const writer = bt.writer(own, FAST | EXTENSIONS);
  writer.peer = { ...writer.peer, metadataId };
  writer.haveNone();
  return writer;
}

/** The items of an iterator, and how it ends. */
function told(items) {
  const found = [];
  try {
    for (const item of items) found.push({ ...item.toObject(), rest: item.rest });
  } catch (refused) {
    if (!(refused instanceof Refused)) throw refused;
    return [found, refused.message];
  }
  return [found, null];
}

const TESTS = {
  numbersThatDoNotFit() {
    const writer = openWriter();
    for (const call of [() => writer.have(-1), () => writer.have(2 ** 32 + 5), () => writer.have(0.5), () => writer.have(NaN),
      () => writer.request(0, 0, 2 ** 32), () => writer.port(70000), () => writer.extended(300, PEER), () => writer.message(65540),
      () => writer.message(258), () => writer.metadataRequest(-1), () => writer.metadataData(0, 0, PEER),
      () => writer.metadataData(0, 2n ** 63n, PEER), () => writer.extendedHandshake(256), () => writer.extendedHandshake(3, -1),
      () => bt.read(HELLO, { limit: 2 ** 40 }), () => bt.feed({ pieces: -1 }), () => bt.check(HELLO, { reserved: 2n ** 64n }),
      () => bt.read(HELLO, { metadataId: 256 }), () => bt.read(HELLO, { infoHash: PEER.subarray(1) }), () => bt.writer({}, -1),
      () => bt.handshake(HASH, PEER, -1n), () => bt.handshake(HASH, HELLO)]) assert.throws(call, RangeError, String(call));
    for (const call of [() => bt.read(5), () => bt.check('text'), () => bt.feed().push([1]), () => writer.have('1'),
      () => writer.bitfield(3), () => writer.piece(0, 0, Uint32Array.of(1)), () => bt.read(HELLO, { limit: '1' })]) {
      assert.throws(call, TypeError, String(call));
    }
    for (const call of [own => bt.read(HELLO, own), own => bt.feed(own), own => bt.writer(own, 0), own => { writer.peer = own; }]) {
      assert.throws(() => call({ strickt: true }), { name: 'TypeError', message: /^own has no strickt: it has .*strict/ });
      assert.throws(() => call(3), { name: 'TypeError', message: 'own is number, not an object' });
    }
    assert.throws(() => openWriter({}, 0).metadataRequest(0), /announced no id/);
  },

  messagesNameTheArgument() {
    const writer = openWriter(), { metadataId } = writer.peer;
    for (const [says, call] of [['index is missing', () => writer.have()], ['begin is missing', () => writer.request(1)],
      ['body is missing', () => writer.piece(0, 0)], ['body is missing', () => writer.extended(1)], ['port is missing', () => writer.port()],
      ['index is string, not a number', () => writer.have('1')], ['bytes is undefined, not a Uint8Array', () => bt.read()],
      ['chunk is Array, not a Uint8Array', () => bt.feed().push([1])], ['item is number, not an Item', () => writer.hear(5)],
      ['item is Object, not an Item', () => writer.hear({})], ['item is null, not an Item', () => writer.hear(null)]]) {
      assert.throws(call, { name: 'TypeError', message: says }, says);
    }
    assert.equal(writer.peer.metadataId, metadataId);
  },

  items() {
    const stream = joined([HELLO, bytesOf('0000000d 06 00000007 00004000 00000001'), Buffer.from('\0\0\0\x1a\x14\0d1:md11:ut_metadatai7eee')]);
    const [hello, request, extended] = bt.read(stream);
    assert.ok(hello instanceof Item);
    assert.deepEqual([hello.id, hello.reserved, hello.infoHash, hello.peerId, hello.body], [Id.HANDSHAKE, 0x100005n, HASH, PEER, null]);
    assert.deepEqual([request.start, request.id, request.name, request.index, request.begin, request.length, request.port],
      [68, Id.REQUEST, 'request', 7, 16384, 1, null]);
    assert.deepEqual([extended.kind, extended.extendedId, extended.utMetadata, extended.metadataSize, extended.dictSize, extended.rest.length],
      [Kind.EXT_HANDSHAKE, 0, 7, null, 24, 0]);
    const large = Buffer.from('\0\0\0\x29\x14\0d13:metadata_sizei9223372036854775807ee');
    assert.equal([...bt.read(joined([HELLO, large]))][1].metadataSize, 2n ** 63n - 1n);
  },

  itemsAreReadOnlyAndShowTheirFields() {
    const stream = joined([HELLO, bytesOf('00000005 04 00000009')]), [, have] = bt.read(stream);
    assert.throws(() => { have.index = 5; }, TypeError);
    assert.deepEqual(have.toObject(), {
      start: 68, size: 9, id: Id.HAVE, name: 'have', index: 9, body: new Uint8Array(), data: bytesOf('00000005 04 00000009'),
    });
    assert.match(inspect(have), /name: 'have',\n {2}index: 9,\n/);
    // what was read of one batch stays while others are read
    for (const _ of bt.read(example('downloading')));
    assert.deepEqual([have.start, have.name, have.index, have.begin], [68, 'have', 9, null]);
  },

  // (the members are those of docs/COMMANDS.md; tests/bindings.py compares many with `bt_tool show --json`)
  json() {
    const message = (id, ...parts) => {
      const body = Buffer.concat(parts.map(part => Buffer.from(part, 'latin1'))), head = Buffer.alloc(5, id);
      head.writeUInt32BE(1 + body.length);
      return Buffer.concat([head, body]);
    };
    const rows = [
      [HELLO, `"handshake","reserved":"0000000000100005","info_hash":"${hexOf(HASH)}","peer_id":"${hexOf(PEER)}","peer_id_text":"${PEER_TEXT}"`],
      [bytesOf('00000000'), '"keep-alive"'], [bytesOf('00000005 04 00000009'), '"have","index":9'],
      [bytesOf('0000000d 06 00000007 00004000 00000001'), '"request","index":7,"begin":16384,"length":1'],
      [bytesOf('0000000b 07 00000001 00000002 6162'), '"piece","index":1,"begin":2,"bytes":2'], [bytesOf('00000003 09 1ae1'), '"port","port":6881'],
      [bytesOf('00000003 63 0102'), '"unknown","id":99,"bytes":2'], [bytesOf('00000005 14 09 010203'), '"extended","id":9,"bytes":3'],
      [message(20, '\0', 'd1:ad1:vi3ee1:md11:ut_metadatai7ee13:metadata_sizei9223372036854775807e1:v4:a\xc2\xb5"e'),
        '"ext-handshake","dictionary":81,"rest":0,"metadata_size":9223372036854775807,"ut_metadata":7,"client":"aµ\\""'],
      [message(20, '\0', 'd1:v1:\xffe'), '"ext-handshake","dictionary":8,"rest":0,"metadata_size":null,"ut_metadata":null,"client":null'],
      [message(20, '\0', 'd1:vi7e1:v1:xe'), '"ext-handshake","dictionary":14,"rest":0,"metadata_size":null,"ut_metadata":null,"client":null'],
      [message(20, '\x03', 'd8:msg_typei0e5:piecei4ee'), '"metadata-request","piece":4'],
      [message(20, '\x03', 'd8:msg_typei1e5:piecei0e10:total_sizei2eehi'), '"metadata-data","piece":0,"total_size":2,"bytes":2'],
      [message(20, '\x03', 'de?'), '"metadata-malformed","dictionary":2,"rest":1'], [message(20, '\x07', '\0\0\0\x2a'), '"donthave","index":42'],
    ];
    let at = 0;
    const stream = joined(rows.map(([bytes]) => bytes)), items = [...bt.read(stream, { donthaveId: 7 })];
    assert.equal(items.length, rows.length);
    for (const [k, [bytes, wanted]] of rows.entries()) {
      assert.equal(items[k].jsonLine(), `{"offset":${at},"item":${wanted}}`);
      const shown = JSON.stringify(items[k]), isExact = JSON.rawJSON || !wanted.includes('9223372036854775807');
      assert.equal(shown, isExact ? items[k].jsonLine() : items[k].jsonLine().replace('9223372036854775807', '9223372036854776000'));
      at += bytes.length;
    }
    assert.equal(JSON.stringify(bt.verdict(stream, { donthaveId: 7 })), `{"verdict":"ok","messages":${rows.length - 1},"bytes":${stream.length}}`);
    const refusal = '{"verdict":"refused","message":2,"offset":76,"reason":"Missing"}';
    assert.throws(() => [...bt.read(example('first'), STRICT)], refused => JSON.stringify(refused) === refusal && refused.jsonLine() === refusal);
    assert.equal(JSON.stringify(bt.verdict(example('first'), STRICT)), refusal);
  },

  iterators() {
    const items = bt.read(example('downloading'));
    for (const item of items) if (item.start === 68) break;
    assert.deepEqual(items.next(), { value: undefined, done: true });
    assert.equal(items[Symbol.iterator](), items);
    const refused = bt.read(example('first'), STRICT);
    assert.throws(() => [...refused], { reason: 'Missing' });
    assert.deepEqual([...refused], []);
  },

  columns() {
    const NAMES = ['start', 'size', 'id', 'kind', 'index', 'begin', 'length'];
    const long = joined([HELLO, ...Array.from({ length: 20000 }, (_, k) => bytesOf(k % 3 ? '00000000' : '0000000d 06 00000007 00004000 00000001'))]);
    for (const [stream, own] of [...EXAMPLES.map(name => [example(name), {}]), [example('first'), STRICT], [long, {}], [long.subarray(0, 90), {}],
      [new Uint8Array(), {}]]) {
      const [items, refusal] = told(bt.read(stream, own)), columns = bt.columns(stream, own);
      for (const name of NAMES) assert.deepEqual([...columns[name]], items.map(item => item[name] ?? 0), name);
      assert.deepEqual([...columns.body], items.map(item => item.body?.length ?? 0));
      assert.equal(columns.refused?.message ?? null, refusal);
    }
    assert.deepEqual([bt.columns(long).id.constructor, bt.columns(long).start.constructor], [Uint16Array, Float64Array]);
  },

  refusals() {
    assert.throws(() => [...bt.read(example('first'), STRICT)], { name: 'Refused', at: 76, number: 2, reason: 'Missing' });
    assert.throws(() => bt.check(example('first'), STRICT), { message: 'message 2 refused at byte 76: Missing' });
    assert.equal(bt.check(example('downloading')), 80);
    assert.deepEqual([bt.check(example('first')), bt.verdict(example('first'))], [2, { verdict: 'ok', messages: 2, bytes: 81 }]);
    assert.deepEqual(bt.verdict(example('first'), { strict: true }), { verdict: 'refused', message: 2, offset: 76, reason: 'Missing' });
    assert.throws(() => [...bt.read(new Uint8Array())], { at: 0, number: 0, reason: 'EndInside' });
    const writer = openWriter(STRICT);
    assert.throws(() => writer.have(8), { name: 'Refused', at: 78, number: 2, reason: 'BadIndex' });
    writer.have(7);
    assert.throws(() => writer.message(Id.CHOKE, { body: PEER }), { number: 3, reason: 'WrongLength' });
    assert.throws(() => writer.metadataData(0, 2, PEER.subarray(0, 1)), { reason: 'BadBlock' });
  },

  pushTakesItsBytesAtOnce() {
    const feed = bt.feed({ limit: 101 });
    for (const _ of feed.push(joined([HELLO, new Uint8Array(160004)]))) break;
    assert.equal(feed.push(new Uint8Array()).next().value.start, 68);
    assert.equal(feed.start, 72);
    assert.equal([...feed.push(new Uint8Array())].length, 40000);
    assert.deepEqual([...feed.finish()], []);
    const cut = bt.feed();
    assert.equal([...cut.push(HELLO.subarray(0, 67))].length, 0);
    assert.throws(() => cut.finish(), { at: 67, number: 0, reason: 'EndInside' });
    const refused = bt.feed(STRICT);
    for (let k = 0; k < 3; k++) assert.throws(() => [...refused.push(k ? new Uint8Array() : example('first'))], { at: 76, number: 2 });
  },

  chunksOfAnySize() {
    let state = 43;
    const random = n => (state = Math.imul(state ^ state >>> 15, 0x2c1b3c6d) + 0x9e3779b9 >>> 0) % n;
    for (const name of EXAMPLES) {
      for (let round = 0; round < 60; round++) {
        const whole = example(name), stream = whole.slice(0, random(whole.length + 1));
        if (stream.length && random(2)) stream[random(Math.min(stream.length, 400))] = random(256);
        const own = { strict: random(2) === 1, pieces: random(2) ? 38 : null }, feed = bt.feed(own);
        const fed = function* () {
          for (let at = 0, size; at < stream.length; at += size) yield* feed.push(stream.subarray(at, at + (size = [1, 3, 68, 1000, 20000][random(5)])));
          yield* feed.finish();
        };
        const wanted = told(bt.read(stream, own));
        assert.deepEqual(told(fed()), wanted);
        try {
          assert.equal(bt.check(stream, own), wanted[0].length - 1);
          assert.equal(wanted[1], null);
        } catch (refused) {
          if (!(refused instanceof Refused)) throw refused;
          assert.equal(refused.message, wanted[1]);
        }
      }
    }
  },

  readersBesideOneAnother() {
    const one = bt.read(example('downloading')), two = bt.read(example('serving'), { strict: true }), writer = openWriter();
    const names = [];
    for (let k = 0; k < 7; k++) names.push(one.next().value.name, two.next().value.name, hexOf(writer.have(k)).slice(-1));
    assert.deepEqual(names.filter((_, k) => k % 3 === 1), [...bt.read(example('serving'))].map(item => item.name));
    assert.equal(names.filter((_, k) => k % 3 === 2).join(''), '0123456');
  },

  // (in WebAssembly what isn't taken yet lies in memory that other calls write to, and that moves when it grows)
  itemsTakenAfterOtherCalls() {
    const request = bytesOf('0000000d 06 00000007 00004000 00000001'), writer = bt.writer({ limit: 2 ** 30 }, FAST | EXTENSIONS);
    const parts = Array.from({ length: 5100 }, (_, k) => k % 7 ? request : writer.extended(0, Buffer.from(`d13:metadata_sizei${k + 1}ee`)));
    const stream = joined([HELLO, ...parts]), other = joined([HELLO, ...Array.from({ length: 3000 }, () => writer.have(9))]);
    const shown = item => [item.start, item.size, item.id, item.index, item.length, item.metadataSize].join(' ');
    const wanted = Array.from(bt.read(stream), shown), feed = bt.feed(), found = [];
    assert.deepEqual([1, 2, 5097, 5101].map(k => wanted[k]), ['68 27 20   1', '95 17 6 7 1 ', '96004 30 20   5097', undefined]);
    // the first, fourth and last are the first calls after a batch of 2048 items
    const calls = [() => [...bt.read(other)], () => bt.columns(other), () => bt.feed().push(other).next(),
      () => bt.check(joined([other, new Uint8Array(2 << 20)])), () => bt.verdict(other), () => writer.piece(0, 0, new Uint8Array(8 << 20))];
    for (const item of feed.push(stream)) {
      found.push(item);
      calls[(found.length - 1) / 1000]?.();
      if (found.length < wanted.length) assert.equal(feed.start, Number(wanted[found.length].split(' ')[0]));
    }
    assert.deepEqual(found.map(shown), wanted);
  },

  largeMessages() {
    const block = new Uint8Array(3 << 20).fill(7), own = { limit: 4 << 20 }, writer = bt.writer(own, 0);
    const stream = joined([HELLO, writer.piece(1, 2, block), writer.keepAlive()]);
    const [, piece, last] = bt.read(stream, own);
    assert.deepEqual([piece.index, piece.begin, piece.body.length, last.name], [1, 2, block.length, 'keep-alive']);
    assert.equal(Buffer.compare(piece.body, block), 0);
    assert.throws(() => [...bt.read(stream)], { reason: 'TooLong', at: 68 });
  },

  // (in WebAssembly only the heads of long blocks are copied, in several windows)
  longBlocksAmongOthers() {
    const own = { limit: 3 << 20, pieces: 4000 }, parts = [HELLO, bytesOf('00000001 0f')], sizes = [];
    for (let k = 0; k < 700; k++) {
      const size = [0, 1, 498, 499, 500, 501, 16384, 16384, 16384, 70000][k % 10] + (k === 350 ? 2 << 20 : 0), message = new Uint8Array(13 + size).fill(k);
      new DataView(message.buffer).setUint32(0, 9 + size);
      new DataView(message.buffer).setUint32(5, k);
      message[4] = Id.PIECE;
      parts.push(message, ...Array.from({ length: k % 90 === 0 ? 100 : 2 }, () => bytesOf('00000005 04 00000009')));
      sizes.push(size);
    }
    const stream = joined(parts), haves = 8 * 100 + 692 * 2;
    const blocks = [...bt.read(stream, own)].filter(item => item.id === Id.PIECE);
    assert.deepEqual(blocks.map(item => [item.index, item.body.length, item.body.every(byte => byte === item.index % 256)]), sizes.map((size, k) => [k, size, true]));
    assert.equal(bt.check(stream, own), 1 + 700 + haves);
    const feed = bt.feed(own), fed = [];
    for (let at = 0; at < stream.length; at += 9999) for (const item of feed.push(stream.subarray(at, at + 9999))) fed.push(item.start);
    assert.deepEqual(fed, [...bt.read(stream, own)].map(item => item.start));
    // a message that is refused after blocks is refused there
    const wrong = joined([stream, bytesOf('00000005 04 00000fa0')]);
    assert.throws(() => [...bt.read(wrong, own)], { at: stream.length + 5, reason: 'BadIndex', number: 1 + 700 + haves + 1 });
  },

  // (in WebAssembly it is copied in several parts)
  longChunks() {
    const writer = openWriter(), parts = Array.from({ length: 5000 }, (_, k) => writer.piece(k, 0, new Uint8Array(87))), feed = bt.feed();
    const stream = joined([HELLO, bytesOf('0000000f 07 00000001 00000000 616263646566'), ...parts]), starts = Array.from(feed.push(stream), item => item.start);
    assert.deepEqual(starts, [0, 68, ...parts.map((_, k) => 87 + 100 * k)]);
    assert.deepEqual([...feed.finish()], []);
  },

  // A long message in short chunks: its bytes are copied a few times, and not once for each chunk.
  shortChunksOfALongMessage() {
    const size = 8 << 20, own = { limit: 9 << 20 }, feed = bt.feed(own), stream = joined([HELLO, bt.writer(own, 0).piece(1, 2, new Uint8Array(size).fill(7))]);
    const buffers = new Set(), items = [];
    for (let at = 0; at < stream.length; at += 4000) {
      items.push(...feed.push(stream.subarray(at, at + 4000)));
      buffers.add(feed.bytes.buffer);
    }
    assert.deepEqual(items.map(item => item.start), [0, 68]);
    assert.ok(items[1].body.every(byte => byte === 7) && items[1].body.length === size);
    assert.ok(buffers.size < 30, `${buffers.size} buffers`);
  },

  shortChunksShareMemory() {
    const feed = bt.feed(), items = [...feed.push(HELLO)];
    for (let k = 0; k < 2000; k++) {
      const have = bytesOf('00000005 04 00000000');
      new DataView(have.buffer).setUint32(5, k);
      items.push(...feed.push(have.subarray(0, k % 9)), ...feed.push(have.subarray(k % 9)));
    }
    assert.deepEqual(items.slice(1).map(item => [item.start, item.index, hexOf(item.data)]),
      Array.from({ length: 2000 }, (_, k) => [68 + 9 * k, k, '0000000504' + k.toString(16).padStart(8, '0')]));
    assert.ok(new Set(items.map(item => item.data.buffer)).size < 10);
  },

  bytesThatAreShared() {
    const stream = example('downloading'), shared = new Uint8Array(new SharedArrayBuffer(stream.length));
    shared.set(stream);
    const items = [...bt.read(shared)];
    shared.fill(0);
    assert.deepEqual(items.map(item => item.toObject()), [...bt.read(stream)].map(item => item.toObject()));
  },

  eachMessage() {
    const writer = openWriter(), text = it => hexOf(it);
    const rows = [
      [writer.keepAlive(), '00000000'], [writer.choke(), '00000001 00'], [writer.unchoke(), '00000001 01'],
      [writer.interested(), '00000001 02'], [writer.notInterested(), '00000001 03'], [writer.have(9), '00000005 04 00000009'],
      [writer.request(7, 16384, 1), '0000000d 06 00000007 00004000 00000001'],
      [writer.piece(1, 2, Buffer.from('ab')), '0000000b 07 00000001 00000002 6162'],
      [writer.cancel(7, 16384, 1), '0000000d 08 00000007 00004000 00000001'], [writer.port(6881), '00000003 09 1ae1'],
      [writer.suggest(4), '00000005 0d 00000004'], [writer.reject(7, 16384, 1), '0000000d 10 00000007 00004000 00000001'],
      [writer.allowedFast(4), '00000005 11 00000004'], [writer.extended(9, Buffer.from('xyz')), '00000005 14 09 78797a'],
      [writer.extendedHandshake(3, 100), '0000002f 14 00' + text('d1:md11:ut_metadatai3ee13:metadata_sizei100ee')],
      [writer.metadataRequest(0), '0000001b 14 07' + text('d8:msg_typei0e5:piecei0ee')],
      [writer.metadataData(0, 2, Buffer.from('hi')), '0000002d 14 07' + text('d8:msg_typei1e5:piecei0e10:total_sizei2eehi')],
      [writer.metadataReject(1), '0000001b 14 07' + text('d8:msg_typei2e5:piecei1ee')],
      [bt.writer({}, FAST).haveAll(), '00000001 0e'], [bt.writer({}, FAST).haveNone(), '00000001 0f'],
      [bt.writer(STRICT, 0).bitfield(Uint8Array.of(0x80)), '00000002 05 80'],
      [bt.handshake(HASH, PEER, 5), '13' + text('BitTorrent protocol') + '0000000000000005' + hexOf(HASH) + hexOf(PEER)],
    ];
    for (const [got, wanted] of rows) assert.equal(hexOf(got), wanted.replaceAll(' ', ''));
    const other = bt.writer({}, EXTENSIONS);
    for (const item of bt.read(joined([HELLO, Buffer.from('\0\0\0\x1a\x14\0d1:md11:ut_metadatai7eee')]))) other.hear(item);
    assert.equal(other.metadataRequest(0)[5], 7);
  },

  whatIsReadIsWrittenAgain() {
    for (const name of EXAMPLES) {
      const [hello, ...items] = bt.read(example(name)), writer = bt.writer({}, hello.reserved);
      writer.peer = { ...writer.peer, metadataId: 3 };
      const again = items.map(({ id, index, begin, length, port, extendedId, body }) => writer.message(id, {
        index: index ?? 0, begin: begin ?? 0, length: length ?? 0, port: port ?? 0, extendedId: extendedId ?? 0, body,
      }));
      assert.deepEqual(joined([bt.handshake(hello.infoHash, hello.peerId, hello.reserved), ...again]), example(name));
    }
  },
};

for (const [name, test] of Object.entries(TESTS)) {
  try {
    test();
  } catch (error) {
    console.log(`${name}: ${error.stack}`);
    process.exitCode = 1;
  }
}
console.log(`${Object.keys(TESTS).length} tests`);
