// The cards of both ends above the rows.
import { h, bytesText, grouped, plural } from './dom.js';
import { BITS } from './message_words.js';
import { pill } from './connection_list.js';

/** @typedef {{ lines: (side: number, json: boolean) => void, stream: (side: number) => void }} EndCalls */

/** @param {number} k */
const missing = k => h(`div.end.s${k}.missing`,
  h('div.endtop', h(`span.side.s${k}`, 'AB'[k]), h('b', "the other direction isn't here")),
  h('div.dim', 'So the receiver of A is a guess. Drop both files at once: each direction says who receives the other.'));

/** @param {any} it @param {any} side @param {number} k */
function tagsOf(it, side, k) {
  const isOther = k === 1 && side.isWhole && it.sides[0].isWhole && side.infoHash !== it.sides[0].infoHash;
  return [
    side.gapCount > 0 && h('span.tag.warn', `${plural(side.gapCount, 'gap')}, first at ${grouped(side.gaps[0].at)}`),
    side.conflicts > 0 && h('span.tag.warn', `${plural(side.conflicts, 'byte')} came again with other values`),
    isOther && h('span.tag.warn', { title: 'an end of a hybrid torrent may answer under its other info hash' },
      'another info hash'),
    side.own?.isGuessed && h('span.tag.warn', { title: "the receiver's handshake isn't there" }, 'receiver guessed'),
  ];
}

/** @param {any} it @param {any} side @param {number} k @param {EndCalls} calls */
function endCard(it, side, k, calls) {
  if (it.isRaw && !it.names[k]) return missing(k);
  const bits = BITS.filter(([bit]) => BigInt(`0x${side.reserved}`) & bit), hasGap = side.gapCount > 0;
  return h(`div.end.s${k}`, { role: 'group', 'aria-label': `end ${'AB'[k]}` },
    h('div.endtop', h(`span.side.s${k}`, 'AB'[k]),
      h('b', { title: side.isWhole ? `peer id ${side.peerId}` : null }, side.client ?? 'no handshake'),
      h('span.dim', `${plural(side.messages, 'item')}, ${bytesText(side.bytes)}`)),
    h('div.endrow', h('span.mono.cutoff', { title: it.names[k] }, it.names[k]), side.isWhole &&
      bits.map(([, short, long]) => h('span.bit', { title: long }, short)),
      side.isWhole && side.metadataId ? h('span.bit', { title: 'the id under which it wants ut_metadata' },
        `ut_metadata ${side.metadataId}`) : null),
    h('div.endrow', side.free && h('span.proved', { title: 'Proved: what the reader says of these bytes for this receiver' }, '∎'),
      pill(side.free, 'free', { hasGap }),
      side.bep && pill(side.bep, 'bep', { hasGap }), tagsOf(it, side, k)),
    side.own && h('div.endrow.opts', h('code', { title: 'the receiver of this direction, as bt_tool takes it' }, side.options),
      h('span.grow'),
      h('button.tiny', { title: 'copy all items of this direction, as bt_tool show prints them', onclick: () =>
        calls.lines(k, false) }, 'show'),
      h('button.tiny', { title: 'copy them as bt_tool show --json', onclick: () => calls.lines(k, true) }, 'json'),
      h('button.tiny', { title: 'save the bytes, from the handshake on', onclick: () => calls.stream(k) }, '.bin')));
}

/** @param {HTMLElement} root @param {any} it @param {EndCalls} calls */
export function drawEnds(root, it, calls) {
  root.replaceChildren(...it.sides.map((/** @type {any} */ side, /** @type {number} */ k) => endCard(it, side, k, calls)));
}
