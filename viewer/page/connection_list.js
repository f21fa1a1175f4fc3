// The list of connections, and what else the file has.
import { h, bytesText, canvasIn, color, grouped, plural, spanText } from './dom.js';

const SPARK_HEIGHT = 22, OTHERS_SHOWN = 200;

/**
 * A verdict in a word or two.
 * @param {any} verdict @param {string} rules @param {{ isSmall?: boolean, hasGap?: boolean }} how
 */
export function pill(verdict, rules, { isSmall = false, hasGap = false } = {}) {
  if (!verdict) return h('span.pill.none', { title: 'no whole handshake' }, 'no handshake');
  const { ok, reason, at, message, messages } = verdict, kind = ok ? 'ok' : reason === 'EndInside' ? 'cut' : rules === 'bep'
    ? 'warn' : 'bad';
  const text = ok ? (isSmall ? '✓' : 'accepted') : isSmall ? reason : `${reason} at ${grouped(at)}`;
  const told = ok ? `ok, ${plural(messages, 'message')}` : `refused, message ${message}, byte ${at}`;
  return h(`span.pill.${kind}`, { title: `rules ${rules}: ${told}${hasGap ? ', up to the gap' : ''}` }, h('b', rules), text);
}

/**
 * Bytes over time, A's up and B's down.
 * @param {HTMLElement} parent @param {Float64Array[]} bars
 */
function drawSpark(parent, bars) {
  const { pen, width, height } = canvasIn(parent, SPARK_HEIGHT, 'bytes over time'), middle = height / 2, n = bars[0].length;
  const most = Math.max(1, ...bars[0], ...bars[1]);
  pen.clearRect(0, 0, width, height);
  bars.forEach((list, side) => {
    pen.fillStyle = color(side ? '--b' : '--a');
    list.forEach((value, k) => {
      if (!value) return;
      const tall = Math.max(1, Math.log2(1 + value) / Math.log2(1 + most) * (middle - 1));
      pen.fillRect(k * width / n, side ? middle + 0.5 : middle - 0.5 - tall, Math.max(1, width / n - 0.8), tall);
    });
  });
}

/** @param {any} side @param {number} k @param {string} name */
const endOf = (side, k, name) => h('div.cend', h(`span.side.s${k}`, 'AB'[k]),
  h('div.cwho', h('div.cclient', side.client ?? '—'), h('div.caddr', name)),
  h('span.cverdict', side.free ? [pill(side.free, 'free', { isSmall: true }), (side.free.ok || side.bep.at !== side.free.at) &&
    pill(side.bep, 'bep', { isSmall: true })]
    : h('span.pill.none', 'none')));

/** @param {any} it @param {boolean} isOn @param {(id: number) => void} onPick */
function cardOf(it, isOn, onPick) {
  const [a, b] = it.sides, gaps = a.gapCount + b.gapCount, hasExchange = a.skipped > 0 || b.skipped > 0, spark = h('div.spark');
  const card = h('button.conn', { class: isOn ? 'on' : '', 'data-id': it.id, 'aria-current': isOn ? 'true' : null, onclick: () =>
    onPick(it.id) },
    h('div.ctop', h('span.cnum', `#${it.number}`), h('span.grow'), !it.isRaw && h('span.dim', spanText(it.last - it.start)),
      h('span.dim', bytesText(a.bytes + b.bytes))),
    [a, b].map((side, k) => (k === 0 || it.names[1]) && endOf(side, k, it.names[k])),
    (gaps > 0 || hasExchange) && h('div.ctags', gaps > 0 && h('span.tag.warn', plural(gaps, 'gap')), hasExchange &&
      h('span.tag', 'after a key exchange')),
    !it.isRaw && spark);
  requestAnimationFrame(() => { if (spark.isConnected) drawSpark(spark, it.spark); });
  return card;
}

/** @param {any} facts */
function othersOf({ others }) {
  if (!others.length) return null;
  return h('details.others', h('summary', plural(others.length, 'other TCP connection')),
    others.slice(0, OTHERS_SHOWN).map((/** @type {any} */ it) =>
      h('div.other', `#${it.number}`, h('span', it.ends.join(' > ')), h('span.dim', bytesText(it.bytes[0] + it.bytes[1])))),
    h('p.dim', "No BitTorrent handshake: encrypted, another protocol, or its start isn't in the capture."));
}

/** @param {any} facts */
function utpOf({ utp }) {
  if (!utp.length) return null;
  return h('details.others', { open: true }, h('summary', 'uTP, which is not read'),
    utp.slice(0, OTHERS_SHOWN).map((/** @type {any} */ it) =>
      h('div.other', h('span', it.ends.join(' > ')), h('span.dim', plural(it.packets, 'packet')))),
    h('p.dim', 'This is uTP (BEP 29): BitTorrent over UDP. The command reads it: bt_tool capture FILE.'));
}

/** @param {HTMLElement} root @param {any} listed @param {number} selected @param {(id: number) => void} onPick */
export function drawConnections(root, { connections, facts }, selected, onPick) {
  root.replaceChildren(...[...connections.map((/** @type {any} */ it) => cardOf(it, it.id === selected, onPick)), othersOf(facts),
    utpOf(facts)].filter(Boolean));
}
