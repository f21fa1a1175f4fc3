// A row of the sequence: time, who chokes whom, the message in its sender's lane, how long its answer took.
import { escape, grouped, spanText } from './dom.js';
import { EVENT_NAMES } from './message_words.js';
import { REMARKS } from '../core/remarks.js';

/** @param {any} text */
const dim = text => `<i>${text}</i>`;
/**
 * The begins and lengths of blocks are most often whole KiB.
 * @param {number} number
 */
const kib = number => number && number % 1024 === 0 ? `${grouped(number / 1024)} KiB` : grouped(number);
/** @param {any} row */
const blockHtml = ({ a, b, c }) => `<b>${grouped(a)}</b> ${dim('+')} ${kib(b)} ${dim('·')} ${kib(c)}`;
/** @param {any} row */
const numberHtml = ({ a }) => `<b>${grouped(a)}</b>`;

/**
 * What stands after a message's name.
 * @type {Record<string, (row: any) => string>}
 */
const DETAILS = {
  handshake: row => `<b>${escape(row.client ?? '')}</b> ${dim('info hash')} ${row.words.split(' ')[2].slice(0, 8)}…`,
  have: numberHtml, suggest: numberHtml, 'allowed-fast': numberHtml, donthave: numberHtml, port: ({ a }) => `<b>${a}</b>`,
  'metadata-request': numberHtml, 'metadata-reject': numberHtml,
  request: blockHtml, cancel: blockHtml, reject: blockHtml, piece: blockHtml,
  bitfield: ({ c }) => `${dim('of')} ${grouped(c)} ${dim(c === 1 ? 'byte' : 'bytes')}`,
  unknown: ({ code, c }) => `${dim('id')} <b>${code}</b> ${dim('with')} ${grouped(c)} ${dim('bytes')}`,
  extended: ({ extension, a, c }) =>
    `${extension ? `<b>${escape(extension)}</b> ` : ''}${dim('id')} ${a} ${dim('with')} ${grouped(c)} ${dim('bytes')}`,
  'ext-handshake': row => {
    const [, size, id] = /size=(\S+) ut_metadata=(\S+)$/.exec(row.words) ?? ['', '-', '-'];
    const parts = [`<b>${escape(row.client ?? '')}</b>`, size === '-' ? '' : `${dim('metadata')} ${grouped(size)}`, id === '-' ? ''
      : `${dim('ut_metadata')} ${id}`];
    return parts.filter(Boolean).join(' ');
  },
  'metadata-data': ({ a, c, words }) => `<b>${grouped(a)}</b> ${dim('·')} ${kib(c)} ${dim('of')} ${kib(Number(words.split(' ')[2]))}`,
};

/** @type {Record<string, (event: any) => string>} */
const EVENT_DETAILS = {
  refused: ({ verdict, rules }) =>
    `<b>${verdict.reason}</b> ${dim(`at ${grouped(verdict.at)} · message ${verdict.message} · rules ${rules}`)}`,
  bep: ({ verdict }) => `<b>${verdict.reason}</b> ${dim(`at ${grouped(verdict.at)} · the rules "free" read on`)}`,
  cut: ({ cut }) => dim(`inside a message, by ${cut}`),
  gap: ({ size, more }) =>
    `${grouped(size)} ${dim(`bytes aren't in the capture${more ? `, and ${more} more gaps` : ''}; not read from here on`)}`,
  close: ({ isFirst }) => dim(isFirst ? 'closed first' : 'closed'),
  exchange: ({ size }) => `${grouped(size)} ${dim('bytes before the handshake')}`,
};

/** @param {number} flags */
export const remarksOf = flags => REMARKS.filter((_, bit) => flags >> bit & 1);

/**
 * What a side may do: bit 0 of the other's state chokes it, bit 1 of its own is interest.
 * @param {number} mine @param {number} theirs
 */
const bandOf = (mine, theirs) => !(theirs & 1) ? (mine & 2 ? 'open' : 'idle') : mine & 2 ? 'wait' : 'shut';

/** @param {any} row */
const eventName = ({ event }) => event.kind === 'close' ? event.word : EVENT_NAMES[event.kind];

/**
 * What a lane shows of its row.
 * @param {any} row @param {Record<string, any>} remarks
 */
function laneHtml(row, remarks) {
  const { event } = row;
  const chip = (/** @type {string} */ kind, /** @type {string} */ name) => `<span class="chip ${kind}">${name}</span>`;
  if (event) return `${chip(`ev-${event.kind}`, eventName(row))}<span class="det">${EVENT_DETAILS[event.kind](event)}</span>`;
  const marks = remarksOf(row.flags).map(name => `<em title="${escape(remarks[name].words)}">${name}</em>`).join('');
  return `<span class="chip g${row.group}">${row.name}</span><span class="det">${DETAILS[row.name]?.(row) ?? ''}</span>${marks}`;
}

/**
 * A row in one sentence, for screen readers and for print.
 * @param {any} row @param {Record<string, any>} remarks
 */
export function rowText(row, remarks) {
  const side = 'AB'[row.side], time = row.time === null ? '' : `${row.time.toFixed(6)} s, `;
  if (row.event) return `${time}${side}, ${eventName(row)}, ${EVENT_DETAILS[row.event.kind](row.event).replace(/<[^>]*>/g, '')}`;
  const said = remarksOf(row.flags).map(name => `, ${remarks[name].one}`).join('');
  return `${time}${side} sends ${row.words}, at ${row.offset}${said}`;
}

/** @param {any} row @param {string} lane */
function rowHtml(row, lane) {
  const [a, b] = row.bands, isAsked = row.name === 'request' || row.name === 'metadata-request',
    none = '<span class="lane none"></span>';
  const latency = isAsked && typeof row.latency === 'number' ? `<span class="lat">${spanText(row.latency)}</span>` : '';
  const delta = row.delta === null || row.delta < 1.5e-6 ? '' : `+${spanText(row.delta)}`;
  return `<span class="bands"><i class="${bandOf(a, b)}"></i><i class="${bandOf(b, a)}"></i></span>` +
    `<span class="time">${row.time === null ? '' : row.time.toFixed(6)}</span><span class="delta">${delta}</span>` +
    (row.side === 0 ? `${lane}<span class="axis">▸</span>${none}` : `${none}<span class="axis">◂</span>${lane}`) +
    `<span class="size">${row.size === undefined ? '' : grouped(row.size)}</span><span class="answer">${latency}</span>`;
}

/**
 * How rows are drawn. `app` says which one is selected, and which one belongs to it.
 * @param {{ selected: number, mate: number }} app @param {Record<string, any>} remarks @returns {import('./virtual_list.js').Draw}
 */
export const drawRows = (app, remarks) => ({
  classes: row => ` s${row.side}${row.r === app.selected ? ' on' : ''}${row.r === app.mate ? ' mate' : ''}` +
    (row.event ? ` event e-${row.event.kind}` : ` k${row.group}`),
  label: row => escape(rowText(row, remarks)),
  html: row => rowHtml(row, `<span class="lane" title="${escape(`${row.offset} ${row.words}`)}">${laneHtml(row, remarks)}` +
    '<span class="lead"></span></span>'),
});
