// One sentence that says who closed the connection, after what, and what may be the reason.
import { h, spanText } from './dom.js';
import { remarksOf } from './row_view.js';
import { reasonWords } from '../core/reason_words.js';

/** @param {string} text */
const lower = text => text[0].toLowerCase() + text.slice(1);

/**
 * What the sentence ends with if nobody judged an index, since the piece count isn't known.
 * @param {any} closing
 */
const uncounted = ({ most }) => most >= 0
  ? `. No piece count is known, so nobody judged whether piece ${most} exists: type the count above, or drop the .torrent` : '';

/**
 * What the row that may be the reason says.
 * @param {any} closing @param {{ reasons: any, remarks: any }} tables
 */
function causeText(closing, { reasons, remarks }) {
  const { kind, cause } = closing;
  if (!cause) return '';
  if (kind === 'refusal') return lower(reasonWords(reasons, cause.event.verdict, cause.bytes, cause.own).words);
  if (kind === 'remark') return `${remarks[remarksOf(cause.flags)[0]].one}, "${cause.words}"`;
  return `"${cause.words}"`;
}

/** @param {any} it the connection @param {{ reasons: any, remarks: any }} tables */
export function whyText(it, tables) {
  const { closing } = it;
  if (!closing) {
    if (it.isRaw) return 'Nothing is refused. Raw bytes say nothing of a close.';
    if (it.isReplaced) return 'No side closed the connection. A later one has the same ports, and nothing is refused.';
    return "The connection is still open at the capture's end, and nothing is refused.";
  }
  const { event, kind, cause } = closing, text = causeText(closing, tables), sender = cause && 'AB'[cause.side];
  const what = cause?.event?.kind === 'bep' ? 'a message that only the strict rules "bep" refuse' : 'a message that is refused';
  if (!event) return it.isRaw ? `The stream has ${what}: ${text}.`
    : `${sender} sent ${what}, and no close follows in the capture: ${text}.`;
  const closed = `${'AB'[event.side]} closed the connection, by ${event.word}`;
  const after = cause && cause.time !== null ? `${spanText(event.time - cause.time)} after ` : 'after ';
  switch (kind) {
    case 'refusal': return `${closed}, ${after}${sender} sent ${what}: ${text}.`;
    case 'remark': return `${closed}, ${after}${sender} sent ${text}.`;
    case 'seeds': return `${closed}, ${after}the last message of ${sender}, ${text}: both ends have all pieces.`;
    case 'gap': return `${closed}. The capture has a gap, so what came before isn't all known.`;
    case 'nothing': return `${closed}, before ${'AB'[1 - event.side]} sent a message.`;
    case 'metadata': return `${closed}, ${after}the last block of the metadata, ${text}: all of it was there then.`;
    default: return `${closed}, ${after}the last message of ${sender}, ${text}. ` +
      `Nothing that ${sender} sent is refused${uncounted(closing)}.`;
  }
}

/**
 * The sentence as a button that goes to the row.
 * @param {HTMLElement} root @param {any} it @param {{ reasons: any, remarks: any }} tables @param {(row: number) => void} onJump
 */
export function drawWhy(root, it, tables, onJump) {
  const { closing } = it, text = whyText(it, tables), level = closing?.kind === 'refusal' ? closing.cause.event.kind
    : closing?.kind === 'remark' ? 'remark' : 'plain';
  root.className = `why-${level}`;
  const place = closing?.cause && (closing.cause.event ? closing.cause.event.place : closing.cause.offset);
  root.replaceChildren(h('span.whyhead', closing?.event ? 'Why did it close?' : 'What happened?'), closing?.cause
    ? h('button.whytext', { title: 'goes to the row and its bytes', onclick: () => onJump(closing.cause.r) }, text,
      h('span.whyplace', `byte ${place} ↘`))
    : h('span.whytext', text), h('span.unproved',
      { title: 'the cause is this page’s guess. What is refused, and where, is the proved reader’s' }, 'a guess'));
}
