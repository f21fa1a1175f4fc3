// What is selected: what it means, its fields, its dictionary as a tree, its bytes. Values of fields are those of the proved
// reader; where they stand in the bytes follows from the standards' layout; the tree is this page's own.
import { h, copyText, grouped, plural, spanText } from './dom.js';
import { EVENT_NAMES, MESSAGES } from './message_words.js';
import { fieldsOf } from './message_fields.js';
import { treeHtml } from './tree_view.js';
import { remarksOf } from './row_view.js';
import { HexView } from './hex_view.js';
import { parseTree } from '../core/bencode_tree.js';
import { reasonWords } from '../core/reason_words.js';
import { hexOf } from '../core/text.js';
import { CODE } from '../core/items.js';

/** @typedef {import('./hex_view.js').Field} Field */

/**
 * The mark of what is proved.
 * @param {string} title @param {...any} text
 */
const proved = (title, ...text) => h('span.proved', { title }, '∎', text);

export class Inspector {
  /** @param {HTMLElement} root @param {{ reasons: any, remarks: any }} tables @param {(row: number) => void} onJump */
  constructor(root, tables, onJump) {
    this.tables = tables;
    this.onJump = onJump;
    /** @type {Field[]} */ this.fields = [];
    this.head = h('div.ihead');
    this.body = h('div.ibody', { tabindex: 0, role: 'region', 'aria-label': 'fields of the message' });
    const box = h('div.hexbox', { tabindex: 0, role: 'region', 'aria-label': 'bytes of the message in hex' });
    root.append(this.head, this.body, box);
    this.hex = new HexView(box, field => this.light(field));
    this.body.addEventListener('mouseover', (/** @type {any} */ event) => this.hex.light(fieldAt(event)));
    this.body.addEventListener('mouseleave', () => this.hex.light(-1));
    this.body.addEventListener('click', (/** @type {any} */ event) => {
      const field = fieldAt(event);
      if (field < 0) return;
      this.hex.reveal(this.fields[field].from);
      this.hex.light(field);
    });
    this.clear();
  }

  clear(text = 'Select a message: its fields and bytes appear here.') {
    this.fields = [];
    this.head.replaceChildren();
    this.body.replaceChildren(h('div.empty', text));
    this.hex.set(new Uint8Array(0), 0, []);
  }

  /**
   * Marks the line of the innermost field that has a line.
   * @param {number} field
   */
  light(field) {
    for (const line of this.body.querySelectorAll('.lit')) line.classList.remove('lit');
    const inner = this.fields[field];
    for (let k = field; k >= 0; k--) {
      const { from, to } = this.fields[k], line = from <= inner.from && to >= inner.to &&
        this.body.querySelector(`[data-f="${k}"]`);
      if (line) {
        line.classList.add('lit');
        return;
      }
    }
  }

  /** @param {any} message */
  show(message) {
    const { event, bytes } = message, verdict = event?.verdict, bad = verdict ? verdict.at - message.start : -1;
    this.head.replaceChildren(this.title(message), h('div.isub', subtitle(message)), this.meta(message));
    const isHandshake = event ? verdict?.message === 0 : message.code === CODE.handshake;
    const { found, dictionary } = bytes.length ? fieldsOf(bytes, message.fields, isHandshake) : { found: [], dictionary: -1 };
    this.fields = found.slice();
    this.body.replaceChildren(...[
      verdict && this.refusal(message, bad, found),
      remarksOf(message.flags).map(name => h('div.note', h('b', capital(this.tables.remarks[name].one)), '. ',
        this.tables.remarks[name].words)),
      found.length > 0 && fieldTable(found, message.start, bad), dictionary >= 0 && this.tree(message, dictionary),
    ].flat().filter(Boolean));
    this.body.scrollTop = 0;
    this.hex.set(bytes, message.start, this.fields, bad, message);
  }

  /** @param {any} message */
  title(message) {
    const { event, name, group, side, start, size, bytes } = message;
    const place = event ? `at ${grouped(event.place)}`
      : `message ${message.message} · offset ${grouped(start)} · ${plural(size, 'byte')}`;
    return h('div.ititle', h(`span.chip.g${group}`, { class: event ? `ev-${event.kind}` : '' }, event ? event.word ??
      EVENT_NAMES[event.kind] : name),
      h('span.iarrow', side === 0 ? 'A → B' : 'B → A'), h('span.iplace', place), !event &&
        proved('This item is what the proved reader read.'), h('span.grow'),
      !event && copyButton('line', message.line), !event && copyButton('JSON', message.json), bytes.length > 0 &&
        copyButton('hex', hexOf(bytes)));
  }

  /** @param {any} message */
  meta(message) {
    const { event, name, time, packet, latency, mate, mateName } = message, told = !event && MESSAGES[name];
    const isRequest = name === 'request' || name === 'metadata-request';
    const delay = typeof latency === 'number' ? `${mateName} ${spanText(latency)} ${isRequest ? 'later' : 'earlier'}`
      : `its ${mateName}`;
    return h('div.imeta', told && h('span', told[0]), time !== null && h('span', `${time.toFixed(6)} s`),
      packet !== null && h('span', { title: 'the packet that has the last byte, counted from 1 as Wireshark does' },
        `packet ${grouped(packet)}`),
      mate !== undefined && h('button.link', { onclick: () => this.onJump(mate) }, `${delay} ↗`));
  }

  /** @param {any} message @param {number} bad @param {Field[]} found */
  refusal(message, bad, found) {
    const { event, bytes, own, left } = message, { verdict, kind } = event,
      told = reasonWords(this.tables.reasons, verdict, bytes, own);
    const field = found.find(one => bad >= one.from && bad < one.to);
    return h('div.refusal', { class: kind, role: 'alert' },
      h('div.rtitle', told.title, proved('The offset and the reason are the proved reader’s.', ' proved verdict')),
      h('div.rwords', `${told.words}.`),
      h('div.rfacts', h('b', verdict.reason), h('span', told.section), h('span', `rules ${event.rules}`),
        h('span', `message ${verdict.message}, byte ${grouped(verdict.at)}${field ? ` (${field.name})` : ''}`)),
      told.cure && h('div.rhint', told.cure),
      kind === 'cut' && h('div.rhint', `The stream ends here because of ${event.cut}: it isn't the sender's fault.`),
      kind === 'refused' && left > 0 && h('div.rhint',
        `What follows isn't read: ${plural(left, 'byte')} from the start of this message.`),
      kind === 'bep' && h('div.rhint', 'The rules "free" accept it, and the stream is read on.'));
  }

  /** @param {any} message @param {number} dictionary */
  tree(message, dictionary) {
    const { bytes, fields, start } = message, tree = parseTree(bytes, dictionary), isJudged = fields && fields.code !== CODE.extRaw;
    const isSame = isJudged && tree.end - dictionary === fields.b;
    const note = isSame ? proved('This page’s tree ends where the proved reader says that the dictionary ends.',
      ` ${plural(fields.b, 'byte')}`)
      : h('span.small', fields ? "the reader doesn't judge it" : 'as far as it can be read');
    return [h('div.treehead', 'Dictionary', note), h('div.tree', { html: treeHtml(bytes, tree.root, this.fields, start) })];
  }
}

/** @param {any} event */
function fieldAt(event) {
  const line = event.target.closest('[data-f]');
  return line ? Number(line.dataset.f) : -1;
}

/** @param {string} text */
const capital = text => text[0].toUpperCase() + text.slice(1);

/** @param {any} message */
function subtitle({ event, name }) {
  if (!event) return MESSAGES[name]?.[1] ?? '';
  switch (event.kind) {
    case 'gap': return `${plural(event.size, 'byte was', 'bytes were')} sent that the capture lacks. This direction is read up to here.`;
    case 'close': return 'The end closed its direction.';
    case 'exchange': return `${plural(event.size, 'byte')} of a key exchange come before the handshake, of message stream encryption. ` +
      'Offsets are counted from the handshake.';
    default: return '';
  }
}

/** @param {Field[]} found @param {number} start @param {number} bad */
function fieldTable(found, start, bad) {
  return h('table.fields', h('tbody', found.map((field, k) =>
    h('tr', { 'data-f': k, class: bad >= field.from && bad < field.to ? 'badrow' : '' },
    h('td.fat', grouped(start + field.from)), h('td', h(`span.swatch.f-${field.kind}`), field.name),
    h('td.fvalue', { class: String(field.value).length > 18 ? 'long' : '' }, String(field.value ?? '')),
      h('td.fnote', field.note ?? '')))));
}

/** @param {string} what @param {string} text */
function copyButton(what, text) {
  const button = h('button.tiny', { title: `copy as ${what}`, onclick: async () => {
    button.textContent = await copyText(text) ? 'copied' : 'failed';
    setTimeout(() => { button.textContent = what; }, 900);
  } }, what);
  return button;
}
