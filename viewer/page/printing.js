// Printing: the rows that the filter shows as a plain table, up to a limit, and what is selected.
import { $, h, grouped } from './dom.js';
import { rowText } from './row_view.js';
import { whyText } from './why.js';

const MOST_ROWS = 2000;

/** @param {import('./app.js').App} app */
export async function printRows(app) {
  const { it, total, tables } = app, rows = await app.backend.call('rows', { from: 0, to: Math.min(total, MOST_ROWS) });
  const ends = it.sides.map((/** @type {any} */ side, /** @type {number} */ k) =>
    h('p', h('b', 'AB'[k]), ` ${it.names[k]} · ${side.client ?? 'no handshake'}`,
    ['free', 'bep'].map(rules => side[rules]
      ? ` · ${rules}: ${side[rules].ok ? 'accepted' : `${side[rules].reason} at ${side[rules].at}`}` : '')));
  const more = total > rows.length ? h('p', `The first ${grouped(rows.length)} of ${grouped(total)} rows.`) : null;
  $('#print').replaceChildren(...[h('h1', app.names), ends, h('p', whyText(it, tables)), $('#inspector .refusal')?.cloneNode(true),
    h('ol', rows.map((/** @type {any} */ row) => h('li', { value: row.r + 1, class: row.event ? `e-${row.event.kind}` : '' },
      rowText(row, tables.remarks)))), more].flat().filter(Boolean));
  window.print();
}
