// Pictures on canvas: the overview above the rows, lines over time, latencies, the piece map.
import { canvasIn, color, grouped, spanText } from './dom.js';

const GROUP_COLORS = ['--g0', '--g1', '--g2', '--g3', '--g4', '--g5', '--g6', '--g7'];
/** @type {Record<string, string>} */
const MARK_COLORS = { refused: '--bad', bep: '--warn', gap: '--warn', cut: '--dim', close: '--dim', exchange: '--g6' };
const LINES_HEIGHT = 150, HISTOGRAM_HEIGHT = 96, MAP_HEIGHT = 132, MAP_HIGHEST = 600;

/** @param {CanvasRenderingContext2D} pen @param {string} text @param {number} x @param {number} y @param {number} width */
function drawLabel(pen, text, x, y, width) {
  const wide = pen.measureText(text).width, at = x < 0 ? width + x - wide : x;
  pen.globalAlpha = 0.72;
  pen.fillStyle = color('--panel');
  pen.fillRect(at - 3, y - 2, wide + 6, 14);
  pen.globalAlpha = 1;
  pen.fillStyle = color('--soft');
  pen.fillText(text, at, y);
}

/** @param {CanvasRenderingContext2D} pen @param {any} mark @param {number} width @param {number} height */
function drawMark(pen, { kind, side, part }, width, height) {
  const x = Math.min(width - 1.5, Math.max(1, part * width)), middle = Math.round(height / 2);
  pen.fillStyle = color(MARK_COLORS[kind]);
  if (kind === 'refused' || kind === 'bep' || kind === 'gap') {
    const y = side ? height - 1 : 1;
    pen.fillRect(x - 0.75, side ? middle : 0, 1.5, middle);
    pen.beginPath();
    pen.moveTo(x - 5, y);
    pen.lineTo(x + 5, y);
    pen.lineTo(x, y + (side ? -7 : 7));
    pen.fill();
  } else {
    pen.globalAlpha = 0.7;
    pen.fillRect(x - 0.5, side ? middle : middle - 12, 1, 12);
    pen.globalAlpha = 1;
  }
}

/**
 * A side's bytes by kind. Small messages are as important as blocks, so the height goes by the logarithm.
 * @param {CanvasRenderingContext2D} pen @param {Float64Array[]} groups @param {number} side @param {number} most @param {number}
 *  width
 * @param {number} height
 */
function drawBins(pen, groups, side, most, width, height) {
  const n = groups[0].length, step = width / n, middle = Math.round(height / 2), colors = GROUP_COLORS.map(color);
  for (let k = 0; k < n; k++) {
    const weights = groups.map(group => Math.log2(1 + group[k])), all = weights.reduce((x, y) => x + y, 0);
    if (!all) continue;
    const sum = groups.reduce((total, group) => total + group[k], 0),
      tall = Math.log2(1 + sum) / Math.log2(1 + most) * (middle - 7) + 1.5;
    let at = 0;
    weights.forEach((weight, group) => {
      const part = tall * weight / all;
      pen.fillStyle = colors[group];
      if (weight) pen.fillRect(k * step, side ? middle + 1 + at : middle - at - part, Math.max(2.4, step - 0.4), part);
      at += part;
    });
  }
}

/**
 * Bytes over time, A upward and B downward; marks of refusals, gaps and closes.
 * @param {HTMLElement} parent @param {any} summary @param {number | null} cursor
 */
export function drawOverview(parent, summary, cursor) {
  const { bins, marks, hasTimes, last } = summary, kinds = marks.map((/** @type {any} */ mark) => mark.kind).join(', ');
  const { pen, width, height } = canvasIn(parent, parent.clientHeight,
    `Bytes over ${hasTimes ? 'time' : 'messages'}, by kind. Marks: ${kinds || 'none'}.`);
  pen.clearRect(0, 0, width, height);
  let most = 1;
  for (const side of bins) for (let k = 0; k < side[0].length; k++) most = Math.max(most,
    side.reduce((/** @type {number} */ sum, /** @type {any} */ group) => sum + group[k], 0));
  pen.fillStyle = color('--line');
  pen.fillRect(0, Math.round(height / 2), width, 1);
  bins.forEach((/** @type {Float64Array[]} */ groups, /** @type {number} */ side) =>
    drawBins(pen, groups, side, most, width, height));
  for (const mark of marks) drawMark(pen, mark, width, height);
  if (cursor !== null) {
    pen.fillStyle = color('--text');
    pen.fillRect(Math.round(cursor * width) - 0.5, 0, 1, height);
  }
  pen.font = `10px ${color('--mono')}`;
  pen.textBaseline = 'top';
  drawLabel(pen, 'A → B', 6, 3, width);
  drawLabel(pen, 'B → A', 6, height - 14, width);
  if (hasTimes) drawLabel(pen, `${last.toFixed(3)} s`, -6, height - 14, width);
}

/**
 * @typedef {{ values: Float64Array, color: string, isFilled?: boolean, dash?: number[] }} Series
 * @typedef {{ span: number, hasTimes: boolean, unit: (value: number) => string, isWhole?: boolean, text: string }} Axes
 */

/**
 * Lines over time.
 * @param {HTMLElement} parent @param {Series[]} series @param {Axes} axes
 */
export function drawLines(parent, series, axes) {
  const { pen, width, height } = canvasIn(parent, LINES_HEIGHT, axes.text),
    box = { left: 58, right: width - 8, top: 10, bottom: height - 20 };
  const highest = Math.max(1, ...series.map(({ values }) => values.reduce((x, y) => Math.max(x, y), 0))), steps = highest < 3
    ? Math.ceil(highest) : 3;
  const most = axes.isWhole ? Math.ceil(highest / steps) * steps : highest;
  drawAxes(pen, box, axes, most, steps);
  for (const { values, color: name, isFilled, dash } of series) {
    pen.beginPath();
    values.forEach((value, k) => pen.lineTo(box.left + (box.right - box.left) * (k + 1) / values.length,
      box.bottom - (box.bottom - box.top) * value / most));
    pen.strokeStyle = pen.fillStyle = color(name);
    pen.lineWidth = 1.6;
    pen.setLineDash(dash ?? []);
    pen.stroke();
    pen.setLineDash([]);
    if (!isFilled) continue;
    pen.lineTo(box.right, box.bottom);
    pen.lineTo(box.left, box.bottom);
    pen.globalAlpha = 0.14;
    pen.fill();
    pen.globalAlpha = 1;
  }
}

/**
 * @param {CanvasRenderingContext2D} pen @param {{ left: number, right: number, top: number, bottom: number }} box @param {Axes}
 *  axes
 * @param {number} most @param {number} steps
 */
function drawAxes(pen, { left, right, top, bottom }, { span, hasTimes, unit }, most, steps) {
  pen.font = `10.5px ${color('--sans')}`;
  pen.strokeStyle = color('--line');
  pen.fillStyle = color('--dim');
  pen.textAlign = 'right';
  pen.textBaseline = 'middle';
  for (let k = 0; k <= steps; k++) {
    const y = Math.round(bottom - (bottom - top) * k / steps) + 0.5;
    pen.beginPath();
    pen.moveTo(left, y);
    pen.lineTo(right, y);
    pen.stroke();
    pen.fillText(unit(most * k / steps), left - 7, y);
  }
  pen.textBaseline = 'top';
  for (let k = 0; k <= 4; k++) {
    pen.textAlign = k === 0 ? 'left' : k === 4 ? 'right' : 'center';
    const text = hasTimes ? spanText(span * k / 4) : `${grouped(Math.round(span * k / 4))}${k === 4 ? ' messages' : ''}`;
    pen.fillText(text, left + (right - left) * k / 4, bottom + 6);
  }
}

/**
 * Times by their logarithm.
 * @param {HTMLElement} parent @param {any} spread @param {string} name
 */
export function drawHistogram(parent, spread, name) {
  const text = `From request to block: from ${spanText(spread.least)} to ${spanText(spread.most)}, median ${spanText(spread.half)}`;
  const { pen, width, height } = canvasIn(parent, HISTOGRAM_HEIGHT, text), bottom = height - 18, n = spread.bars.length,
    most = Math.max(...spread.bars);
  pen.fillStyle = color('--line');
  pen.fillRect(0, bottom, width, 1);
  pen.fillStyle = color(name);
  spread.bars.forEach((/** @type {number} */ bar, /** @type {number} */ k) => {
    const tall = Math.max(2, bar / most * (bottom - 8));
    if (bar) pen.fillRect(k * width / n + 0.5, bottom - tall, width / n - 1.5, tall);
  });
  pen.font = `10.5px ${color('--sans')}`;
  pen.fillStyle = color('--dim');
  pen.textBaseline = 'top';
  /** @type {CanvasTextAlign[]} */ (['left', 'center', 'right']).forEach((align, k) => {
    pen.textAlign = align;
    pen.fillText(spanText(spread.low * (spread.high / spread.low) ** (k / 2)), width * k / 2, bottom + 5);
  });
}

/**
 * A cell for each piece: whether its owner has it, and how much of it was sent in this capture.
 * @param {HTMLElement} parent @param {Uint8Array} has @param {Float64Array} moved @param {number | null} pieceLength @param
 *  {string} name
 */
export function drawPieces(parent, has, moved, pieceLength, name) {
  const n = has.length, wide = parent.clientWidth, held = has.reduce((sum, one) => sum + one, 0);
  let size = 16;
  while (size > 1.5 && Math.floor(wide / size) * Math.floor(MAP_HEIGHT / size) < n) size -= size > 6 ? 1 : 0.5;
  const across = Math.max(1, Math.floor(wide / size)), down = Math.min(Math.ceil(n / across), Math.ceil(MAP_HIGHEST / size));
  const { pen } = canvasIn(parent, Math.max(size, down * size), `${grouped(held)} of ${grouped(n)} pieces`),
    box = size - (size > 5 ? 1.5 : size > 3 ? 0.5 : 0);
  const on = color(name), off = color('--line'), sent = color('--g4'), most = pieceLength ??
    moved.reduce((x, y) => Math.max(x, y), 1);
  for (let k = 0; k < Math.min(n, across * down); k++) {
    const x = k % across * size, y = Math.floor(k / across) * size, part = Math.min(1, moved[k] / most) * box;
    pen.fillStyle = has[k] ? on : off;
    pen.fillRect(x, y, box, box);
    pen.fillStyle = sent;
    if (part) pen.fillRect(x, y + box - part, box, part);
  }
}
