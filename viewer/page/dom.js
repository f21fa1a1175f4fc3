// Small helpers: elements, numbers as text, canvases, copying and saving.

/**
 * Makes an element: h('div.a.b', { title: 'x', onclick: f }, 'text', child, [children], null).
 * @param {string} spec @param {...any} rest @returns {any}
 */
export function h(spec, ...rest) {
  const [tag, ...classes] = spec.split('.'), node = document.createElement(tag || 'div');
  if (classes.length) node.className = classes.join(' ');
  for (const part of rest.flat(4)) {
    if (part === null || part === undefined || part === false) continue;
    if (part instanceof Node) node.append(part);
    else if (typeof part === 'object') setAttributes(node, part);
    else node.append(String(part));
  }
  return node;
}

/** @param {HTMLElement} node @param {Record<string, any>} attributes */
function setAttributes(node, attributes) {
  for (const [name, value] of Object.entries(attributes)) {
    if (value === null || value === undefined || value === false) continue;
    if (name.startsWith('on')) node.addEventListener(name.slice(2), value);
    else if (name === 'style') node.style.cssText = value;
    else if (name === 'class') node.className += ` ${value}`;
    else if (name === 'html') node.innerHTML = value;
    else node.setAttribute(name, value === true ? '' : value);
  }
}

/** @param {string} selector @returns {any} */
export const $ = selector => document.querySelector(selector);
/** @param {string} selector @returns {any[]} */
export const $$ = selector => [...document.querySelectorAll(selector)];
/** @type {Record<string, string>} */
const ENTITIES = { '&': '&amp;', '<': '&lt;', '>': '&gt;', '"': '&quot;' };
/** @param {any} text */
export const escape = text => String(text).replace(/[&<>"]/g, sign => ENTITIES[sign]);
/** @param {any} number */
export const grouped = number => String(number).replace(/\B(?=(\d{3})+(?!\d))/g, '\u202f');
/** @param {number} number @param {string} one @param {string} [many] */
export const plural = (number, one, many = `${one}s`) => `${grouped(number)} ${number === 1 ? one : many}`;

/** @param {number} number */
export function bytesText(number) {
  if (number < 10000) return `${grouped(Math.round(number))} B`;
  const units = ['kB', 'MB', 'GB', 'TB'];
  let k = -1;
  do {
    number /= 1000;
    k++;
  } while (number >= 1000 && k < 3);
  return `${number < 10 ? number.toFixed(2) : number < 100 ? number.toFixed(1) : Math.round(number)} ${units[k]}`;
}

/** @param {number} seconds */
export function spanText(seconds) {
  const size = Math.abs(seconds);
  if (size < 1e-6) return '0 s';
  if (size < 9.995e-4) return `${(seconds * 1e6).toFixed(0)} µs`;
  if (size < 0.9995) return `${(seconds * 1e3).toFixed(size < 0.01 ? 2 : size < 0.1 ? 1 : 0)} ms`;
  if (size < 120) return `${seconds.toFixed(2)} s`;
  const minutes = Math.floor(seconds / 60);
  return minutes < 120 ? `${minutes} min ${Math.round(seconds % 60)} s` : `${Math.floor(minutes / 60)} h ${minutes % 60} min`;
}

/**
 * The value of a style variable.
 * @param {string} name
 */
export const color = name => getComputedStyle(document.documentElement).getPropertyValue(name).trim();

/**
 * A canvas that fills its parent, with a context scaled to the screen. `text` says what it shows to those who can't see it.
 * @param {HTMLElement} parent @param {number} height @param {string} text
 */
export function canvasIn(parent, height, text) {
  const canvas = parent.querySelector('canvas') ?? parent.appendChild(document.createElement('canvas'));
  const width = parent.clientWidth, scale = window.devicePixelRatio || 1, pen = canvas.getContext('2d');
  canvas.width = Math.max(1, Math.round(width * scale));
  canvas.height = Math.round(height * scale);
  canvas.style.cssText = `width:${width}px;height:${height}px;display:block`;
  canvas.setAttribute('role', 'img');
  canvas.setAttribute('aria-label', text);
  pen.scale(scale, scale);
  return { pen, width, height };
}

/** @param {string} text */
export async function copyText(text) {
  try {
    await navigator.clipboard.writeText(text);
    return true;
  } catch {
    const area = h('textarea', { style: 'position:fixed;opacity:0' });
    area.value = text;
    document.body.append(area);
    area.select();
    const isDone = document.execCommand('copy');
    area.remove();
    return isDone;
  }
}

/** @param {string} name @param {Blob} data */
export function save(name, data) {
  const link = h('a', { href: URL.createObjectURL(data), download: name });
  link.click();
  setTimeout(() => URL.revokeObjectURL(link.href), 10000);
}

/**
 * Says something for a moment.
 * @param {string} text @param {boolean} [isBad]
 */
export function say(text, isBad = false) {
  const toast = $('#toast');
  toast.textContent = text;
  toast.className = isBad ? 'on bad' : 'on';
  clearTimeout(say.timer);
  say.timer = setTimeout(() => { toast.className = ''; }, isBad ? 7000 : 3200);
}
/** @type {ReturnType<typeof setTimeout> | undefined} */
say.timer = undefined;
