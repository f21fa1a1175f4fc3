// Ways to open files: the chooser, dropping, the examples of the page.
import { $, $$, plural, say } from './dom.js';

/** @typedef {import('./app.js').App} App */

/** @param {string} text */
export const decode = text => Uint8Array.from(atob(text.trim()), sign => sign.charCodeAt(0));

/**
 * The examples that are part of this page, and the piece count of their torrents, without which an index isn't judged.
 * @type {Record<string, string>}
 */
const PIECES = { refused: '38', small: '' };

/** @param {string} name */
const exampleBytes = name => decode($(`#example-${name}`).textContent);

/**
 * The name of the example that a file is, or undefined.
 * @param {Blob} file
 */
async function exampleOf(file) {
  for (const name of Object.keys(PIECES)) {
    const bytes = exampleBytes(name);
    if (bytes.length !== file.size) continue;
    const given = new Uint8Array(await file.arrayBuffer());
    if (bytes.every((byte, k) => byte === given[k])) return name;
  }
  return undefined;
}

/** @param {App} app @param {File[]} files */
export async function openFiles(app, files) {
  if (!files.length) return;
  const name = files.length === 1 ? await exampleOf(files[0]) : undefined, pieces = name ? PIECES[name] : '';
  await app.open(files.map(file => ({ name: file.name, file })), files.length === 1 ? files[0].name : plural(files.length, 'file'), '',
    pieces);
  if (pieces) say(`This is the example of the page. Its torrent has ${pieces} pieces.`);
}

/** @param {App} app @param {string} name */
export async function openExample(app, name) {
  if (!Object.hasOwn(PIECES, name)) return;
  await app.open([{ name: `${name}.pcap`, file: new Blob([exampleBytes(name)]) }], `${name}.pcap`, name, PIECES[name]);
}

/** @param {App} app */
export function bindOpening(app) {
  const chooser = $('#chooser');
  for (const button of $$('.choose')) button.onclick = () => chooser.click();
  for (const button of $$('[data-example]')) button.onclick = () => openExample(app, button.dataset.example);
  chooser.onchange = async () => {
    await openFiles(app, [...chooser.files]);
    chooser.value = '';
  };
  addEventListener('dragover', event => {
    event.preventDefault();
    document.body.classList.add('drag');
  });
  addEventListener('dragleave', event => { if (!event.relatedTarget) document.body.classList.remove('drag'); });
  addEventListener('drop', event => {
    event.preventDefault();
    document.body.classList.remove('drag');
    openFiles(app, [...event.dataTransfer.files]);
  });
}
