// The worker: it keeps what is open, and answers the page's calls.
import { FileBytes } from './file_bytes.js';
import { ProvedReader } from './proved_reader.js';
import { Session } from './session.js';

const FIRST_BYTES = 4 << 20;

/** @type {Session | null} */
let session = null;
/** Why there is no session. */
let why = 'The reader has not started.';

/** @param {string} phase @param {number} part */
const progress = (phase, part) => postMessage({ progress: { phase, part } });

/**
 * A file as it is, or unpacked if it is compressed by gzip.
 * @param {Blob} file @param {string} name
 */
async function unpacked(file, name) {
  const head = new Uint8Array(await file.slice(0, 2).arrayBuffer());
  if (head[0] !== 0x1f || head[1] !== 0x8b) return file;
  progress('unpacking', 0.5);
  const { DecompressionStream } = /** @type {any} */ (self);
  const stream = file.stream().pipeThrough(new DecompressionStream('gzip'));
  return new Response(stream).blob().catch(() => { throw new Error(`${name} can't be unpacked: its gzip data is broken or cut`); });
}

/** @type {Record<string, (given: any) => any>} */
const calls = {
  /** @param {{ wasm: Uint8Array }} given */
  async start({ wasm }) {
    try { session = new Session(await ProvedReader.make(wasm), progress); } catch (error) {
      why = error instanceof Error ? error.message : String(error);
      throw error;
    }
  },

  /** @param {{ files: { name: string, file: Blob }[], pieces: number | null }} given */
  async open({ files, pieces }) {
    const opened = [];
    for (const { name, file } of files) {
      const bytes = FileBytes.ofBlob(await unpacked(file, name));
      if (bytes.length) bytes.part(0, Math.min(bytes.length, FIRST_BYTES));
      opened.push({ name, bytes });
    }
    return session.open(opened, pieces);
  },

  options: given => session.setOptions(given),
  select: given => session.select(given),
  summary: () => session.summary(),
  filter: given => session.filter(given),
  rows: given => session.rows(given),
  placeOf: given => session.placeOf(given),
  rowAt: given => session.rowAt(given),
  message: given => session.message(given),
  lines: given => session.lines(given),
  stream: given => session.stream(given),
};

onmessage = async ({ data: { id, call, given } }) => {
  try {
    if (!session && call !== 'start') throw new Error(why);
    postMessage({ id, answer: await calls[call](given) });
  }
  catch (error) { postMessage({ id, error: error instanceof Error ? error.message : String(error) }); }
};
