// The worker's calls.
import { $ } from './dom.js';

export class Backend {
  /** @param {(progress: { phase: string, part: number }) => void} onProgress */
  constructor(onProgress) {
    const source = new Blob([$('#worker').textContent], { type: 'text/javascript' });
    this.worker = new Worker(URL.createObjectURL(source));
    /** @type {Map<number, { done: (answer: any) => void, fail: (error: Error) => void }>} */
    this.waiting = new Map();
    this.next = 1;
    this.worker.onmessage = ({ data }) => {
      if (data.progress) {
        onProgress(data.progress);
        return;
      }
      const { done, fail } = this.waiting.get(data.id);
      this.waiting.delete(data.id);
      if (data.error) fail(new Error(data.error)); else done(data.answer);
    };
  }

  /** @param {string} call @param {any} [given] @returns {Promise<any>} */
  call(call, given = {}) {
    return new Promise((done, fail) => {
      const id = this.next++;
      this.waiting.set(id, { done, fail });
      this.worker.postMessage({ id, call, given });
    });
  }
}
