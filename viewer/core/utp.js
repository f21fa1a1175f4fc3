// Finds uTP (BEP 29) among UDP datagrams. It is counted and not read.

const HEADER = 20, DATA = 0, FIN = 1;

/** Counts, for each two ends, the datagrams that have a uTP header. */
export class UtpFlows {
  constructor() {
    /** @type {Map<string, { ends: [string, string], ids: Map<number, number> }>} */
    this.flows = new Map();
  }

  /**
   * Takes a datagram whose payload starts at this place of the view. Of its `size` bytes `captured` ones were captured.
   * @param {DataView} view @param {number} at @param {number} captured @param {number} size @param {string} source @param {string} target
   */
  take(view, at, captured, size, source, target) {
    if (!isUtp(view, at, captured, size)) return;
    const key = source < target ? `${source} ${target}` : `${target} ${source}`, id = view.getUint16(at + 2);
    let flow = this.flows.get(key);
    if (!flow) this.flows.set(key, flow = { ends: [source, target], ids: new Map() });
    flow.ids.set(id, (flow.ids.get(id) ?? 0) + 1);
  }

  /**
   * The two ends of a connection use an id and the next one, so a datagram counts if there is another with its id or a neighbour of
   * it.
   * @returns {{ ends: [string, string], packets: number }[]}
   */
  list() {
    const found = [];
    for (const { ends, ids } of this.flows.values()) {
      let packets = 0;
      for (const [id, count] of ids) {
        const near = count + (ids.get(id - 1 & 65535) ?? 0) + (ids.get(id + 1 & 65535) ?? 0);
        if (near > 1) packets += count;
      }
      if (packets) found.push({ ends, packets });
    }
    return found;
  }
}

/**
 * Version 1, a type from 0 to 4, a chain of extensions that fits, and a payload if the type has one: ST_DATA always, ST_FIN perhaps.
 * @param {DataView} view @param {number} at @param {number} captured @param {number} size
 */
function isUtp(view, at, captured, size) {
  const end = Math.min(at + captured, view.byteLength);
  if (at + HEADER > end) return false;
  const first = view.getUint8(at), type = first >> 4;
  if ((first & 15) !== 1 || type > 4) return false;
  let extension = view.getUint8(at + 1), place = at + HEADER;
  while (extension) {
    if (place + 2 > end) return false;
    extension = view.getUint8(place);
    place += 2 + view.getUint8(place + 1);
    if (place > end) return false;
  }
  const payload = size - (place - at);
  return type === DATA ? payload > 0 : type === FIN || payload === 0;
}
