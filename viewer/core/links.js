// Where the packet of IP starts in a frame, by the link type: what stands before it.

const IPV4 = 0x0800, IPV6 = 0x86dd, SESSION = 0x8864, BRIDGING = 0x6558;
const VLAN_TAGS = new Set([0x8100, 0x88a8, 0x9100]), LABELS = new Set([0x8847, 0x8848]);
/**
 * Link type: where the type of what is carried stands (null: the IP version says it), and the length of the header.
 * @type {Record<number, [number | null, number]>}
 */
const FIXED = { 1: [12, 14], 113: [14, 16], 276: [0, 20], 0: [null, 4], 108: [null, 4], 12: [null, 0], 14: [null, 0],
  101: [null, 0], 228: [null, 0], 229: [null, 0] };
/** @typedef {(view: DataView, start: number, end: number) => number} Start */
/** Link types whose header says its length. @type {Record<number, Start>} */
const SAID = { 9: framed, 50: framed, 51: session, 105: wireless, 127: radiotap, 239: logged };
const TAP = 258;

/**
 * Where the IP header starts in the view, or -1.
 * @param {import('./capture_file.js').Packet} packet
 */
export function ipStart({ view, link, at, seen }) {
  if (link !== TAP) return startOf(view, link, at, at + seen);
  const start = seen < 12 ? -1 : at + view.getUint32(at, true);
  return start < 0 || start > at + seen ? -1 : startOf(view, view.getUint32(at + 8, true), start, at + seen);
}

/** @param {DataView} view @param {number} link @param {number} at @param {number} end */
function startOf(view, link, at, end) {
  if (SAID[link]) return SAID[link](view, at, end);
  if (!FIXED[link]) return -1;
  const [kind, size] = FIXED[link];
  return kind === null ? at + size : typed(view, at + kind, at + size, end);
}

/** After a type and what it stands for. @param {DataView} view @param {number} kindAt @param {number} start @param {number} end */
function typed(view, kindAt, start, end) {
  if (Math.max(kindAt + 2, start) > end) return -1;
  let kind = view.getUint16(kindAt);
  while (VLAN_TAGS.has(kind) && start + 4 <= end) {
    kind = view.getUint16(start + 2);
    start += 4;
  }
  if (LABELS.has(kind)) return unlabelled(view, start, end);
  if (kind === SESSION) return session(view, start, end);
  return kind === IPV4 || kind === IPV6 ? start : -1;
}

/** After a label stack of MPLS. @type {Start} */
function unlabelled(view, start, end) {
  while (start + 4 <= end) {
    start += 4;
    if (view.getUint8(start - 2) & 1) return start;
  }
  return -1;
}

/** After a session of PPP over Ethernet. @type {Start} */
function session(view, start, end) {
  return start + 6 <= end && view.getUint16(start) === 0x1100 ? ppp(view, start + 6, end) : -1;
}

/** After PPP's protocol, whose first byte may be left out. @type {Start} */
function ppp(view, start, end) {
  if (start < end && view.getUint8(start) === 0) start++;
  const kind = start < end ? view.getUint8(start) : 0;
  return kind === 0x21 || kind === 0x57 ? start + 1 : -1;
}

/** After PPP that may have an address and a control field. @type {Start} */
function framed(view, start, end) {
  return ppp(view, start + 2 <= end && view.getUint16(start) === 0xff03 ? start + 2 : start, end);
}

/** After a data frame's header and LLC. @type {Start} */
function wireless(view, start, end) {
  if (start + 24 > end) return -1;
  const control = view.getUint8(start), flags = view.getUint8(start + 1);
  if ((control & 0x4f) !== 0x08 || flags & 0x44 || view.getUint8(start + 22) & 15) return -1;
  const llc = start + 24 + ((flags & 3) === 3 ? 6 : 0) + (control & 0x80 ? (flags & 0x80 ? 6 : 2) : 0);
  if (llc + 8 > end || view.getUint32(llc) !== 0xaaaa0300 || view.getUint16(llc + 4)) return -1;
  return typed(view, llc + 6, llc + 8, end);
}

/** @type {Start} */
function radiotap(view, start, end) {
  return start + 4 <= end && view.getUint8(start) === 0 ? wireless(view, start + view.getUint16(start + 2, true), end) : -1;
}

/** At the attribute of NFLOG that is a packet. @type {Start} */
function logged(view, start, end) {
  for (start += 4; start + 4 <= end;) {
    const size = view.getUint16(start, true);
    if (size < 4) return -1;
    if (view.getUint16(start + 2, true) === 9) return start + 4;
    start += size + 3 & ~3;
  }
  return -1;
}

/** After a header of GRE. @type {Start} */
export function afterGre(view, start, end) {
  if (start + 4 > end) return -1;
  const first = view.getUint8(start), kind = view.getUint16(start + 2);
  if (first & 0x4c || view.getUint8(start + 1) & 7) return -1;
  const inner = start + 4 + [0x80, 0x20, 0x10].reduce((size, bit) => size + (first & bit ? 4 : 0), 0);
  return kind === BRIDGING ? typed(view, inner + 12, inner + 14, end) : typed(view, start + 2, inner, end);
}
