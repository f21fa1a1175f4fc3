// What a peer id says of its client (the conventions of BEP 20).
import { printable } from './text.js';

/** @type {Record<string, string>} */
const CLIENTS = { LT: 'libtorrent (rasterbar)', lt: 'libtorrent (rakshasa)', TR: 'Transmission', qB: 'qBittorrent', DE: 'Deluge',
  UT: 'µTorrent',
  UM: 'µTorrent Mac', BT: 'BitTorrent', AZ: 'Vuze', KT: 'KTorrent', WW: 'WebTorrent', BI: 'BiglyBT', FD: 'Free Download Manager' };

/** @param {Uint8Array} peerId */
export function peerName(peerId) {
  const text = printable(peerId, '.'), azureus = /^-([A-Za-z0-9]{2})([0-9A-Za-z]{4})-/.exec(text);
  if (text.startsWith('A2-')) return `aria2 ${text.slice(3, 9).replace(/-/g, '.').replace(/\.+$/, '')}`;
  if (azureus && CLIENTS[azureus[1]]) return `${CLIENTS[azureus[1]]} ${[...azureus[2]].map(digit => parseInt(digit, 36)).join('.')}`;
  return text.replace(/ /g, '.');
}
