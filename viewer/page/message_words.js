// What each message means, with the section of the standard; and the bits of a handshake.

/** @type {Record<string, [string, string]>} */
export const MESSAGES = {
  handshake: ['BEP 3, "peer protocol"', 'Opens the stream: what the sender can do, which torrent it means, who it is.'],
  'keep-alive': ['BEP 3, "peer messages"', 'Says nothing, and keeps the connection open.'],
  choke: ['BEP 3, "peer messages"', 'The sender answers no requests from now on.'],
  unchoke: ['BEP 3, "peer messages"', 'The sender answers requests from now on.'],
  interested: ['BEP 3, "peer messages"', 'The sender wants pieces that the receiver has.'],
  'not-interested': ['BEP 3, "peer messages"', 'The sender wants no piece that the receiver has.'],
  have: ['BEP 3, "peer messages"', 'The sender has this piece now.'],
  bitfield: ['BEP 3, "peer messages"', 'Which pieces the sender has: a bit for each, the highest bit first.'],
  request: ['BEP 3, "peer messages"', 'The sender asks for a block of a piece.'],
  piece: ['BEP 3, "peer messages"', 'A block of a piece.'],
  cancel: ['BEP 3, "peer messages"', 'The sender does not want the block any more.'],
  port: ['BEP 5, "BitTorrent protocol extension"', "The UDP port of the sender's DHT node."],
  suggest: ['BEP 6, "Suggest Piece"', 'The sender suggests that the receiver asks for this piece.'],
  'have-all': ['BEP 6, "Have All/Have None"', 'The sender has all pieces.'],
  'have-none': ['BEP 6, "Have All/Have None"', 'The sender has no piece.'],
  reject: ['BEP 6, "Reject Request"', 'The sender will not send this block.'],
  'allowed-fast': ['BEP 6, "Allowed Fast"', 'The receiver may ask for this piece while it is choked too.'],
  'ext-handshake': ['BEP 10, "handshake message"', 'Which extensions the sender has, and the ids under which it wants them.'],
  'metadata-request': ['BEP 9, "extension message"', 'The sender asks for a block of the metadata.'],
  'metadata-data': ['BEP 9, "extension message"', 'A block of the metadata.'],
  'metadata-reject': ['BEP 9, "extension message"', 'The sender will not send this block of the metadata.'],
  'metadata-other': ['BEP 9, "extension message"', 'A metadata message of a type that BEP 9 does not have.'],
  'metadata-malformed': ['BEP 9, "extension message"', 'A key that the type needs is missing, or its value is no such number.'],
  donthave: ['the extension lt_donthave', 'The sender does not have this piece any more.'],
  extended: ['BEP 10, "extension protocol"', "A message of an extension that isn't read here. Its payload isn't judged."],
  unknown: ['not in BEP 3, 5, 6 or 10',
    'The standards that are read here have no such id. The rules "free" keep it, "bep" refuses it.'],
};

/**
 * Bits of the reserved bytes: the bit, a short name, a long one.
 * @type {[bigint, string, string][]}
 */
export const BITS = [[0x4n, 'Fast', 'Fast Extension (BEP 6)'], [0x1n, 'DHT', 'distributed hash table (BEP 5)'],
  [0x100000n, 'Ext', 'Extension Protocol (BEP 10)']];

/** @type {Record<string, string>} */
export const EVENT_NAMES = { refused: 'refused', cut: 'cut off', bep: 'refused under bep', gap: 'gap', close: 'close',
  exchange: 'key exchange' };
