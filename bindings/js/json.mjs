// The members that `bt_tool show --json` has of an item, and its line. Nothing of it is proved.
const COLON = 0x3a, DICT = 0x64, INTEGER = 0x69, LIST = 0x6c, END = 0x65, V = 0x76;
const UTF8 = new TextDecoder('utf-8', { fatal: true, ignoreBOM: true });

const hex = bytes => Array.from(bytes, byte => byte.toString(16).padStart(2, '0')).join('');

/** The text of bytes in UTF-8; null for others. */
function textOf(bytes) {
  try {
    return UTF8.decode(bytes);
  } catch {
    return null;
  }
}

/** The string that begins at `at`, which may be long. */
function stringAt(bytes, at) {
  const colon = bytes.indexOf(COLON, at), size = Number(String.fromCharCode(...bytes.subarray(at, colon)));
  return bytes.subarray(colon + 1, colon + 1 + size);
}

const afterString = (bytes, at) => {
  const found = stringAt(bytes, at);
  return found.byteOffset - bytes.byteOffset + found.length;
};

/** Where the bencoded value ends that begins at `at`. */
function afterValue(bytes, at) {
  let depth = 0;
  do {
    const byte = bytes[at];
    if (byte === DICT || byte === LIST) depth += 1;
    if (byte === END) depth -= 1;
    if (byte === INTEGER) at = bytes.indexOf(END, at) + 1;
    else at = byte === DICT || byte === LIST || byte === END ? at + 1 : afterString(bytes, at);
  } while (depth);
  return at;
}

/** The client's name of an extended handshake (BEP 10): the first `v` of its dictionary, which the library has read, if it is a string. */
function clientOf(dictionary) {
  for (let at = 1; dictionary[at] !== END;) {
    const key = stringAt(dictionary, at), value = afterString(dictionary, at), isString = dictionary[value] <= COLON;
    if (key.length === 1 && key[0] === V) return isString ? textOf(stringAt(dictionary, value)) : null;
    at = afterValue(dictionary, value);
  }
  return null;
}

const ofHandshake = ({ reserved, infoHash, peerId }) =>
  ({ reserved: reserved.toString(16).padStart(16, '0'), info_hash: hex(infoHash), peer_id: hex(peerId), peer_id_text: textOf(peerId) });

const ofAnnouncement = ({ body, dictSize, rest, metadataSize, utMetadata }) => ({
  dictionary: dictSize, rest: rest.length, metadata_size: metadataSize, ut_metadata: utMetadata, client: clientOf(body.subarray(0, dictSize)),
});

/** By the name of an item, what it has besides its offset and name. An item that isn't here has the numbers of its message. */
const MEMBERS = {
  handshake: ofHandshake,
  bitfield: ({ body }) => ({ bytes: body.length }),
  piece: ({ index, begin, body }) => ({ index, begin, bytes: body.length }),
  unknown: ({ id, body }) => ({ id, bytes: body.length }),
  extended: ({ extendedId, body }) => ({ id: extendedId, bytes: body.length }),
  'ext-handshake': ofAnnouncement,
  'metadata-request': ({ piece }) => ({ piece }),
  'metadata-data': ({ piece, totalSize, rest }) => ({ piece, total_size: totalSize, bytes: rest.length }),
  'metadata-reject': ({ piece }) => ({ piece }),
  'metadata-other': ({ dictSize, rest }) => ({ dictionary: dictSize, rest: rest.length }),
  'metadata-malformed': ({ dictSize, rest }) => ({ dictionary: dictSize, rest: rest.length }),
  donthave: ({ piece }) => ({ index: piece }),
};
const NUMBERS = ['index', 'begin', 'length', 'port'];

/** The members of an item, in their order. Sizes of metadata may be BigInts. */
export function membersOf(item) {
  const { start, name } = item, of = MEMBERS[name];
  const more = of ? of(item) : Object.fromEntries(NUMBERS.map(it => [it, item[it]]).filter(([, value]) => value !== null));
  return { offset: start, item: name, ...more };
}

const numberOf = value => JSON.rawJSON ? JSON.rawJSON(String(value)) : Number(value);

/** The members as JSON.stringify takes them. */
export function shown(members) {
  return Object.fromEntries(Object.entries(members).map(([name, value]) => [name, typeof value === 'bigint' ? numberOf(value) : value]));
}

/** The line of these members. */
export function lineOf(members) {
  const parts = Object.entries(members).map(([name, value]) => `"${name}":${typeof value === 'bigint' ? value : JSON.stringify(value)}`);
  return `{${parts.join(',')}}`;
}
