/* bt.h: the BitTorrent peer wire for C and C++, over libbt.a or libbt.so.
 *
 * It reads the stream that one peer sends to another (the handshake of BEP 3, the peer messages of BEP 3, BEP 5 and
 * BEP 6, and the extended messages of BEP 10 and BEP 9), refuses what the standards don't allow, and writes messages. An
 * end (bt_end, below) is one end of a connection: it reads, answers, and fetches or serves the metadata of a torrent.
 *
 * All except an end lives in the caller's memory: its structs have no pointer, need no free and may be copied. Every bit
 * pattern in them is a valid value, so these functions may be called in any order, and they don't allocate. No function of
 * the library blocks, or keeps a pointer that it was given.
 *
 * The caller's obligations: each pointer is valid for its struct, or for the number of bytes in its length (it may be NULL
 * if that is 0), and output doesn't overlap another argument.
 */
#ifndef BT_H
#define BT_H

#include <stddef.h>
#include <stdint.h>

#ifdef __cplusplus
extern "C" {
#define BT_ASSERT(holds, text) static_assert(holds, text)
#define BT_EMPTY {}
#else
#define BT_ASSERT(holds, text) _Static_assert(holds, text)
#define BT_EMPTY {0}
#endif

/* The version of the structs and calls below. It is what bt_abi returns if the library fits this header. */
#define BT_ABI 2
uint32_t bt_abi(void);

/* ---- who receives ---- */

/* Reserved bits of a handshake. */
#define BT_FAST UINT64_C(0x4)             /* Fast Extension, BEP 6 */
#define BT_DHT UINT64_C(0x1)              /* distributed hash table, BEP 5 */
#define BT_EXTENSIONS UINT64_C(0x100000)  /* Extension Protocol, BEP 10 */

/* The receiver: what a stream is judged by. A flag is on if it isn't 0. */
typedef struct bt_own {
    uint64_t reserved;      /* own reserved bits, as a big-endian number */
    uint32_t limit;         /* the greatest length of a message, its four bytes of length not counted; usual: 262144 */
    uint32_t pieces;        /* how many pieces the torrent has, if has_pieces is on */
    uint8_t has_pieces;
    uint8_t has_info_hash;  /* off: every info hash is accepted */
    uint8_t metadata_id;    /* own extended id of ut_metadata, 1 to 255; 0 for none */
    uint8_t donthave_id;    /* own extended id of lt_donthave, 1 to 255; 0, or metadata_id, for none */
    uint8_t strict;         /* on: the rules `bep`, off: the rules `free` */
    uint8_t info_hash[20];
} bt_own;

/* ---- what is read ---- */

/* What the calls return. */
enum {
    BT_MORE = 0,      /* more bytes are needed; nothing has changed */
    BT_ITEM = 1,      /* an item was read or written */
    BT_REFUSED = 2,   /* the stream or the message is refused; the item says where and why */
    BT_END = 3,       /* the stream ends here, and nothing is unfinished */
    BT_UNWRITTEN = 4  /* the message doesn't fit, and nothing was written */
};

/* Values of bt_item.id: the message's id (BEP 3, BEP 5, BEP 6, BEP 10), or one of the last two. */
enum {
    BT_CHOKE = 0,
    BT_UNCHOKE = 1,
    BT_INTERESTED = 2,
    BT_NOT_INTERESTED = 3,
    BT_HAVE = 4,           /* index */
    BT_BITFIELD = 5,       /* body */
    BT_REQUEST = 6,        /* index, begin, length */
    BT_PIECE = 7,          /* index, begin, body */
    BT_CANCEL = 8,         /* index, begin, length */
    BT_PORT = 9,           /* port */
    BT_SUGGEST = 13,       /* index */
    BT_HAVE_ALL = 14,
    BT_HAVE_NONE = 15,
    BT_REJECT = 16,        /* index, begin, length */
    BT_ALLOWED_FAST = 17,  /* index */
    BT_EXTENDED = 20,      /* extended_id, extended, body */
    BT_KEEP_ALIVE = 256,
    BT_HANDSHAKE = 257     /* reserved; see BT_INFO_HASH and BT_PEER_ID */
};

/* Where the info hash and the peer id start in the 68 bytes of a handshake. */
#define BT_INFO_HASH 28
#define BT_PEER_ID 48

/* Values of bt_extended.kind. */
enum {
    BT_EXT_HANDSHAKE = 1,
    BT_METADATA_REQUEST = 2,    /* piece */
    BT_METADATA_DATA = 3,       /* piece, total_size; the block follows the dictionary */
    BT_METADATA_REJECT = 4,     /* piece */
    BT_METADATA_OTHER = 5,      /* a type that BEP 9 doesn't have */
    BT_METADATA_MALFORMED = 6,  /* a key that the type needs is missing or isn't such a number */
    BT_EXT_RAW = 7,             /* an id that the receiver didn't register; body is the raw payload */
    BT_DONTHAVE = 8             /* piece, which the peer doesn't have any more (lt_donthave) */
};

/* Values of bt_item.reason. bt_reason_name has their names. */
enum {
    BT_BAD_PROTOCOL = 1,
    BT_WRONG_INFO_HASH = 2,
    BT_TOO_LONG = 3,
    BT_UNKNOWN_ID = 4,
    BT_NOT_NEGOTIATED = 5,
    BT_WRONG_LENGTH = 6,
    BT_BAD_INDEX = 7,
    BT_SPARE_BITS = 8,
    BT_LATE = 9,
    BT_MISSING = 10,
    BT_BAD_BENCODE = 11,
    BT_UNSORTED = 12,
    BT_BAD_FIELD = 13,
    BT_BAD_BLOCK = 14,
    BT_STREAM_FULL = 15,
    BT_END_INSIDE = 16,
    BT_BAD_EXT_LENGTH = 17
};

/* The fields of an extended message. They are set if the item's id is BT_EXTENDED. */
typedef struct bt_extended {
    uint64_t total_size;     /* bytes of the whole metadata, of BT_METADATA_DATA */
    uint64_t metadata_size;  /* bytes of the metadata that an extended handshake announces, if has_metadata_size is on */
    uint64_t dict;           /* how many bytes of the body its dictionary has, which comes first; 0 of BT_EXT_RAW */
    uint32_t piece;
    uint8_t kind;
    uint8_t ut_metadata;     /* the id that an extended handshake announces, if has_ut_metadata is on; 0 switches it off */
    uint8_t has_metadata_size;
    uint8_t has_ut_metadata;
} bt_extended;

/* An item of a stream; or, after BT_REFUSED, start, size and reason. Fields that don't apply mean nothing. Of a handshake and of a
 * refusal they become 0. Of a message body becomes 0, and so do the fields of extended if it is an extended message; the others
 * are left unchanged. */
typedef struct bt_item {
    uint64_t start;     /* where the item starts on the stream */
    uint64_t size;      /* how many bytes it has; of a refusal the place, counted from start */
    uint64_t body;      /* how many of its last bytes are a bitfield, a block or a payload */
    uint64_t reserved;  /* of a handshake, as a big-endian number */
    uint32_t index, begin, length;
    uint16_t port;
    uint16_t id;
    uint8_t extended_id;
    uint8_t reason;     /* 1 to 17 */
    bt_extended extended;
} bt_item;

/* ---- a reader over bytes in one buffer ---- */

/* How far a stream is read. Set by bt_reader_init. */
typedef struct bt_reader {
    bt_own own;
    uint8_t opened;  /* the handshake was read */
    uint8_t fast;    /* both ends have the Fast Extension */
    uint8_t ext;     /* both ends have the Extension Protocol */
    uint8_t past;    /* a message came that counts in the order of messages */
    uint64_t start;  /* where the next item starts on the stream */
} bt_reader;

/* Makes a reader at the start of a stream. */
void bt_reader_init(bt_reader *reader, const bt_own *own);

/* Reads the item that the n bytes begin with. They follow what the reader has read.
 * BT_ITEM: item shows it, and the next call wants the bytes after its first item->size ones.
 * BT_MORE: these bytes and some more are wanted. A message never needs more than own.limit + 4 bytes, a handshake 68.
 * BT_REFUSED: item says where and why. The reader is as it was, and refuses these bytes again. */
uint32_t bt_reader_next(bt_reader *reader, const uint8_t *bytes, size_t n, bt_item *item);

/* Reads as bt_reader_next does if the stream ends after the n bytes: BT_END in place of BT_MORE if nothing is
 * unfinished, and BT_REFUSED for BT_END_INSIDE if something is. */
uint32_t bt_reader_finish(bt_reader *reader, const uint8_t *bytes, size_t n, bt_item *item);

/* How many items a batch has, and how many bytes they have together. */
typedef struct bt_batch {
    uint64_t count;
    uint64_t used;
} bt_batch;

/* Reads as many items as the array has room for, as calls of bt_reader_next in a row do, and quicker if messages are small.
 * The first batch->count of items are read, in order. The next call wants the bytes after the first batch->used ones.
 * BT_ITEM: the array is full; call again (with room 0 nothing is read, so give room for one at least).
 * BT_MORE: all whole items are read; the bytes that are left and some more are wanted.
 * BT_REFUSED: items[batch->count] says where and why. The reader stands after the items that were read.
 * What was in the array after that stays as it was. */
uint32_t bt_reader_batch(bt_reader *reader, const uint8_t *bytes, size_t n, bt_item *items, size_t room, bt_batch *batch);

/* ---- a feed: pieces of any size, over memory that the caller lends ---- */

/* A reader, and which bytes of the lent memory were pushed and not read: those from `from` up to `to`. */
typedef struct bt_feed {
    bt_reader reader;
    uint64_t from, to;
} bt_feed;

/* Lent memory of this many bytes is enough for every item. */
#define BT_ROOM(own) ((own)->limit < 64 ? (size_t)68 : (size_t)(own)->limit + 4)

/* Makes a feed at the start of a stream. Nothing is pushed. */
void bt_feed_init(bt_feed *feed, const bt_own *own);

/* Takes as many of the n bytes as there is room for, from the first on, and returns how many. It moves what is held to
 * the start of the buffer, so that the bytes of earlier items are gone. The buffer is the same in each call. */
size_t bt_feed_push(bt_feed *feed, uint8_t *buffer, size_t room, const uint8_t *bytes, size_t n);

/* Reads as bt_reader_next does, of the bytes pushed and not read. After BT_ITEM the item's bytes are the item->size ones
 * before buffer + feed->from. */
uint32_t bt_feed_next(bt_feed *feed, const uint8_t *buffer, size_t room, bt_item *item);

/* Reads as bt_reader_finish does, of the bytes pushed and not read. */
uint32_t bt_feed_finish(bt_feed *feed, const uint8_t *buffer, size_t room, bt_item *item);

/* ---- a whole stream in one call ---- */

/* The verdict on a stream. */
typedef struct bt_verdict {
    uint64_t message;  /* the number of the refused message, 0 for the handshake; or how many messages there are */
    uint64_t at;       /* the offset of the refusal on the stream; or how many bytes there are */
    uint8_t reason;    /* 0, or the reason */
} bt_verdict;

/* Judges the n bytes as a whole stream: BT_END if it is accepted, BT_REFUSED if it isn't. */
uint32_t bt_check(const bt_own *own, const uint8_t *bytes, size_t n, bt_verdict *verdict);

/* ---- a bencoded dictionary ---- */

/* Judges the bencoded dictionary (BEP 3) that the n bytes begin with, as metadata, a .torrent or the payload of an extended handshake
 * does. Its integers are from -2^63 to 2^63 - 1, its strings and keys have at most 1,048,576 bytes, and lists and dictionaries nest at
 * most 32 deep. If the n bytes are one dictionary and no more, strings and keys may be longer. Keys may come in any order.
 * BT_ITEM: there is one, and *size is how many bytes it has.
 * BT_MORE: the n bytes begin one, and end before it does. *size is n.
 * BT_REFUSED: no dictionary with such short strings goes on with the byte at *size. One may begin with those before it. */
uint32_t bt_check_dictionary(const uint8_t *bytes, size_t n, uint64_t *size);

/* ---- writing ---- */

/* What an end sends first. */
typedef struct bt_handshake {
    uint64_t reserved;  /* own reserved bits, as a big-endian number */
    uint8_t info_hash[20];
    uint8_t peer_id[20];
} bt_handshake;

/* Writes the 68 bytes of a handshake, and returns 68; or 0 if there is less room, and then nothing is written. */
size_t bt_write_handshake(const bt_handshake *handshake, uint8_t *out, size_t room);

/* A message is judged as the peer judges it, by what BOTH ends have agreed on and by the PEER's id of ut_metadata: by a
 * bt_reader that stands for the peer. This call makes it from own values and the reserved bits of the peer's handshake.
 * Call it once the peer's handshake was read. */
void bt_writer_init(bt_reader *peer, const bt_own *own, uint64_t reserved);

/* Takes the id of ut_metadata that the peer announced, if the item that was read from it is an extended handshake that tells
 * one. Call it for each extended message that is read. */
static inline void bt_writer_hear(bt_reader *peer, const bt_item *item) {
    if (item->id == BT_EXTENDED && item->extended.kind == BT_EXT_HANDSHAKE && item->extended.has_ut_metadata)
        peer->own.metadata_id = item->extended.ut_metadata;
}

/* What a message has besides its body takes at most this many bytes. */
#define BT_WRITE_ROOM 17

/* Writes a message into out, from its first byte on: by message->id, the numbers that this id has, and a body of n bytes
 * (a bitfield, a block or a payload; none for other ids).
 * BT_ITEM: it may be sent. written shows it, and its bytes are the first written->size ones of out.
 * BT_REFUSED: the peer would refuse it. written says where and why. out was written to, and isn't to be sent.
 * BT_UNWRITTEN: there is too little room, the id is above 256, or 2^32 bytes or more would follow the length. */
uint32_t bt_write(bt_reader *peer, const bt_item *message, const uint8_t *body, size_t n, uint8_t *out, size_t room,
                  bt_item *written);

/* Writes a metadata message under the id that the peer announced: kind is BT_METADATA_REQUEST, BT_METADATA_DATA (with the
 * total size, 1 to 2^63 - 1, and the block) or BT_METADATA_REJECT. Its dictionary takes at most 160 bytes. Returns as bt_write
 * does, and BT_UNWRITTEN also if the peer announced no id, for another kind, and for another total size. */
uint32_t bt_write_metadata(bt_reader *peer, uint8_t kind, uint32_t piece, uint64_t total_size, const uint8_t *block,
                           size_t n, uint8_t *out, size_t room, bt_item *written);

/* Writes the extended handshake: the own id of ut_metadata, if it isn't 0, and the size of the metadata that is served,
 * if has_size is on. Its dictionary takes at most 160 bytes. Returns as bt_write does. */
uint32_t bt_write_extended_handshake(bt_reader *peer, uint8_t metadata_id, uint8_t has_size, uint64_t size, uint8_t *out,
                                     size_t room, bt_item *written);

/* A message without a body, by the numbers that its id has. */
static inline uint32_t bt_write_plain(bt_reader *peer, uint16_t id, uint32_t index, uint32_t begin, uint32_t length,
                                      uint8_t *out, size_t room, bt_item *written) {
    bt_item message = BT_EMPTY;
    message.id = id;
    message.index = index;
    message.begin = begin;
    message.length = length;
    return bt_write(peer, &message, NULL, 0, out, room, written);
}

static inline uint32_t bt_write_keep_alive(bt_reader *peer, uint8_t *out, size_t room, bt_item *written) {
    return bt_write_plain(peer, BT_KEEP_ALIVE, 0, 0, 0, out, room, written);
}

static inline uint32_t bt_write_have(bt_reader *peer, uint32_t index, uint8_t *out, size_t room, bt_item *written) {
    return bt_write_plain(peer, BT_HAVE, index, 0, 0, out, room, written);
}

static inline uint32_t bt_write_request(bt_reader *peer, uint32_t index, uint32_t begin, uint32_t length, uint8_t *out,
                                        size_t room, bt_item *written) {
    return bt_write_plain(peer, BT_REQUEST, index, begin, length, out, room, written);
}

static inline uint32_t bt_write_bitfield(bt_reader *peer, const uint8_t *bits, size_t n, uint8_t *out, size_t room,
                                         bt_item *written) {
    bt_item message = BT_EMPTY;
    message.id = BT_BITFIELD;
    return bt_write(peer, &message, bits, n, out, room, written);
}

static inline uint32_t bt_write_piece(bt_reader *peer, uint32_t index, uint32_t begin, const uint8_t *block, size_t n,
                                      uint8_t *out, size_t room, bt_item *written) {
    bt_item message = BT_EMPTY;
    message.id = BT_PIECE;
    message.index = index;
    message.begin = begin;
    return bt_write(peer, &message, block, n, out, room, written);
}

static inline uint32_t bt_write_port(bt_reader *peer, uint16_t port, uint8_t *out, size_t room, bt_item *written) {
    bt_item message = BT_EMPTY;
    message.id = BT_PORT;
    message.port = port;
    return bt_write(peer, &message, NULL, 0, out, room, written);
}

static inline uint32_t bt_write_extended(bt_reader *peer, uint8_t extended_id, const uint8_t *payload, size_t n,
                                         uint8_t *out, size_t room, bt_item *written) {
    bt_item message = BT_EMPTY;
    message.id = BT_EXTENDED;
    message.extended_id = extended_id;
    return bt_write(peer, &message, payload, n, out, room, written);
}

/* ---- an end of a connection ---- */

/* An end handles what the peer sends: it exchanges the handshakes, announces itself (BEP 10), fetches or serves metadata
 * (BEP 9), and returns what the peer sent. It opens no socket, starts no thread and reads no clock: bytes that came from the
 * peer go into bt_end_next or bt_end_handle, and those that bt_end_outgoing copies go to the peer.
 *
 * It takes memory by rattle_alloc, rattle_realloc and rattle_dealloc. bt_heap.c has them, over malloc, realloc and free; a
 * program that defines all three itself gives it other memory. If memory is refused, the call says so. The WebAssembly module
 * has no ends.
 *
 * C holds an end in a bt_end. All zero it holds none, and so it begins: `bt_end end = BT_NO_END;`. After that only these
 * calls change it. It isn't copied to be used twice, and each call for it is made by the thread that made the end. Each
 * call may be made while it holds none, and then does nothing and returns 0, or BT_NO_END_HELD if it has a status. */
typedef struct bt_end {
    void *state;
    uint8_t held;
} bt_end;

#define BT_NO_END BT_EMPTY

/* What the calls for an end return, beside BT_ITEM, BT_MORE and BT_REFUSED. */
enum {
    BT_DONE = 0,
    BT_BUSY = 5,          /* 1 MiB or more waits to be sent: send some of it, and call again */
    BT_NO_MEMORY = 6,     /* memory was refused */
    BT_NO_END_HELD = 7,   /* the bt_end holds none */
    BT_BAD_LIMIT = 8,     /* own.limit isn't 32,768 to 1,048,576 */
    BT_NO_INFO_HASH = 9,  /* own.has_info_hash is off */
    BT_BAD_SIZE = 10,     /* the metadata to serve hasn't 1 to 67,108,864 bytes */
    BT_NOT_OPEN = 11,     /* the peer's handshake hasn't come, or what came is refused */
    BT_NO_PIECES = 12,    /* the message has a piece index or is a bitfield, and own.has_pieces is off */
    BT_ILLEGAL = 13,      /* the peer would refuse the message */
    BT_NOT_BEGUN = 14     /* nothing is fetched, the metadata is there, or it can't have this size */
};

/* Values of bt_end_config.announce: what the end announces of its pieces after the handshakes (BEP 6). */
enum { BT_SAY_NOTHING = 0, BT_SAY_ALL = 1, BT_SAY_NONE = 2 };

/* Values of bt_end_config.role: what the end does with metadata. */
enum { BT_WATCH = 0, BT_SERVE = 1, BT_FETCH = 2 };

/* What an end is made with. Another number than those named is 0. */
typedef struct bt_end_config {
    bt_own own;           /* own.reserved are its own bits; has_info_hash on, and a limit of 32,768 to 1,048,576 */
    uint64_t most;        /* the greatest size that is fetched when a peer announces it; 0 for 67,108,864, always the greatest */
    uint8_t peer_id[20];
    uint8_t announce;
    uint8_t window;       /* how many blocks it asks for at once, 1 to 8; any other number is 8 */
    uint8_t role;
} bt_end_config;

/* Makes an end on a new connection. Its handshake waits to be sent. With BT_SERVE the n bytes of metadata are copied, and
 * served; else they aren't read. An end that was held before is freed first. BT_DONE; or BT_BAD_LIMIT, BT_NO_INFO_HASH,
 * BT_BAD_SIZE or BT_NO_MEMORY, and then none is held. */
uint32_t bt_end_new(bt_end *end, const bt_end_config *config, const uint8_t *metadata, size_t n);

/* Frees it, so that none is held. */
void bt_end_free(bt_end *end);

/* Begins a new connection, with another peer or the same. What was fetched stays, and the blocks that are held do. BT_DONE;
 * or BT_NO_MEMORY, and nothing has changed. */
uint32_t bt_end_reset(bt_end *end);

/* Values of bt_event.kind: what an item made of the end. */
enum {
    BT_EVENT_OTHER = 0,       /* nothing that the item itself doesn't say */
    BT_EVENT_OPENED = 1,      /* peer_id; the peer's handshake: the connection is open */
    BT_EVENT_ANNOUNCED = 2,   /* id, size, begins; the peer's extended handshake */
    BT_EVENT_BLOCK = 3,       /* piece; a block that was asked for is held, and others lack */
    BT_EVENT_REJECTED = 4,    /* piece; a block that was asked for was rejected */
    BT_EVENT_FETCHED = 5,     /* the last block came, and the metadata is there */
    BT_EVENT_MISMATCHED = 6,  /* the last block came, and the blocks are those of other metadata: the fetch starts over */
    BT_EVENT_SERVED = 7,      /* piece; the peer asked for this block, which waits to be sent */
    BT_EVENT_DECLINED = 8,    /* piece; the peer asked for this block, and a reject waits to be sent */
    BT_EVENT_REQUESTED = 9,   /* the peer asked for a block of a piece, which the item shows */
    BT_EVENT_PIECE = 10       /* a block of a piece came, which the item shows */
};

/* What an item made of the end. What its kind doesn't have means nothing. */
typedef struct bt_event {
    uint64_t size;        /* the size of metadata that the peer announced, if has_size is on */
    uint32_t kind;
    uint32_t piece;       /* the number of a block of metadata */
    uint8_t id;           /* the id under which the peer wants metadata messages from now on, if has_id is on */
    uint8_t has_id;
    uint8_t has_size;
    uint8_t begins;       /* on: metadata of this size is fetched from now on */
    uint8_t peer_id[20];  /* the peer's id */
} bt_event;

/* What bt_end_next returns. */
typedef struct bt_heard {
    uint64_t used;       /* how many of the bytes the end took. Set after each status */
    bt_item item;        /* after BT_ITEM: what the peer said */
    bt_event event;      /* after BT_ITEM: what that made of the end */
    bt_verdict verdict;  /* after BT_REFUSED: which message is refused, where, and for which reason */
} bt_heard;

/* Takes as many of the n bytes as the item that the end awaits wants, and handles that item once it is whole. The next call
 * wants the bytes after the first heard->used ones. What a status doesn't set stays as it was.
 * BT_ITEM: heard has the item and its event. The item's last item.body bytes (a bitfield, a block, a payload) are copied to
 * the start of out, if there is room for all of them; else nothing is written to out. own.limit bytes are always enough. Its
 * extended_id is the message's id of BT_EXT_RAW, and 0 of every other extended message. Of a handshake event.peer_id has what
 * isn't known before.
 * BT_MORE: all bytes were taken, and more are needed.
 * BT_REFUSED: heard->verdict says which message, where and why, now and in each later call until the end is reset.
 * BT_BUSY, BT_NO_MEMORY: the end holds an item that isn't handled. Call again with the bytes that are left, which may be
 * none: after BT_BUSY once less waits to be sent. */
uint32_t bt_end_next(bt_end *end, const uint8_t *bytes, size_t n, bt_heard *heard, uint8_t *out, size_t room);

/* Takes the bytes and handles all items in them, as calls of bt_end_next do, but returns none of the items. used says how
 * many bytes it took. BT_DONE: all of them. BT_REFUSED, BT_BUSY, BT_NO_MEMORY: as of bt_end_next; only BT_REFUSED sets
 * the verdict. */
uint32_t bt_end_handle(bt_end *end, const uint8_t *bytes, size_t n, uint64_t *used, bt_verdict *verdict);

/* How many bytes wait to be sent. */
size_t bt_end_waiting(bt_end *end);

/* Copies the first bytes that wait into out, as many as there is room for, and returns how many. They still wait. */
size_t bt_end_outgoing(bt_end *end, uint8_t *out, size_t room);

/* Drops the first n bytes that wait, since they were sent; or all, if they are fewer. */
void bt_end_sent(bt_end *end, size_t n);

/* Returns how many bytes the metadata has that was fetched, and copies it into out, if there is room for all of it. Its SHA-1 is
 * the info hash. Returns 0, and writes nothing, while it isn't there. */
size_t bt_end_metadata(bt_end *end, uint8_t *out, size_t room);

/* How far a fetch has come. */
typedef struct bt_progress {
    uint64_t size;    /* of the metadata, in bytes */
    uint64_t blocks;  /* how many blocks it has */
    uint64_t held;    /* how many of them are held */
} bt_progress;

/* Stores how far the fetch has come, and returns 1. Returns 0, and progress stays as it was, if no size is known, or nothing
 * is fetched. */
uint32_t bt_end_progress(bt_end *end, bt_progress *progress);

/* Returns 1 if the end fetches, and by what is known no block can come any more on this connection, whatever the peer sends:
 * own.metadata_id is 0; or the peer's handshake came, and not both ends have the Extension Protocol; or each block is held or
 * was rejected. Else 0. BT_REFUSED changes nothing here: that status itself says that the connection is over. */
uint32_t bt_end_is_hopeless(bt_end *end);

/* Returns how often, on this connection, the blocks that came were those of other metadata. */
uint64_t bt_end_mismatches(bt_end *end);

/* Begins a fetch of this size anew, whatever config.most is: for a peer that announced a size which was false. All blocks that
 * are held are dropped, and each is asked for again, also if the size is the present one (bt_end_progress has that) and if its
 * request is outstanding. BT_DONE; else nothing has changed: BT_NOT_BEGUN, BT_BUSY, BT_NO_MEMORY. */
uint32_t bt_end_begin(bt_end *end, uint64_t size);

/* Asks for at most this many blocks at once from now on: 1 to 8; any other number is 8. What is asked stays asked. */
void bt_end_set_window(bt_end *end, uint8_t window);

/* Queues a message for the peer: by message->id, the numbers that this id has, and a body of n bytes (a bitfield or a block; none
 * for other ids), which is copied. BT_EXTENDED with extended.kind BT_DONTHAVE announces that a piece isn't there any more; an
 * end sends other extended messages itself.
 * BT_DONE: it waits to be sent. Else nothing has changed: BT_NOT_OPEN, BT_BUSY, BT_NO_PIECES, BT_ILLEGAL, BT_NO_MEMORY;
 * BT_UNWRITTEN for BT_HANDSHAKE, an id without a meaning, or an extended message that an end sends itself. */
uint32_t bt_end_say(bt_end *end, const bt_item *message, const uint8_t *body, size_t n);

/* ---- names ---- */

/* A name and the zero after it take at most this many bytes. */
#define BT_NAME_ROOM 24

/* Write the name of a reason, as "WrongLength", or of an item, as "have" or "metadata-request", and a zero after it, if
 * there is room for both; else nothing. They return the length of the name; bt_reason_name returns 0 for a number that no
 * reason has. */
size_t bt_reason_name(uint32_t reason, char *text, size_t room);
size_t bt_item_name(const bt_item *item, char *text, size_t room);

BT_ASSERT(sizeof(size_t) == 8, "the library is built for 64 bits");
BT_ASSERT(sizeof(bt_own) == 48, "bt_own");
BT_ASSERT(sizeof(bt_extended) == 32, "bt_extended");
BT_ASSERT(sizeof(bt_item) == 88, "bt_item");
BT_ASSERT(sizeof(bt_reader) == 64, "bt_reader");
BT_ASSERT(sizeof(bt_batch) == 16, "bt_batch");
BT_ASSERT(sizeof(bt_feed) == 80, "bt_feed");
BT_ASSERT(sizeof(bt_verdict) == 24, "bt_verdict");
BT_ASSERT(sizeof(bt_handshake) == 48, "bt_handshake");
BT_ASSERT(sizeof(bt_end) == 16, "bt_end");
BT_ASSERT(sizeof(bt_end_config) == 80, "bt_end_config");
BT_ASSERT(sizeof(bt_event) == 40, "bt_event");
BT_ASSERT(sizeof(bt_heard) == 160, "bt_heard");
BT_ASSERT(sizeof(bt_progress) == 24, "bt_progress");

#ifdef __cplusplus
}
#endif
#endif
