/* bt_node.c: the library as a Node-API addon, over libbt.a. addon.mjs loads it; end.mjs makes a class of its ends.
 *
 * Its calls take and return numbers, Uint8Arrays and ends. Whatever they are given, they throw, or do what bt.h says: an object that is no
 * end, bytes that are none, a number that is outside. No address that came from JavaScript is kept after a call.
 */
#include "bt.h"
#include "napi.h"

/* An end, and what JavaScript's collector was told of its memory. */
typedef struct {
    bt_end end;
    size_t fixed;
    int64_t told;
} slot;

typedef struct {
    uint8_t *at;
    size_t n;
} bytes;

static const napi_type_tag IS_END = {0x6254506565725769, 0x7265456e64303031};
/* What a new end takes besides its feed's buffer. */
enum { SMALL = 16384 };

/* What readerBatch writes, in words of 32 bits: a head, then some words for each item, then the fields of each extended message. */
enum { HEAD_WORDS = 8, ITEM_WORDS = 4, EXTENDED_WORDS = sizeof(bt_extended) / 4, ROW_WORDS = ITEM_WORDS + EXTENDED_WORDS };
/* Flags of an item's last word, above its id and the kind of an extended message: which numbers it has. */
enum { KIND_SHIFT = 16, HAS_INDEX = 1 << 24, HAS_BEGIN = 1 << 25, HAS_LENGTH = 1 << 26 };
/* How many items are read at a time, into memory of the stack. */
enum { AT_ONCE = 128 };

/* Throws, if nothing is thrown already. */
static napi_value thrown(napi_env env, const char *why) {
    _Bool pending = 0;
    if (napi_is_exception_pending(env, &pending) == napi_ok && !pending)
        (void)napi_throw_type_error(env, NULL, why);
    return NULL;
}

static napi_value number(napi_env env, double value) {
    napi_value made;
    return napi_create_double(env, value, &made) == napi_ok ? made : thrown(env, "no number");
}

/* The arguments of a call: `count` of them, undefined for what is left out. Returns 0 if it has thrown. */
static int arguments(napi_env env, napi_callback_info info, size_t count, napi_value *values) {
    if (napi_get_cb_info(env, info, &count, values, NULL, NULL) == napi_ok)
        return 1;
    thrown(env, "no arguments");
    return 0;
}

/* The memory of a typed array that no other thread shares, and how many elements it has. Returns 0 if it is none. */
static int array_of(napi_env env, napi_value value, napi_typedarray_type type, bytes *found) {
    _Bool is = 0;
    napi_typedarray_type it;
    napi_value buffer;
    void *at = NULL;
    if (napi_is_typedarray(env, value, &is) != napi_ok || !is
        || napi_get_typedarray_info(env, value, &it, &found->n, &at, &buffer, NULL) != napi_ok || it != type
        || napi_is_arraybuffer(env, buffer, &is) != napi_ok || !is)
        return 0;
    found->at = at;
    return 1;
}

/* The bytes of a Uint8Array that no other thread shares; of `size`, if that isn't 0. Returns 0 if it has thrown. */
static int bytes_of(napi_env env, napi_value value, size_t size, bytes *found) {
    if (array_of(env, value, napi_uint8_array, found) && (size == 0 || found->n == size))
        return 1;
    thrown(env, size ? "no Uint8Array of the struct's size" : "no Uint8Array");
    return 0;
}

/* The words of a Uint32Array that no other thread shares: `count` at least. Returns 0 if it has thrown. */
static int words_of(napi_env env, napi_value value, size_t count, bytes *found) {
    if (array_of(env, value, napi_uint32_array, found) && found->n >= count)
        return 1;
    thrown(env, "no Uint32Array with room");
    return 0;
}

/* A number from 0 to `most`. Returns 0 if it has thrown. */
static int number_of(napi_env env, napi_value value, int64_t most, int64_t *found) {
    if (napi_get_value_int64(env, value, found) == napi_ok && 0 <= *found && *found <= most)
        return 1;
    thrown(env, "a number is outside");
    return 0;
}

/* A BigInt of 64 bits. Returns 0 if it has thrown. */
static int bigint_of(napi_env env, napi_value value, uint64_t *found) {
    _Bool lossless = 0;
    if (napi_get_value_bigint_uint64(env, value, found, &lossless) == napi_ok && lossless)
        return 1;
    thrown(env, "no BigInt of 64 bits");
    return 0;
}

/* The end of an object that end_new made; else it has thrown, and returns NULL. */
static slot *slot_of(napi_env env, napi_value value) {
    _Bool is = 0;
    void *found = NULL;
    if (napi_check_object_type_tag(env, value, &IS_END, &is) == napi_ok && is && napi_unwrap(env, value, &found) == napi_ok)
        return found;
    thrown(env, "no end");
    return NULL;
}

/* Tells the collector how much memory the end takes by now. Returns 0 if it has thrown. */
static int told(napi_env env, slot *of) {
    bt_progress progress = {0, 0, 0};
    int64_t all, now = 0;
    if (of->end.held) {
        (void)bt_end_progress(&of->end, &progress);
        now = (int64_t)(of->fixed + bt_end_waiting(&of->end) + progress.size);
    }
    if (now != of->told && napi_adjust_external_memory(env, now - of->told, &all) != napi_ok) {
        thrown(env, "the memory isn't told");
        return 0;
    }
    of->told = now;
    return 1;
}

static void collected(napi_env env, void *data, void *hint) {
    slot *of = data;
    int64_t all;
    (void)hint;
    bt_end_free(&of->end);
    /* (nothing can be done here if it fails) */
    (void)napi_adjust_external_memory(env, -of->told, &all);
    free(of);
}

/* endNew(config: bt_end_config, metadata): the end, or the status. */
static napi_value end_new(napi_env env, napi_callback_info info) {
    napi_value given[2], made;
    bytes config_bytes, metadata;
    bt_end_config config;
    if (!arguments(env, info, 2, given) || !bytes_of(env, given[0], sizeof config, &config_bytes) || !bytes_of(env, given[1], 0, &metadata))
        return NULL;
    memcpy(&config, config_bytes.at, sizeof config);
    slot *of = calloc(1, sizeof *of);
    if (!of)
        return number(env, BT_NO_MEMORY);
    uint32_t status = bt_end_new(&of->end, &config, metadata.at, metadata.n);
    if (status != BT_DONE) {
        free(of);
        return number(env, status);
    }
    of->fixed = SMALL + config.own.limit + (config.role == BT_SERVE ? metadata.n : 0);
    if (napi_create_object(env, &made) != napi_ok || napi_wrap(env, made, of, collected, NULL, NULL) != napi_ok) {
        bt_end_free(&of->end);
        free(of);
        return thrown(env, "no object");
    }
    /* (from here on the collector frees it) */
    if (napi_type_tag_object(env, made, &IS_END) != napi_ok)
        return thrown(env, "no tag");
    return told(env, of) ? made : NULL;
}

/* endNext(end, bytes, at, heard: bt_heard): the status. The bytes from `at` on are given to the end. */
static napi_value end_next(napi_env env, napi_callback_info info) {
    napi_value given[4];
    bytes from, out;
    int64_t at;
    bt_heard heard = {0};
    if (!arguments(env, info, 4, given))
        return NULL;
    slot *of = slot_of(env, given[0]);
    if (!of || !bytes_of(env, given[1], 0, &from) || !number_of(env, given[2], (int64_t)from.n, &at)
        || !bytes_of(env, given[3], sizeof heard, &out))
        return NULL;
    uint32_t status = bt_end_next(&of->end, from.at ? from.at + at : NULL, from.n - (size_t)at, &heard, NULL, 0);
    memcpy(out.at, &heard, sizeof heard);
    return told(env, of) ? number(env, status) : NULL;
}

/* What a call of bt.h copies, which says how many bytes it has: a new Uint8Array. */
static napi_value copied(napi_env env, bt_end *end, size_t n, size_t (*copy)(bt_end *, uint8_t *, size_t)) {
    napi_value buffer, made;
    void *at = NULL;
    if (napi_create_arraybuffer(env, n, &at, &buffer) != napi_ok || (n && !at))
        return thrown(env, "no memory");
    if (n)
        (void)copy(end, at, n);
    return napi_create_typedarray(env, napi_uint8_array, n, buffer, 0, &made) == napi_ok ? made : thrown(env, "no memory");
}

static slot *only(napi_env env, napi_callback_info info) {
    napi_value given[1];
    return arguments(env, info, 1, given) ? slot_of(env, given[0]) : NULL;
}

/* endTake(end): the bytes that wait to be sent, which then wait no more. */
static napi_value end_take(napi_env env, napi_callback_info info) {
    slot *of = only(env, info);
    if (!of)
        return NULL;
    size_t n = bt_end_waiting(&of->end);
    napi_value made = copied(env, &of->end, n, bt_end_outgoing);
    if (!made)
        return NULL;
    bt_end_sent(&of->end, n);
    return told(env, of) ? made : NULL;
}

/* endMetadata(end): no bytes while it isn't there. */
static napi_value end_metadata(napi_env env, napi_callback_info info) {
    slot *of = only(env, info);
    return of ? copied(env, &of->end, bt_end_metadata(&of->end, NULL, 0), bt_end_metadata) : NULL;
}

static napi_value end_is_hopeless(napi_env env, napi_callback_info info) {
    slot *of = only(env, info);
    return of ? number(env, bt_end_is_hopeless(&of->end)) : NULL;
}

static napi_value end_mismatches(napi_env env, napi_callback_info info) {
    slot *of = only(env, info);
    return of ? number(env, (double)bt_end_mismatches(&of->end)) : NULL;
}

/* endSetWindow(end, window) */
static napi_value end_set_window(napi_env env, napi_callback_info info) {
    napi_value given[2];
    int64_t window;
    slot *of = arguments(env, info, 2, given) ? slot_of(env, given[0]) : NULL;
    if (of && number_of(env, given[1], 255, &window))
        bt_end_set_window(&of->end, (uint8_t)window);
    return NULL;
}

/* endFree(end): later calls find that it holds none. */
static napi_value end_free(napi_env env, napi_callback_info info) {
    slot *of = only(env, info);
    if (of) {
        bt_end_free(&of->end);
        (void)told(env, of);
    }
    return NULL;
}

/* readerInit(reader: bt_reader, own: bt_own) */
static napi_value reader_init(napi_env env, napi_callback_info info) {
    napi_value given[2];
    bytes out, own_bytes;
    bt_own own;
    bt_reader reader;
    if (!arguments(env, info, 2, given) || !bytes_of(env, given[0], sizeof reader, &out) || !bytes_of(env, given[1], sizeof own, &own_bytes))
        return NULL;
    memcpy(&own, own_bytes.at, sizeof own);
    bt_reader_init(&reader, &own);
    memcpy(out.at, &reader, sizeof reader);
    return NULL;
}

/* What an item is, in a word. */
static uint32_t kind_word(const bt_item *item) {
    uint32_t id = item->id;
    switch (id) {
    case BT_HAVE:
    case BT_SUGGEST:
    case BT_ALLOWED_FAST:
        return id | HAS_INDEX;
    case BT_PIECE:
        return id | HAS_INDEX | HAS_BEGIN;
    case BT_REQUEST:
    case BT_CANCEL:
    case BT_REJECT:
        return id | HAS_INDEX | HAS_BEGIN | HAS_LENGTH;
    case BT_EXTENDED:
        return id | (uint32_t)item->extended.kind << KIND_SHIFT;
    default:
        return id;
    }
}

/* Where readerBatch writes: rows of ITEM_WORDS, and rows of EXTENDED_WORDS. */
typedef struct {
    uint8_t *items, *extended;
    uint32_t count, extended_count;
} rows;

/* Writes an item's words: where it starts in the bytes, its size, its index or the row of its extended fields, and what it is. */
static void put_row(rows *to, const bt_item *item, uint64_t base) {
    uint32_t words[ITEM_WORDS] = {(uint32_t)(item->start - base), (uint32_t)item->size, item->index, kind_word(item)};
    if (item->id == BT_EXTENDED) {
        words[2] = to->extended_count;
        memcpy(to->extended + sizeof item->extended * to->extended_count++, &item->extended, sizeof item->extended);
    }
    memcpy(to->items + sizeof words * to->count++, words, sizeof words);
}

/* Reads as many items as there is room for. What is used is added up. */
static uint32_t read_rows(bt_reader *reader, const uint8_t *at, size_t n, size_t room, rows *to, bt_batch *all, bt_item *refused) {
    bt_item items[AT_ONCE + 1];
    bt_batch batch = {0, 0};
    uint64_t base = reader->start;
    uint32_t status = BT_ITEM;
    while (status == BT_ITEM && all->count < room) {
        size_t wanted = room - all->count < AT_ONCE ? room - all->count : AT_ONCE;
        status = bt_reader_batch(reader, at + all->used, n - all->used, items, wanted, &batch);
        for (size_t k = 0; k < batch.count; k++)
            put_row(to, &items[k], base);
        all->count += batch.count;
        all->used += batch.used;
        if (status == BT_REFUSED)
            *refused = items[batch.count];
    }
    return status;
}

/* readerBatch(reader: bt_reader, bytes, at, ended, out: Uint32Array): the status of bt_reader_batch for the bytes from `at` on, of which
 * it takes less than 4 GiB. If nothing is whole and `ended` is 1, it is that of bt_reader_finish. The head of `out` has how many items there
 * are, how many extended messages, how many bytes they have (two words), and the place (two words) and the reason of a refusal. */
static napi_value reader_batch(napi_env env, napi_callback_info info) {
    napi_value given[5];
    bytes state, from, out;
    int64_t at, ended;
    bt_reader reader;
    bt_batch all = {0, 0};
    bt_item refused = {0};
    if (!arguments(env, info, 5, given) || !bytes_of(env, given[0], sizeof reader, &state) || !bytes_of(env, given[1], 0, &from)
        || !number_of(env, given[2], (int64_t)from.n, &at) || !number_of(env, given[3], 1, &ended)
        || !words_of(env, given[4], HEAD_WORDS + ROW_WORDS, &out))
        return NULL;
    memcpy(&reader, state.at, sizeof reader);
    size_t room = (out.n - HEAD_WORDS) / ROW_WORDS, rest = from.n - (size_t)at, n = rest < UINT32_MAX ? rest : UINT32_MAX;
    const uint8_t *begin = from.at ? from.at + at : NULL;
    rows to = {out.at + 4 * HEAD_WORDS, out.at + 4 * (HEAD_WORDS + ITEM_WORDS * room), 0, 0};
    uint32_t status = read_rows(&reader, begin, n, room, &to, &all, &refused);
    if (status == BT_MORE && all.count == 0 && ended && n == rest)
        status = bt_reader_finish(&reader, begin, n, &refused);
    uint64_t place = refused.start + refused.size;
    uint32_t head[HEAD_WORDS] = {to.count, to.extended_count, (uint32_t)all.used, (uint32_t)(all.used >> 32), (uint32_t)place,
                                 (uint32_t)(place >> 32), refused.reason, 0};
    memcpy(out.at, head, sizeof head);
    memcpy(state.at, &reader, sizeof reader);
    return number(env, status);
}

/* check(own: bt_own, bytes, verdict: bt_verdict): the status */
static napi_value check(napi_env env, napi_callback_info info) {
    napi_value given[3];
    bytes own_bytes, from, out;
    bt_own own;
    bt_verdict verdict = {0};
    if (!arguments(env, info, 3, given) || !bytes_of(env, given[0], sizeof own, &own_bytes) || !bytes_of(env, given[1], 0, &from)
        || !bytes_of(env, given[2], sizeof verdict, &out))
        return NULL;
    memcpy(&own, own_bytes.at, sizeof own);
    uint32_t status = bt_check(&own, from.at, from.n, &verdict);
    memcpy(out.at, &verdict, sizeof verdict);
    return number(env, status);
}

/* writeHandshake(handshake: bt_handshake, out): the 68 bytes */
static napi_value write_handshake(napi_env env, napi_callback_info info) {
    napi_value given[2];
    bytes from, out;
    bt_handshake handshake;
    uint8_t text[68];
    if (!arguments(env, info, 2, given) || !bytes_of(env, given[0], sizeof handshake, &from) || !bytes_of(env, given[1], sizeof text, &out))
        return NULL;
    memcpy(&handshake, from.at, sizeof handshake);
    size_t size = bt_write_handshake(&handshake, text, sizeof text);
    memcpy(out.at, text, sizeof text);
    return number(env, (double)size);
}

/* writerInit(writer: bt_reader, own: bt_own, reserved: BigInt) */
static napi_value writer_init(napi_env env, napi_callback_info info) {
    napi_value given[3];
    bytes out, own_bytes;
    bt_own own;
    bt_reader writer;
    uint64_t reserved;
    if (!arguments(env, info, 3, given) || !bytes_of(env, given[0], sizeof writer, &out) || !bytes_of(env, given[1], sizeof own, &own_bytes)
        || !bigint_of(env, given[2], &reserved))
        return NULL;
    memcpy(&own, own_bytes.at, sizeof own);
    bt_writer_init(&writer, &own, reserved);
    memcpy(out.at, &writer, sizeof writer);
    return NULL;
}

/* What a call that writes works on: the peer, and where it writes to. */
typedef struct {
    bytes state, out, shown;
    bt_reader writer;
    bt_item written;
} writing;

/* Takes writer, out and written of a call that writes. Returns 0 if it has thrown. */
static int begin_writing(napi_env env, const napi_value given[3], writing *of) {
    memset(&of->written, 0, sizeof of->written);
    if (!bytes_of(env, given[0], sizeof of->writer, &of->state) || !bytes_of(env, given[1], 0, &of->out)
        || !bytes_of(env, given[2], sizeof of->written, &of->shown))
        return 0;
    memcpy(&of->writer, of->state.at, sizeof of->writer);
    return 1;
}

static napi_value end_writing(napi_env env, writing *of, uint32_t status) {
    memcpy(of->state.at, &of->writer, sizeof of->writer);
    memcpy(of->shown.at, &of->written, sizeof of->written);
    return number(env, status);
}

/* The bytes of a body, of which none is written to. Returns 0 if it has thrown. */
static int body_of(napi_env env, napi_value value, const writing *of, bytes *body) {
    if (!bytes_of(env, value, 0, body))
        return 0;
    uintptr_t from = (uintptr_t)body->at, to = (uintptr_t)of->out.at;
    if (body->n == 0 || of->out.n == 0 || from + body->n <= to || to + of->out.n <= from)
        return 1;
    thrown(env, "the body is where it writes");
    return 0;
}

/* write(writer: bt_reader, out, written: bt_item, message: bt_item, body): the status */
static napi_value write_message(napi_env env, napi_callback_info info) {
    napi_value given[5];
    writing of;
    bytes from, body;
    bt_item message;
    if (!arguments(env, info, 5, given) || !begin_writing(env, given, &of) || !bytes_of(env, given[3], sizeof message, &from)
        || !body_of(env, given[4], &of, &body))
        return NULL;
    memcpy(&message, from.at, sizeof message);
    return end_writing(env, &of, bt_write(&of.writer, &message, body.at, body.n, of.out.at, of.out.n, &of.written));
}

/* writeMetadata(writer: bt_reader, out, written: bt_item, kind, piece, totalSize: BigInt, block): the status */
static napi_value write_metadata(napi_env env, napi_callback_info info) {
    napi_value given[7];
    writing of;
    bytes block;
    int64_t kind, piece;
    uint64_t size;
    if (!arguments(env, info, 7, given) || !begin_writing(env, given, &of) || !number_of(env, given[3], 255, &kind)
        || !number_of(env, given[4], UINT32_MAX, &piece) || !bigint_of(env, given[5], &size) || !body_of(env, given[6], &of, &block))
        return NULL;
    return end_writing(env, &of, bt_write_metadata(&of.writer, (uint8_t)kind, (uint32_t)piece, size, block.at, block.n, of.out.at, of.out.n,
                                                   &of.written));
}

/* writeExtendedHandshake(writer: bt_reader, out, written: bt_item, metadataId, hasSize, size: BigInt): the status */
static napi_value write_extended_handshake(napi_env env, napi_callback_info info) {
    napi_value given[6];
    writing of;
    int64_t id, has_size;
    uint64_t size;
    if (!arguments(env, info, 6, given) || !begin_writing(env, given, &of) || !number_of(env, given[3], 255, &id)
        || !number_of(env, given[4], 1, &has_size) || !bigint_of(env, given[5], &size))
        return NULL;
    return end_writing(env, &of, bt_write_extended_handshake(&of.writer, (uint8_t)id, (uint8_t)has_size, size, of.out.at, of.out.n, &of.written));
}

/* The length of a name is less than BT_NAME_ROOM. */
static napi_value text(napi_env env, const char *name, size_t n) {
    napi_value made;
    return napi_create_string_utf8(env, name, n, &made) == napi_ok ? made : thrown(env, "no memory");
}

/* itemName(item: bt_item) */
static napi_value item_name(napi_env env, napi_callback_info info) {
    napi_value given[1];
    bytes from;
    bt_item item;
    char name[BT_NAME_ROOM];
    if (!arguments(env, info, 1, given) || !bytes_of(env, given[0], sizeof item, &from))
        return NULL;
    memcpy(&item, from.at, sizeof item);
    return text(env, name, bt_item_name(&item, name, sizeof name));
}

/* reasonName(reason): empty for a number that no reason has. */
static napi_value reason_name(napi_env env, napi_callback_info info) {
    napi_value given[1];
    int64_t reason;
    char name[BT_NAME_ROOM];
    if (!arguments(env, info, 1, given) || !number_of(env, given[0], 0xffffffff, &reason))
        return NULL;
    return text(env, name, bt_reason_name((uint32_t)reason, name, sizeof name));
}

static napi_value abi(napi_env env, napi_callback_info info) {
    (void)info;
    return number(env, bt_abi());
}

int32_t node_api_module_get_api_version_v1(void);
napi_value napi_register_module_v1(napi_env env, napi_value exports);

int32_t node_api_module_get_api_version_v1(void) {
    return 8;
}

napi_value napi_register_module_v1(napi_env env, napi_value exports) {
    static const struct {
        const char *name;
        napi_callback call;
    } calls[] = {{"abi", abi}, {"endNew", end_new}, {"endNext", end_next}, {"endTake", end_take}, {"endMetadata", end_metadata},
                 {"endIsHopeless", end_is_hopeless}, {"endMismatches", end_mismatches}, {"endSetWindow", end_set_window},
                 {"endFree", end_free}, {"itemName", item_name}, {"reasonName", reason_name}, {"readerInit", reader_init},
                 {"readerBatch", reader_batch}, {"check", check}, {"writeHandshake", write_handshake}, {"writerInit", writer_init},
                 {"write", write_message}, {"writeMetadata", write_metadata}, {"writeExtendedHandshake", write_extended_handshake}};
    for (size_t k = 0; k < sizeof calls / sizeof *calls; k++) {
        napi_value made;
        if (napi_create_function(env, calls[k].name, (size_t)-1, calls[k].call, NULL, &made) != napi_ok
            || napi_set_named_property(env, exports, calls[k].name, made) != napi_ok)
            return thrown(env, "no function");
    }
    return exports;
}
