/* words.c: what bt.h says of the fields of an item, and of an end that begins anew or can't go on.
 *
 * usage: words
 */
#include "bt.h"

#include <stdbool.h>
#include <stdio.h>
#include <stdlib.h>
#include <string.h>

#define CHECK(holds) do { if (!(holds)) { printf("%s:%d: not so: %s\n", __FILE__, __LINE__, #holds); exit(1); } } while (0)

/* The numbers of an item that only some messages have. */
static bool has_only(const bt_item *item, uint64_t reserved, uint32_t number, uint16_t port, uint8_t byte) {
    return item->reserved == reserved && item->index == number && item->begin == number && item->length == number && item->port == port
        && item->extended_id == byte && item->extended.kind == byte && item->extended.piece == number;
}

/* After a handshake and after a refusal the other fields are 0; of a message they are left unchanged. */
static void fields(void) {
    const uint8_t have[] = {0, 0, 0, 5, 4, 1, 2, 3, 4}, choke[] = {0, 0, 0, 2, 0, 0};
    bt_handshake hello = {0x123456789a, {0}, {0}};
    bt_own own = {0};
    own.limit = 262144;
    bt_reader reader;
    bt_item item;
    uint8_t bytes[68];
    CHECK(bt_write_handshake(&hello, bytes, sizeof bytes) == 68);
    bt_reader_init(&reader, &own);

    memset(&item, 0xee, sizeof item);
    CHECK(bt_reader_next(&reader, bytes, sizeof bytes, &item) == BT_ITEM && item.start == 0 && item.size == 68 && item.id == BT_HANDSHAKE);
    CHECK(has_only(&item, 0x123456789a, 0, 0, 0) && item.body == 0 && item.reason == 0);

    memset(&item, 0xee, sizeof item);
    CHECK(bt_reader_next(&reader, have, sizeof have, &item) == BT_ITEM && item.start == 68 && item.size == 9 && item.id == BT_HAVE);
    CHECK(item.index == 0x01020304 && item.body == 0);
    item.index = 0xeeeeeeee;
    CHECK(has_only(&item, 0xeeeeeeeeeeeeeeee, 0xeeeeeeee, 0xeeee, 0xee) && item.reason == 0xee);

    memset(&item, 0xee, sizeof item);
    CHECK(bt_reader_next(&reader, choke, sizeof choke, &item) == BT_REFUSED && item.start == 77 && item.reason == BT_WRONG_LENGTH);
    CHECK(has_only(&item, 0, 0, 0, 0) && item.body == 0 && item.id == 0);

    memset(&item, 0xee, sizeof item);
    CHECK(bt_reader_finish(&reader, choke, 3, &item) == BT_REFUSED && item.start == 77 && item.size == 3 && item.reason == BT_END_INSIDE);
    CHECK(has_only(&item, 0, 0, 0, 0) && item.body == 0 && item.id == 0);
}

/* Of an extended message each field of `extended` is set, of another message none; the reader knows each id. */
static void extended_fields(void) {
    const uint8_t hello[] = {0, 0, 0, 18, 20, 0, 'd', '1', ':', 'm', 'd', '1', ':', 'a', 'i', '9', 'e', 'e', 'e', 0, 0, 0},
        raw[] = {0, 0, 0, 3, 20, 9, 0xaa}, gone[] = {0, 0, 0, 6, 20, 5, 1, 2, 3, 4};
    bt_own own = {0};
    own.reserved = BT_EXTENSIONS;
    own.limit = 262144;
    own.donthave_id = 5;
    bt_reader reader;
    bt_item item;
    uint8_t bytes[68];
    bt_handshake handshake = {BT_EXTENSIONS, {0}, {0}};
    bt_reader_init(&reader, &own);
    CHECK(bt_write_handshake(&handshake, bytes, sizeof bytes) == 68 && bt_reader_next(&reader, bytes, 68, &item) == BT_ITEM);

    memset(&item, 0xee, sizeof item);
    CHECK(bt_reader_next(&reader, hello, 19 + 3, &item) == BT_ITEM && item.extended_id == 0 && item.body == 16);
    CHECK(item.extended.kind == BT_EXT_HANDSHAKE && item.extended.dict == 13 && item.index == 0xeeeeeeee);
    CHECK(item.extended.piece == 0 && item.extended.total_size == 0 && item.extended.metadata_size == 0 && item.extended.ut_metadata == 0);

    memset(&item, 0xee, sizeof item);
    CHECK(bt_reader_next(&reader, raw, sizeof raw, &item) == BT_ITEM && item.extended_id == 9 && item.body == 1);
    CHECK(item.extended.kind == BT_EXT_RAW && item.extended.dict == 0 && item.extended.piece == 0 && item.extended.has_ut_metadata == 0);

    memset(&item, 0xee, sizeof item);
    CHECK(bt_reader_next(&reader, gone, sizeof gone, &item) == BT_ITEM && item.extended_id == 5 && item.body == 4);
    CHECK(item.extended.kind == BT_DONTHAVE && item.extended.piece == 0x01020304 && item.extended.total_size == 0 && item.port == 0xeeee);
}

/* ---- ends ---- */

#define SIZE 40000 /* three blocks */

static uint8_t bytes[1 << 16];

static void make(bt_end *end, uint64_t reserved, uint8_t metadata_id, uint64_t most) {
    bt_end_config config = {0};
    config.own.reserved = reserved;
    config.own.limit = 32768;
    config.own.has_info_hash = 1;
    config.own.metadata_id = metadata_id;
    config.most = most;
    config.role = BT_FETCH;
    CHECK(bt_end_new(end, &config, NULL, 0) == BT_DONE);
}

/* Gives the end what a peer sent, and drops what waits to be sent before or after that. */
static uint32_t hear(bt_end *end, size_t n) {
    uint64_t used;
    bt_verdict verdict;
    bt_end_sent(end, SIZE_MAX);
    return bt_end_handle(end, bytes, n, &used, &verdict);
}

static size_t hello(uint64_t reserved) {
    bt_handshake handshake = {reserved, {0}, {0}};
    return bt_write_handshake(&handshake, bytes, sizeof bytes);
}

/* An extended message of these texts, the second padded with zeros to n bytes. */
static size_t extended(uint8_t id, const char *dict, size_t n) {
    size_t length = 2 + strlen(dict) + n;
    memset(bytes, 0, sizeof bytes);
    bytes[2] = (uint8_t)(length >> 8);
    bytes[3] = (uint8_t)length;
    bytes[4] = BT_EXTENDED;
    bytes[5] = id;
    memcpy(bytes + 6, dict, strlen(dict));
    return length + 4;
}

/* The peer's handshakes; afterwards the requests wait that the end makes of them. */
static void open_with(bt_end *end) {
    CHECK(hear(end, hello(BT_EXTENSIONS)) == BT_DONE);
    CHECK(hear(end, extended(0, "d1:md11:ut_metadatai3ee13:metadata_sizei40000ee", 0)) == BT_DONE);
}

/* A request is 6 bytes and d8:msg_typei0e5:piecei0ee of 25. */
#define REQUESTS 93

/* It drops the blocks that are held, those of the same size too, and asks for all again; it takes a size above `most`. */
static void begins(void) {
    bt_end end = BT_NO_END;
    bt_progress progress;
    make(&end, BT_EXTENSIONS, 7, 0);
    open_with(&end);
    CHECK(bt_end_waiting(&end) == REQUESTS);
    CHECK(hear(&end, extended(7, "d8:msg_typei1e5:piecei0e10:total_sizei40000ee", 16384)) == BT_DONE && bt_end_waiting(&end) == 0);
    CHECK(bt_end_progress(&end, &progress) == 1 && progress.size == SIZE && progress.blocks == 3 && progress.held == 1);
    CHECK(bt_end_begin(&end, SIZE) == BT_DONE && bt_end_waiting(&end) == REQUESTS);
    CHECK(bt_end_progress(&end, &progress) == 1 && progress.size == SIZE && progress.held == 0);

    make(&end, BT_EXTENSIONS, 7, SIZE - 1);
    open_with(&end);
    CHECK(bt_end_waiting(&end) == 0 && bt_end_progress(&end, &progress) == 0);
    CHECK(bt_end_begin(&end, SIZE) == BT_DONE && bt_end_waiting(&end) == REQUESTS);
    CHECK(bt_end_progress(&end, &progress) == 1 && progress.size == SIZE && progress.held == 0);
    CHECK(bt_end_begin(&end, 67108864) == BT_DONE && bt_end_begin(&end, 67108865) == BT_NOT_BEGUN);
    bt_end_free(&end);
}

/* It speaks of the ids and the handshakes that it has seen, and of the blocks; not of a refusal. */
static void hopeless(void) {
    bt_end end = BT_NO_END;
    make(&end, 0, 7, 0);
    CHECK(bt_end_is_hopeless(&end) == 0);
    CHECK(hear(&end, hello(BT_EXTENSIONS)) == BT_DONE && bt_end_is_hopeless(&end) == 1);
    CHECK(bt_end_reset(&end) == BT_DONE && bt_end_is_hopeless(&end) == 0);

    make(&end, BT_EXTENSIONS, 0, 0);
    CHECK(bt_end_is_hopeless(&end) == 1);

    make(&end, BT_EXTENSIONS, 7, 0);
    open_with(&end);
    CHECK(hear(&end, extended(7, "d8:msg_typei2e5:piecei0ee", 0)) == BT_DONE && bt_end_is_hopeless(&end) == 0);
    CHECK(hear(&end, extended(7, "d8:msg_typei2e5:piecei1ee", 0)) == BT_DONE && bt_end_is_hopeless(&end) == 0);
    CHECK(hear(&end, extended(7, "d8:msg_typei2e5:piecei2ee", 0)) == BT_DONE && bt_end_is_hopeless(&end) == 1);

    make(&end, BT_EXTENSIONS, 7, 0);
    memset(bytes, 0, sizeof bytes);
    CHECK(hear(&end, 68) == BT_REFUSED && bt_end_is_hopeless(&end) == 0);
    bt_end_free(&end);
}

/* What the end hears of the n bytes, in a struct that had other numbers before. */
static bt_item heard(bt_end *end, size_t n) {
    bt_heard heard;
    memset(&heard, 0xee, sizeof heard);
    bt_end_sent(end, SIZE_MAX);
    CHECK(bt_end_next(end, bytes, n, &heard, NULL, 0) == BT_ITEM && heard.used == n);
    return heard.item;
}

/* An end tells the id of a raw extended message only: of the others extended_id is 0, and of what isn't one it is left unchanged. */
static void extended_ids(void) {
    bt_end end = BT_NO_END;
    make(&end, BT_EXTENSIONS, 7, 0);
    bt_item item = heard(&end, hello(BT_EXTENSIONS));
    CHECK(item.id == BT_HANDSHAKE && item.extended_id == 0 && item.port == 0);
    item = heard(&end, extended(0, "d1:md11:ut_metadatai3ee13:metadata_sizei40000ee", 0));
    CHECK(item.extended.kind == BT_EXT_HANDSHAKE && item.extended_id == 0 && item.extended.piece == 0 && item.port == 0xeeee);
    item = heard(&end, extended(7, "d8:msg_typei0e5:piecei2ee", 0));
    CHECK(item.extended.kind == BT_METADATA_REQUEST && item.extended_id == 0 && item.extended.piece == 2 && item.index == 0xeeeeeeee);
    item = heard(&end, extended(9, "abc", 0));
    CHECK(item.extended.kind == BT_EXT_RAW && item.extended_id == 9 && item.body == 3 && item.port == 0xeeee);
    memcpy(bytes, "\0\0\0\x05\x04\0\0\0\x08", 9);
    item = heard(&end, 9);
    CHECK(item.id == BT_HAVE && item.index == 8 && item.body == 0 && item.extended_id == 0xee && item.extended.kind == 0xee);
    bt_end_free(&end);
}

/* Whether the judgement of these n bytes is this. */
static bool is_judged(const void *bytes, size_t n, uint32_t wanted, uint64_t at) {
    uint64_t size = 12345;
    return bt_check_dictionary(bytes, n, &size) == wanted && size == at;
}

/* The dictionary that bytes begin with, by BEP 3. */
static void dictionaries(void) {
    const struct { const char *text; uint32_t answer; uint64_t at; } rows[] = {
        {"de", BT_ITEM, 2}, {"dee", BT_ITEM, 2}, {"d1:bi1e1:ali2e0:eeblock", BT_ITEM, 18}, {"", BT_MORE, 0}, {"d", BT_MORE, 1},
        {"d1:ai3e", BT_MORE, 7}, {"d1:a5:abc", BT_MORE, 9}, {"i3e", BT_REFUSED, 0}, {"d1:ai03ee", BT_REFUSED, 6}, {"d1:ai-0ee", BT_REFUSED, 6},
        {"d01:ai3ee", BT_REFUSED, 2}, {"di3ei4ee", BT_REFUSED, 1}, {"d1:ae", BT_REFUSED, 4}, {"d1:ai9223372036854775807ee", BT_ITEM, 26},
        {"d1:ai9223372036854775808ee", BT_REFUSED, 23}, {"d1:ai-9223372036854775808ee", BT_ITEM, 27}};
    for (size_t i = 0; i < sizeof rows / sizeof *rows; i++)
        CHECK(is_judged(rows[i].text, strlen(rows[i].text), rows[i].answer, rows[i].at));
    CHECK(is_judged(NULL, 0, BT_MORE, 0));
    /* 32 deep, and 33 */
    char deep[80] = "d1:a";
    memset(deep + 4, 'l', 31);
    memset(deep + 35, 'e', 32);
    CHECK(is_judged(deep, 67, BT_ITEM, 67));
    memset(deep + 4, 'l', 32);
    memset(deep + 36, 'e', 33);
    CHECK(is_judged(deep, 69, BT_REFUSED, 35));
    /* a string of one byte more than a message's, in all of the bytes, and with one more after it: no length goes on so */
    static char longer[12 + 1048577 + 2] = "d1:a1048577:";
    longer[12 + 1048577] = 'e';
    CHECK(is_judged(longer, 12 + 1048577 + 1, BT_ITEM, 12 + 1048577 + 1));
    CHECK(is_judged(longer, 12 + 1048577 + 2, BT_REFUSED, 10));
    CHECK(is_judged(longer, 12 + 1048577, BT_REFUSED, 10));
}

int main(void) {
    fields();
    dictionaries();
    extended_fields();
    extended_ids();
    begins();
    hopeless();
    return 0;
}
