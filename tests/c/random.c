/* random.c: throws random structs and buffers at each call of bt.h, and looks at what bt.h says of the answers.
 *
 * usage: random COUNT STREAM..
 *
 * Each buffer ends right before a page that may not be touched, or starts right after one, so that a byte too far ends the run.
 */
#include "bt.h"

#include <stddef.h>
#include <stdio.h>
#include <stdlib.h>
#include <string.h>
#include <sys/mman.h>
#include <unistd.h>

#define MOST 4096
#define CHECK(holds) do { if (!(holds)) { printf("%s:%d: not so: %s\n", __FILE__, __LINE__, #holds); exit(1); } } while (0)

static uint64_t state = 88172645463325252u;

static uint64_t rnd(void) {
    state ^= state << 13;
    state ^= state >> 7;
    state ^= state << 17;
    return state;
}

static size_t below(size_t n) { return n ? rnd() % n : 0; }

static void fill(void *to, size_t n) {
    uint8_t *bytes = to;
    for (size_t i = 0; i < n; i++)
        bytes[i] = (uint8_t)rnd();
}

/* Pages with a forbidden one before and one after. */
static uint8_t *pages(void) {
    size_t page = (size_t)sysconf(_SC_PAGESIZE);
    uint8_t *all = mmap(NULL, MOST + 2 * page, PROT_NONE, MAP_PRIVATE | MAP_ANONYMOUS, -1, 0);
    CHECK(all != MAP_FAILED && MOST % page == 0);
    CHECK(!mprotect(all + page, MOST, PROT_READ | PROT_WRITE));
    return all + page;
}

/* n bytes at one of the two ends. */
static uint8_t *place(uint8_t *pages, size_t n) {
    if (n == 0 && below(2))
        return NULL;
    return below(2) ? pages : pages + MOST - n;
}

static uint8_t *streams[64];
static size_t sizes[64], count_of_streams;

static void load(const char *path) {
    FILE *file = fopen(path, "rb");
    CHECK(file && count_of_streams < 64);
    uint8_t *bytes = malloc(1 << 20);
    sizes[count_of_streams] = fread(bytes, 1, 1 << 20, file);
    streams[count_of_streams++] = bytes;
    fclose(file);
}

/* Random bytes, or a part of a stream, as it is or with some bytes changed. */
static void fill_stream(uint8_t *to, size_t n) {
    size_t which = below(count_of_streams + 1);
    if (which == count_of_streams || sizes[which] == 0) {
        fill(to, n);
        return;
    }
    size_t from = below(3) ? 0 : below(sizes[which]);
    if (below(4) == 0 && sizes[which] > 68)
        from = 68;
    for (size_t i = 0; i < n; i++)
        to[i] = streams[which][(from + i) % sizes[which]];
    for (size_t changes = below(3); n && changes; changes--)
        to[below(n)] = (uint8_t)rnd();
}

static bt_own random_own(void) {
    bt_own own;
    fill(&own, sizeof own);
    if (below(4)) {
        own.reserved = BT_FAST | BT_DHT | BT_EXTENSIONS;
        own.limit = (uint32_t)(below(3) ? 262144 : below(200));
        own.has_pieces = below(4) == 0;
        own.has_info_hash = 0;
        own.metadata_id = (uint8_t)(below(3) ? 3 : rnd());
    }
    return own;
}

static bt_reader random_reader(void) {
    bt_reader reader;
    fill(&reader, sizeof reader);
    reader.own = random_own();
    if (below(2))
        reader.opened = reader.fast = reader.ext = 1;
    if (below(4))
        reader.start = below(1000);
    return reader;
}

static bt_item random_item(void) {
    bt_item item;
    fill(&item, sizeof item);
    if (below(4)) {
        item.id = (uint16_t)below(260);
        item.index = (uint32_t)below(9);
    }
    return item;
}

static size_t random_size(void) {
    switch (below(4)) {
    case 0: return below(8);
    case 1: return below(100);
    default: return below(MOST + 1);
    }
}

static size_t wild(void) {
    switch (below(4)) {
    case 0: return SIZE_MAX;
    case 1: return rnd();
    default: return below(2 * MOST);
    }
}

static void check_step(uint32_t answer, const bt_reader *before, const bt_reader *after, size_t n, const bt_item *item, int end) {
    CHECK(answer == BT_ITEM || answer == BT_REFUSED || answer == (end ? BT_END : BT_MORE));
    if (answer != BT_ITEM)
        CHECK(!memcmp(before, after, sizeof *before));
    if (answer == BT_ITEM) {
        CHECK(item->size <= n && item->body <= item->size && after->opened);
        CHECK(after->start == (before->opened ? before->start + item->size : 68));
        CHECK(item->id != BT_EXTENDED || (item->extended.dict <= item->body && item->extended.kind >= 1 && item->extended.kind <= 7));
    }
    if (answer == BT_REFUSED)
        CHECK(item->reason >= 1 && item->reason <= BT_BAD_EXT_LENGTH && item->start == (before->opened ? before->start : 0));
}

static void read_one(uint8_t *in) {
    size_t n = random_size();
    uint8_t *bytes = place(in, n);
    fill_stream(bytes, n);
    bt_reader before = random_reader(), after = before;
    bt_item item = random_item();
    check_step(bt_reader_next(&after, bytes, n, &item), &before, &after, n, &item, 0);
    after = before;
    check_step(bt_reader_finish(&after, bytes, n, &item), &before, &after, n, &item, 1);
    bt_verdict verdict;
    uint32_t answer = bt_check(&before.own, bytes, n, &verdict);
    CHECK(answer == BT_END ? verdict.at == n && !verdict.reason : answer == BT_REFUSED && verdict.reason >= 1 && verdict.reason <= BT_BAD_EXT_LENGTH);
    bt_reader_init(&after, &before.own);
    CHECK(!memcmp(&after.own, &before.own, sizeof after.own) && !after.opened && !after.start);
}

static int same_items(const bt_item *a, const bt_item *b) {
    return !memcmp(a, b, offsetof(bt_item, reason) + 1) && !memcmp(&a->extended, &b->extended, sizeof a->extended);
}

/* A batch gives what calls in a row give, and leaves the rest of the array. */
static void batch_one(uint8_t *in, uint8_t *held) {
    static bt_item was[MOST / sizeof(bt_item)];
    size_t n = random_size(), room = below(8) ? below(4) : below(MOST / sizeof(bt_item) + 1), count = 0, used = 0;
    uint8_t *bytes = place(in, n);
    bt_item *items = (bt_item *)(void *)place(held, room * sizeof *items);
    fill_stream(bytes, n);
    for (size_t i = 0; i < room; i++)
        items[i] = was[i] = random_item();
    bt_reader before = random_reader(), after = before;
    bt_batch batch;
    fill(&batch, sizeof batch);
    uint32_t answer = bt_reader_batch(&after, bytes, n, items, room, &batch), last = BT_ITEM;
    for (; count < room; count++) {
        bt_item item = was[count];
        last = bt_reader_next(&before, n ? bytes + used : bytes, n - used, &item);
        CHECK(same_items(&item, &items[count]));
        if (last != BT_ITEM)
            break;
        used += item.size;
    }
    CHECK(answer == last && batch.count == count && batch.used == used && !memcmp(&after, &before, sizeof after));
    for (size_t i = count + 1; i < room; i++)
        CHECK(same_items(&items[i], &was[i]));
}

/* Lengths that no memory has, where no more of it is read or written than is there. */
static void huge_one(uint8_t *in, uint8_t *held) {
    bt_reader reader = random_reader();
    bt_item items[3];
    bt_batch batch;
    reader.opened = 1;
    reader.start = below(1000);
    memset(in, 0, MOST);
    CHECK(bt_reader_batch(&reader, in, SIZE_MAX, items, 3, &batch) == BT_ITEM && batch.count == 3 && batch.used == 12);
    CHECK(bt_reader_next(&reader, in, SIZE_MAX, items) == BT_ITEM && items[0].id == BT_KEEP_ALIVE && items[0].size == 4);
    CHECK(bt_reader_finish(&reader, in, SIZE_MAX, items) == BT_ITEM && items[0].size == 4);
    CHECK(bt_reader_batch(&reader, NULL, 0, items, SIZE_MAX, &batch) == BT_MORE && batch.count == 0 && batch.used == 0);
    CHECK(bt_reader_batch(&reader, in, 8, NULL, 0, &batch) == BT_ITEM && batch.count == 0 && batch.used == 0);
    bt_feed feed;
    bt_feed_init(&feed, &reader.own);
    feed.to = below(100);
    size_t old = feed.to, room = 100 + below(MOST - 100);
    CHECK(bt_feed_push(&feed, held, room, in, SIZE_MAX) == room - old && feed.to == room);
}

static void feed_one(uint8_t *in, uint8_t *held) {
    size_t n = random_size(), room = random_size();
    uint8_t *bytes = place(in, n), *buffer = place(held, room);
    fill_stream(bytes, n);
    fill_stream(buffer, room);
    bt_feed feed;
    feed.reader = random_reader();
    feed.from = below(2) ? wild() : below(room + 1);
    feed.to = below(2) ? wild() : below(room + 1);
    size_t from = feed.from < room ? feed.from : room, to = feed.to < room ? feed.to : room, old = to > from ? to - from : 0;
    for (int finish = 0; finish < 2; finish++) {
        bt_feed before = feed;
        bt_item item = random_item();
        uint32_t answer = finish ? bt_feed_finish(&feed, buffer, room, &item) : bt_feed_next(&feed, buffer, room, &item);
        check_step(answer, &before.reader, &feed.reader, old, &item, finish);
        CHECK(answer != BT_ITEM ? feed.from == before.from : feed.from == before.from + item.size && feed.from <= room);
        CHECK(feed.to == before.to);
        feed = before;
    }
    size_t took = bt_feed_push(&feed, buffer, room, bytes, n);
    CHECK(took == (n < room - old ? n : room - old) && feed.from == 0 && feed.to == old + took);
    CHECK(took == 0 || !memcmp(buffer + old, bytes, took));
    bt_feed_init(&feed, &feed.reader.own);
    CHECK(!feed.from && !feed.to && !feed.reader.opened);
}

static void write_one(uint8_t *in, uint8_t *to) {
    size_t n = below(2) ? below(40) : random_size(), room = random_size();
    uint8_t *body = place(in, n), *out = place(to, room);
    fill_stream(body, n);
    fill(out, room);
    bt_reader before = random_reader(), peer = before;
    bt_item message = random_item(), written = random_item();
    uint32_t answer = bt_write(&peer, &message, body, n, out, room, &written);
    CHECK(answer == BT_ITEM || answer == BT_REFUSED || answer == BT_UNWRITTEN);
    if (answer == BT_ITEM) {
        CHECK(written.size <= room && written.id == message.id && peer.start == before.start + written.size);
        CHECK(message.id != BT_PIECE || (written.index == message.index && written.begin == message.begin && written.body == n));
    } else {
        CHECK(!memcmp(&peer, &before, sizeof peer));
    }
    peer = before;
    uint8_t kind = (uint8_t)(below(2) ? below(8) : rnd());
    answer = bt_write_metadata(&peer, kind, (uint32_t)rnd(), below(2) ? below(99999) : rnd(), body, n, out, room, &written);
    CHECK(answer == BT_ITEM || answer == BT_REFUSED || answer == BT_UNWRITTEN);
    CHECK(answer != BT_ITEM || (written.id == BT_EXTENDED && written.extended.kind == kind && written.body - written.extended.dict == n));
    peer = before;
    answer = bt_write_extended_handshake(&peer, (uint8_t)rnd(), (uint8_t)below(2), rnd(), out, room, &written);
    CHECK(answer == BT_ITEM || answer == BT_REFUSED || answer == BT_UNWRITTEN);
    CHECK(answer != BT_ITEM || (written.id == BT_EXTENDED && written.extended.kind == BT_EXT_HANDSHAKE));
    peer = before;
    CHECK(bt_write(&peer, &message, body, SIZE_MAX, out, message.id == BT_KEEP_ALIVE ? 0 : room, &written) == BT_UNWRITTEN);
    CHECK(bt_write_metadata(&peer, BT_METADATA_DATA, 0, 1, body, SIZE_MAX, out, room, &written) == BT_UNWRITTEN);
    bt_writer_init(&peer, &before.own, rnd());
    CHECK(peer.opened && peer.own.metadata_id == 0 && peer.start == 68);
    bt_handshake handshake;
    fill(&handshake, sizeof handshake);
    CHECK(bt_write_handshake(&handshake, out, room) == (room < 68 ? 0 : 68));
    CHECK(room < 68 || (out[0] == 19 && !memcmp(out + BT_PEER_ID, handshake.peer_id, 20)));
}

/* Fewer bytes than a dictionary has begin it, and so do those before a fault. */
static void dictionary_one(uint8_t *in) {
    static const char some[] = "dddllii1112::::aaeeee0-";
    size_t n = below(2) ? below(12) : below(60);
    uint8_t *bytes = place(in, n);
    for (size_t i = 0; i < n; i++)
        bytes[i] = (uint8_t)(i == 0 && below(8) ? 'd' : some[below(sizeof some - 1)]);
    uint64_t size = rnd(), other = rnd();
    uint32_t answer = bt_check_dictionary(bytes, n, &size);
    CHECK(answer == BT_MORE ? size == n : answer == BT_REFUSED ? size < n : answer == BT_ITEM && size >= 2 && size <= n);
    size_t part = below(size + (answer != BT_ITEM));
    CHECK(bt_check_dictionary(bytes, part, &other) == BT_MORE && other == part);
}

static void name_one(uint8_t *to) {
    size_t room = below(30);
    char *text = (char *)place(to, room);
    fill(text, room);
    uint32_t reason = (uint32_t)(below(2) ? below(20) : rnd());
    size_t n = bt_reason_name(reason, text, room);
    CHECK((n > 0) == (reason >= 1 && reason <= BT_BAD_EXT_LENGTH) && (n == 0 || n >= room || strlen(text) == n));
    bt_item item = random_item();
    n = bt_item_name(&item, text, room);
    CHECK(n > 0 && n < BT_NAME_ROOM && (n >= room || strlen(text) == n));
    CHECK(bt_abi() == BT_ABI);
}

int main(int argc, char **argv) {
    CHECK(argc > 1);
    unsigned long count = strtoul(argv[1], NULL, 10);
    for (int i = 2; i < argc; i++)
        load(argv[i]);
    uint8_t *in = pages(), *held = pages();
    for (unsigned long i = 0; i < count; i++) {
        read_one(in);
        batch_one(in, held);
        if (i % 100 == 0)
            huge_one(in, held);
        feed_one(in, held);
        write_one(in, held);
        dictionary_one(in);
        name_one(held);
    }
    for (size_t i = 0; i < count_of_streams; i++)
        free(streams[i]);
    printf("ok: %lu rounds\n", count);
    return 0;
}
