/* show.c: prints the items of a stream as `bt_tool show` does. usage: show [FILE] <STREAM
 *
 * The options of `show` are read from the environment: RULES=free or bep, LIMIT, PIECES, INFO_HASH in hex. PIECE is how many
 * bytes are read at once.
 *
 * build: cc -O2 -I dist/x86_64-linux examples/c/show.c dist/x86_64-linux/libbt.a -o show
 */
#include "bt.h"

#include <inttypes.h>
#include <stdio.h>
#include <stdlib.h>
#include <string.h>

static void print_hex(const uint8_t *bytes, size_t n) {
    for (size_t i = 0; i < n; i++)
        printf("%02x", bytes[i]);
}

static void print_extended(const bt_item *item) {
    const bt_extended *x = &item->extended;
    size_t rest = item->body - x->dict;
    switch (x->kind) {
    case BT_EXT_HANDSHAKE:
        printf(" %zu %zu size=", x->dict, rest);
        if (x->has_metadata_size)
            printf("%" PRIu64, x->metadata_size);
        else
            printf("-");
        printf(" ut_metadata=");
        if (x->has_ut_metadata)
            printf("%u", x->ut_metadata);
        else
            printf("-");
        break;
    case BT_METADATA_REQUEST:
    case BT_METADATA_REJECT:
        printf(" %" PRIu32, x->piece);
        break;
    case BT_METADATA_DATA:
        printf(" %" PRIu32 " %" PRIu64 " %zu", x->piece, x->total_size, rest);
        break;
    case BT_EXT_RAW:
        printf(" %u %zu", item->extended_id, item->body);
        break;
    default:
        printf(" %zu %zu", x->dict, rest);
    }
}

/* bytes are the item's. */
static void print_item(const bt_item *item, const uint8_t *bytes) {
    char name[BT_NAME_ROOM];
    bt_item_name(item, name, sizeof name);
    printf("%" PRIu64 " %s", item->start, name);
    switch (item->id) {
    case BT_HANDSHAKE:
        printf(" %016" PRIx64 " ", item->reserved);
        print_hex(bytes + BT_INFO_HASH, 20);
        printf(" ");
        print_hex(bytes + BT_PEER_ID, 20);
        break;
    case BT_HAVE:
    case BT_SUGGEST:
    case BT_ALLOWED_FAST:
        printf(" %" PRIu32, item->index);
        break;
    case BT_BITFIELD:
        printf(" %zu", item->body);
        break;
    case BT_REQUEST:
    case BT_CANCEL:
    case BT_REJECT:
        printf(" %" PRIu32 " %" PRIu32 " %" PRIu32, item->index, item->begin, item->length);
        break;
    case BT_PIECE:
        printf(" %" PRIu32 " %" PRIu32 " %zu", item->index, item->begin, item->body);
        break;
    case BT_PORT:
        printf(" %u", item->port);
        break;
    case BT_EXTENDED:
        print_extended(item);
        break;
    case BT_CHOKE:
    case BT_UNCHOKE:
    case BT_INTERESTED:
    case BT_NOT_INTERESTED:
    case BT_HAVE_ALL:
    case BT_HAVE_NONE:
    case BT_KEEP_ALIVE:
        break;
    default:
        printf(" %u %zu", item->id, item->body);
    }
    printf("\n");
}

static bt_own own_from_environment(void) {
    bt_own own = {.reserved = BT_FAST | BT_DHT | BT_EXTENSIONS, .limit = 262144, .metadata_id = 3};
    const char *rules = getenv("RULES"), *limit = getenv("LIMIT"), *pieces = getenv("PIECES"), *hash = getenv("INFO_HASH");
    own.strict = rules && !strcmp(rules, "bep");
    if (limit)
        own.limit = (uint32_t)strtoul(limit, NULL, 10);
    if (pieces) {
        own.has_pieces = 1;
        own.pieces = (uint32_t)strtoul(pieces, NULL, 10);
    }
    if (hash && strlen(hash) == 40) {
        own.has_info_hash = 1;
        for (int i = 0; i < 20; i++) {
            char two[3] = {hash[2 * i], hash[2 * i + 1], 0};
            own.info_hash[i] = (uint8_t)strtoul(two, NULL, 16);
        }
    }
    return own;
}

static int print_end(uint32_t answer, uint64_t count, const bt_feed *feed, const bt_item *item) {
    if (answer == BT_END) {
        printf("ok messages=%" PRIu64 " bytes=%" PRIu64 "\n", count - 1, feed->reader.start);
        return 0;
    }
    char name[BT_NAME_ROOM];
    bt_reason_name(item->reason, name, sizeof name);
    printf("refused message=%" PRIu64 " at=%" PRIu64 " %s\n", count, item->start + item->size, name);
    return 1;
}

int main(void) {
    bt_own own = own_from_environment();
    size_t piece = getenv("PIECE") ? strtoul(getenv("PIECE"), NULL, 10) : 65536, room = BT_ROOM(&own);
    uint8_t *bytes = malloc(piece), *buffer = malloc(room);
    if (bt_abi() != BT_ABI || !piece || !bytes || !buffer)
        return 2;
    bt_feed feed;
    bt_item item;
    uint64_t count = 0;
    bt_feed_init(&feed, &own);
    for (;;) {
        size_t got = fread(bytes, 1, piece, stdin), used = 0;
        uint32_t answer;
        do {
            used += bt_feed_push(&feed, buffer, room, bytes + used, got - used);
            while ((answer = got ? bt_feed_next(&feed, buffer, room, &item) : bt_feed_finish(&feed, buffer, room, &item)) == BT_ITEM) {
                print_item(&item, buffer + feed.from - item.size);
                count++;
            }
        } while (answer == BT_MORE && used < got);
        if (answer != BT_MORE) {
            int status = print_end(answer, count, &feed, &item);
            free(bytes);
            free(buffer);
            return status;
        }
    }
}
