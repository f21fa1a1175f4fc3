/* batch.c: as library.c, but it reads many items in one call. */
#include "bt.h"

#include <inttypes.h>
#include <stdio.h>
#include <stdlib.h>
#include <string.h>
#include <unistd.h>

#define PIECE 65536
#define ITEMS 64

int main(void) {
    bt_own own = {.reserved = BT_FAST | BT_DHT | BT_EXTENSIONS, .limit = 262144, .metadata_id = 3};
    size_t have = 0, at = 0;
    uint8_t *buffer = malloc(own.limit + 4 + PIECE);
    uint64_t count = 0;
    uint32_t answer = BT_MORE;
    bt_reader reader;
    bt_item items[ITEMS], *last = items;
    bt_batch batch;
    bt_reader_init(&reader, &own);
    while (answer == BT_MORE) {
        memmove(buffer, buffer + at, have - at);
        have -= at;
        at = 0;
        ssize_t got = read(0, buffer + have, PIECE);
        if (got < 0)
            return 2;
        have += (size_t)got;
        do {
            answer = bt_reader_batch(&reader, buffer + at, have - at, items, ITEMS, &batch);
            at += batch.used;
            count += batch.count;
        } while (answer == BT_ITEM);
        last = items + (answer == BT_REFUSED ? batch.count : 0);
        if (answer == BT_MORE && got == 0)
            answer = bt_reader_finish(&reader, buffer + at, have - at, last);
    }
    free(buffer);
    if (answer == BT_END) {
        printf("ok messages=%" PRIu64 " bytes=%" PRIu64 "\n", count - 1, reader.start);
        return 0;
    }
    printf("refused message=%" PRIu64 " at=%" PRIu64 " %u\n", count, last->start + last->size, last->reason);
    return 1;
}
