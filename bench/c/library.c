/* library.c: reads a stream from standard input over the library for C, and prints its verdict. */
#include "bt.h"

#include <inttypes.h>
#include <stdio.h>
#include <stdlib.h>
#include <string.h>
#include <unistd.h>

#define PIECE 65536

int main(void) {
    bt_own own = {.reserved = BT_FAST | BT_DHT | BT_EXTENSIONS, .limit = 262144, .metadata_id = 3};
    size_t have = 0, at = 0;
    uint8_t *buffer = malloc(own.limit + 4 + PIECE);
    uint64_t count = 0;
    uint32_t answer = BT_MORE;
    bt_reader reader;
    bt_item item;
    bt_reader_init(&reader, &own);
    while (answer == BT_MORE) {
        memmove(buffer, buffer + at, have - at);
        have -= at;
        at = 0;
        ssize_t got = read(0, buffer + have, PIECE);
        if (got < 0)
            return 2;
        have += (size_t)got;
        while ((answer = bt_reader_next(&reader, buffer + at, have - at, &item)) == BT_ITEM) {
            at += item.size;
            count++;
        }
        if (got == 0)
            answer = bt_reader_finish(&reader, buffer + at, have - at, &item);
    }
    free(buffer);
    if (answer == BT_END) {
        printf("ok messages=%" PRIu64 " bytes=%" PRIu64 "\n", count - 1, reader.start);
        return 0;
    }
    printf("refused message=%" PRIu64 " at=%" PRIu64 " %u\n", count, item.start + item.size, item.reason);
    return 1;
}
