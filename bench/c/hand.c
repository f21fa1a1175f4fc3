/* hand.c: reads a stream from standard input by a loop as clients write it by hand: framing, ids, lengths and fields. It knows no
 * rules, judges no bitfield and doesn't look into extended payloads. */
#include <inttypes.h>
#include <stdio.h>
#include <stdlib.h>
#include <string.h>
#include <unistd.h>

#define PIECE 65536
#define LIMIT 262144

struct item {
    uint64_t start;
    size_t size, body;
    uint32_t id, index, begin, length;
};

static uint32_t number(const uint8_t *p) { return (uint32_t)p[0] << 24 | (uint32_t)p[1] << 16 | (uint32_t)p[2] << 8 | p[3]; }

static int next(const uint8_t *b, size_t n, uint64_t start, struct item *item) {
    if (n < 4)
        return 0;
    uint32_t length = number(b);
    if (length > LIMIT)
        return 2;
    if (n < 4 + (size_t)length)
        return 0;
    item->start = start;
    item->size = 4 + (size_t)length;
    item->body = 0;
    item->id = length ? b[4] : 256;
    if (!length)
        return 1;
    switch (b[4]) {
    case 0: case 1: case 2: case 3: case 14: case 15:
        return length == 1 ? 1 : 2;
    case 4: case 13: case 17:
        if (length != 5)
            return 2;
        item->index = number(b + 5);
        return 1;
    case 6: case 8: case 16:
        if (length != 13)
            return 2;
        item->index = number(b + 5);
        item->begin = number(b + 9);
        item->length = number(b + 13);
        return 1;
    case 7:
        if (length < 9)
            return 2;
        item->index = number(b + 5);
        item->begin = number(b + 9);
        item->body = length - 9;
        return 1;
    case 9:
        if (length != 3)
            return 2;
        item->index = (uint32_t)b[5] << 8 | b[6];
        return 1;
    case 20:
        if (length < 2)
            return 2;
        item->body = length - 2;
        return 1;
    default:
        item->body = length - 1;
        return 1;
    }
}

int main(void) {
    size_t have = 0, at = 0;
    uint8_t *buffer = malloc(LIMIT + 4 + PIECE);
    uint64_t count = 0, sum = 0, start = 0;
    int opened = 0, answer;
    struct item item = {0};
    for (;;) {
        memmove(buffer, buffer + at, have - at);
        have -= at;
        at = 0;
        ssize_t got = read(0, buffer + have, PIECE);
        if (got <= 0)
            break;
        have += (size_t)got;
        if (!opened) {
            if (have < 68)
                continue;
            if (memcmp(buffer, "\x13" "BitTorrent protocol", 20))
                return 1;
            opened = 1;
            at = start = 68;
        }
        while ((answer = next(buffer + at, have - at, start, &item)) == 1) {
            at += item.size;
            start += item.size;
            count++;
            sum += item.index + item.begin + item.length;
        }
        if (answer == 2)
            return 1;
    }
    free(buffer);
    fprintf(stderr, "%" PRIu64 "\n", sum);
    printf("ok messages=%" PRIu64 " bytes=%" PRIu64 "\n", count, start);
    return 0;
}
