/* Answers a peer: a handshake, an extended handshake, a request for the metadata's first block. usage: write <STREAM >ANSWER
 *
 * The stream is read whole, up to 1 MiB. A message that the peer would refuse isn't written. */
#include <stdio.h>
#include <string.h>
#include "bt.h"

static void put(uint32_t answer, const uint8_t *out, const bt_item *written) {
    if (answer == BT_ITEM)  /* BT_REFUSED: the peer would refuse it */
        fwrite(out, 1, written->size, stdout);
}

int main(void) {
    static uint8_t bytes[1 << 20], out[4096];
    size_t n = fread(bytes, 1, sizeof bytes, stdin), at = 0;
    bt_own own = {.reserved = BT_FAST | BT_EXTENSIONS, .limit = 262144, .metadata_id = 3};
    bt_handshake mine = {.reserved = BT_FAST | BT_EXTENSIONS};  /* and .peer_id */
    bt_reader reader, peer = {0};
    bt_item item, written;
    bt_reader_init(&reader, &own);
    for (; bt_reader_finish(&reader, bytes + at, n - at, &item) == BT_ITEM; at += item.size) {
        if (item.id == BT_HANDSHAKE) {
            memcpy(mine.info_hash, bytes + at + BT_INFO_HASH, 20);
            fwrite(out, 1, bt_write_handshake(&mine, out, sizeof out), stdout);
            bt_writer_init(&peer, &own, item.reserved);
            put(bt_write_extended_handshake(&peer, own.metadata_id, 0, 0, out, sizeof out, &written), out, &written);
        } else if (item.id == BT_EXTENDED && item.extended.kind == BT_EXT_HANDSHAKE) {
            bt_writer_hear(&peer, &item);
            put(bt_write_metadata(&peer, BT_METADATA_REQUEST, 0, 0, NULL, 0, out, sizeof out, &written), out, &written);
        }
    }
    return 0;
}
