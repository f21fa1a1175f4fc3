/* fetch.c: fetches the metadata of a torrent from a peer. usage: fetch INFO-HASH HOST PORT [SECONDS] >METADATA
 *
 * It ends within SECONDS, 1 to 86400, or else 30; only the look-up of the host's name may take longer. If it fails, the status is
 * 1, and standard error says why.
 *
 * build: cc -O2 -I dist/x86_64-linux examples/c/fetch.c dist/x86_64-linux/libbt.a -o fetch */
#include "bt.h"

#include <errno.h>
#include <fcntl.h>
#include <inttypes.h>
#include <netdb.h>
#include <poll.h>
#include <stdarg.h>
#include <stdio.h>
#include <stdlib.h>
#include <string.h>
#include <sys/socket.h>
#include <time.h>
#include <unistd.h>

#define MOST 67108864

static uint8_t in[65536], out[65536], metadata[MOST];
static int64_t ends;  /* when the time is over, in milliseconds */

static _Noreturn void fail(const char *why, ...) {
    va_list words;
    va_start(words, why);
    fputs("fetch: ", stderr);
    vfprintf(stderr, why, words);
    fputs("\n", stderr);
    va_end(words);
    exit(1);
}

static int64_t now(void) {
    struct timespec time;
    clock_gettime(CLOCK_MONOTONIC, &time);
    return (int64_t)time.tv_sec * 1000 + time.tv_nsec / 1000000;
}

/* Waits until one of these can be done with the socket. */
static void wait_for(int sock, short wanted) {
    struct pollfd one = {.fd = sock, .events = wanted};
    int64_t left;
    while ((left = ends - now()) > 0) {
        int n = poll(&one, 1, (int)left);
        if (n > 0)
            return;
        if (n < 0 && errno != EINTR)
            fail("poll: %s", strerror(errno));
    }
    fail("the peer didn't give the metadata in time");
}

/* Whether a call that failed so may be made again, since the socket wasn't ready. */
static int is_early(int error) {
    return error == EAGAIN || error == EWOULDBLOCK || error == EINTR;
}

/* Returns 0 once the socket is connected, or why it isn't. */
static int connected(int sock, const struct addrinfo *peer) {
    int why = 0;
    socklen_t size = sizeof why;
    if (fcntl(sock, F_SETFL, O_NONBLOCK) < 0)
        return errno;
    if (connect(sock, peer->ai_addr, peer->ai_addrlen) == 0)
        return 0;
    if (errno != EINPROGRESS)
        return errno;
    wait_for(sock, POLLOUT);
    return getsockopt(sock, SOL_SOCKET, SO_ERROR, &why, &size) < 0 ? errno : why;
}

/* Connects to the first address of the host that is reached. */
static int reach(const char *host, const char *port) {
    struct addrinfo *found, hints = {.ai_socktype = SOCK_STREAM};
    int why = getaddrinfo(host, port, &hints, &found);
    if (why != 0)
        fail("%s port %s: %s", host, port, gai_strerror(why));
    for (const struct addrinfo *peer = found; peer != NULL; peer = peer->ai_next) {
        int sock = socket(peer->ai_family, SOCK_STREAM, 0);
        why = sock < 0 ? errno : connected(sock, peer);
        if (why == 0) {
            freeaddrinfo(found);
            return sock;
        }
        if (sock >= 0)
            close(sock);
    }
    fail("%s port %s isn't reached: %s", host, port, strerror(why));
}

/* Acts on what the peer said. */
static void handle(bt_end *end, const bt_event *event) {
    if (event->kind == BT_EVENT_OPENED && memcmp(event->peer_id, "-lt", 3) == 0)
        bt_end_set_window(end, 1);  /* rtorrent answers one request at a time, and a second one makes it stop */
    if (event->kind == BT_EVENT_ANNOUNCED && event->has_size && (event->size == 0 || event->size > MOST))
        fail("the peer announced metadata of %" PRIu64 " bytes, not of 1 to %d", event->size, MOST);
    if (event->kind == BT_EVENT_MISMATCHED)
        fail("the peer sent other metadata");
}

/* Handles these bytes, and returns how many were taken: fewer only if much waits to be sent. */
static size_t receive(bt_end *end, const uint8_t *bytes, size_t n) {
    bt_heard heard;
    char name[BT_NAME_ROOM] = "";
    uint32_t answer;
    size_t at = 0;
    do {
        answer = bt_end_next(end, bytes + at, n - at, &heard, NULL, 0);
        at += heard.used;
        if (answer == BT_ITEM)
            handle(end, &heard.event);
    } while (answer == BT_ITEM);
    if (answer == BT_NO_MEMORY)
        fail("out of memory");
    if (answer == BT_REFUSED) {
        bt_reason_name(heard.verdict.reason, name, sizeof name);
        fail("message %" PRIu64 " refused at byte %" PRIu64 ": %s", heard.verdict.message, heard.verdict.at, name);
    }
    return at;
}

/* Sends what waits, as much as the socket takes now. */
static void send_some(bt_end *end, int sock) {
    size_t waiting;
    while ((waiting = bt_end_outgoing(end, out, sizeof out)) > 0) {
        ssize_t n = send(sock, out, waiting, MSG_NOSIGNAL);
        if (n < 0 && is_early(errno))
            return;
        if (n < 0)
            fail("the connection failed: %s", strerror(errno));
        bt_end_sent(end, (size_t)n);
    }
}

/* Moves bytes between the socket and the end until that has the metadata. */
static void talk(bt_end *end, int sock) {
    size_t at = 0, size = 0;
    while (bt_end_metadata(end, NULL, 0) == 0) {
        if (bt_end_is_hopeless(end))
            fail("the peer has no metadata, or rejected a block of it");
        send_some(end, sock);
        wait_for(sock, (short)((at == size ? POLLIN : 0) | (bt_end_waiting(end) > 0 ? POLLOUT : 0)));
        if (at == size) {
            ssize_t n = recv(sock, in, sizeof in, 0);
            if (n == 0)
                fail("the peer closed the connection");
            if (n < 0 && !is_early(errno))
                fail("the connection failed: %s", strerror(errno));
            at = 0;
            size = n < 0 ? 0 : (size_t)n;
        }
        at += receive(end, in + at, size - at);
    }
}

int main(int count, char **words) {
    bt_end_config config = {.own = {.reserved = BT_FAST | BT_EXTENSIONS, .limit = 262144, .metadata_id = 3, .has_info_hash = 1},
                            .peer_id = "-XX0001-fetchfetchf", .announce = BT_SAY_NONE, .role = BT_FETCH};
    char *end_of_number = "";
    long seconds = count == 5 ? strtol(words[4], &end_of_number, 10) : 30;
    int is_right = (count == 4 || count == 5) && strlen(words[1]) == 40 && strspn(words[1], "0123456789abcdefABCDEF") == 40;
    if (!is_right || *end_of_number != 0 || seconds < 1 || seconds > 86400)
        return fputs("usage: fetch INFO-HASH HOST PORT [SECONDS] >METADATA\n", stderr), 2;
    for (int i = 0; i < 20; i++)
        sscanf(words[1] + 2 * i, "%2hhx", &config.own.info_hash[i]);
    ends = now() + 1000 * seconds;
    bt_end end = BT_NO_END;
    if (bt_end_new(&end, &config, NULL, 0) != BT_DONE)
        fail("out of memory");
    int sock = reach(words[2], words[3]);
    talk(&end, sock);
    close(sock);
    size_t size = bt_end_metadata(&end, metadata, sizeof metadata);
    if (fwrite(metadata, 1, size, stdout) != size || fflush(stdout) != 0)
        fail("the metadata isn't written: %s", strerror(errno));
    bt_end_free(&end);
    return 0;
}
