/* Puts a server far away: relays connections to it, and holds all bytes back for a while, on either way.

   Usage: relay PORT HOST:PORT MICROSECONDS
   Listens at 127.0.0.1:PORT. One thread and epoll; it ends when it is killed. */
#define _GNU_SOURCE
#include <arpa/inet.h>
#include <errno.h>
#include <netinet/tcp.h>
#include <stdint.h>
#include <stdio.h>
#include <stdlib.h>
#include <string.h>
#include <sys/epoll.h>
#include <sys/prctl.h>
#include <sys/socket.h>
#include <time.h>
#include <unistd.h>

enum { ENDS = 4096, ROOM = 1 << 16 };

/* Of a socket: the one to which its bytes go, or -1 once either has ended; and which connection it is of, as numbers come again. */
static int other[ENDS];
static uint64_t serial[ENDS], serials;

/* Bytes on their way, in the order in which they are due; none is the end of the connection. */
struct piece { struct piece *next; uint64_t due, serial; int from; size_t count; char bytes[]; };
static struct piece *first, **last = &first;

static void fail(const char *what) { perror(what); exit(1); }

static uint64_t now(void) {
    struct timespec t;
    clock_gettime(CLOCK_MONOTONIC, &t);
    return (uint64_t)t.tv_sec * 1000000000u + (uint64_t)t.tv_nsec;
}

static struct sockaddr_in address(const char *host, int port) {
    struct sockaddr_in made = {.sin_family = AF_INET, .sin_port = htons((uint16_t)port)};
    if (inet_pton(AF_INET, host, &made.sin_addr) != 1) fail("inet_pton");
    return made;
}

static void watch(int poll, int one) {
    int yes = 1;
    struct epoll_event event = {.events = EPOLLIN, .data.fd = one};
    setsockopt(one, IPPROTO_TCP, TCP_NODELAY, &yes, sizeof yes);
    if (epoll_ctl(poll, EPOLL_CTL_ADD, one, &event)) fail("epoll_ctl");
}

static void come(int poll, int listener, const struct sockaddr_in *server) {
    int near = accept(listener, NULL, NULL), far = socket(AF_INET, SOCK_STREAM, 0);
    if (near < 0 || far < 0 || near >= ENDS || far >= ENDS) fail("accept");
    if (connect(far, (const struct sockaddr *)server, sizeof *server)) fail("connect");
    other[near] = far, other[far] = near;
    serial[near] = serial[far] = ++serials;
    watch(poll, near), watch(poll, far);
}

static void hold(int poll, int from, uint64_t delay) {
    static char bytes[ROOM];
    ssize_t got = recv(from, bytes, sizeof bytes, 0);
    size_t count = got > 0 ? (size_t)got : 0;
    struct piece *piece = malloc(sizeof *piece + count);
    if (!piece) fail("malloc");
    piece->next = NULL, piece->due = now() + delay, piece->serial = serial[from], piece->from = from, piece->count = count;
    memcpy(piece->bytes, bytes, count);
    *last = piece, last = &piece->next;
    if (!count && epoll_ctl(poll, EPOLL_CTL_DEL, from, NULL)) fail("epoll_ctl");
}

static void end(int one) {
    int two = other[one];
    other[one] = other[two] = -1;
    close(one), close(two);
}

static void pass_on(struct piece *piece) {
    if (serial[piece->from] != piece->serial || other[piece->from] < 0) return;
    for (size_t sent = 0; sent < piece->count;) {
        ssize_t went = send(other[piece->from], piece->bytes + sent, piece->count - sent, MSG_NOSIGNAL);
        if (went <= 0) { end(piece->from); return; }
        sent += (size_t)went;
    }
    if (!piece->count) end(piece->from);
}

int main(int count, char **words) {
    if (count != 4) { fprintf(stderr, "bad words\n"); return 1; }
    char *colon = strrchr(words[2], ':');
    if (!colon) return 1;
    *colon = 0;
    struct sockaddr_in here = address("127.0.0.1", atoi(words[1])), server = address(words[2], atoi(colon + 1));
    uint64_t delay = (uint64_t)atol(words[3]) * 1000;
    prctl(PR_SET_TIMERSLACK, 1000ul);
    int yes = 1, poll = epoll_create1(0), listener = socket(AF_INET, SOCK_STREAM, 0);
    setsockopt(listener, SOL_SOCKET, SO_REUSEADDR, &yes, sizeof yes);
    if (bind(listener, (struct sockaddr *)&here, sizeof here) || listen(listener, 1024)) fail("listen");
    watch(poll, listener);
    for (;;) {
        struct epoll_event events[256];
        uint64_t from = now(), wait = first && first->due > from ? first->due - from : 0;
        struct timespec most = {.tv_sec = (time_t)(wait / 1000000000u), .tv_nsec = (long)(wait % 1000000000u)};
        int ready = epoll_pwait2(poll, events, 256, first ? &most : NULL, NULL);
        if (ready < 0 && errno != EINTR) fail("epoll_pwait2");
        for (int k = 0; k < ready; k++) {
            int one = events[k].data.fd;
            if (one == listener) come(poll, listener, &server);
            else if (other[one] >= 0) hold(poll, one, delay);
        }
        while (first && first->due <= now()) {
            struct piece *piece = first;
            first = piece->next;
            if (!first) last = &first;
            pass_on(piece);
            free(piece);
        }
    }
}
