/* Loads one or more servers of the classic text protocol: each client has one request under way, and sends the next when it has
   the whole answer. One thread and epoll. Bounded in requests and in time.

   Usage: load CLIENTS REQUESTS SECONDS KEYS SIZE SET DELETE SPREAD FAN
     SET and DELETE are percent of sets and deletes, the rest are gets; SPREAD is a list of host:port, by commas: a key goes to
     the one of its hash; FAN is a list in the same form, to each of which a delete goes, or `-`: to the one of its key.
   Prints: requests, seconds, p50, p99 and the longest in microseconds, errors, percent of a processor that this program took. */
#define _GNU_SOURCE
#include <arpa/inet.h>
#include <errno.h>
#include <netinet/tcp.h>
#include <stdint.h>
#include <stdio.h>
#include <stdlib.h>
#include <string.h>
#include <sys/epoll.h>
#include <sys/resource.h>
#include <sys/socket.h>
#include <time.h>
#include <unistd.h>

enum { PLACES = 16, LARGEST = 60000, MOST = 6000000, MOST_CLIENTS = 20000 };
enum kind { GET, SET, DELETE };

struct link { int socket; int open; size_t have; char *bytes; };
struct client { enum kind kind; int waits; uint64_t begun; struct link *spread, *fan; };

static struct sockaddr_in spread[PLACES], fan[PLACES];
static int spreads, fans, keys, size, set_share, delete_share;
static long most, begun, done, errors;
static uint64_t end_of_time, state = 88172645463325252ull;
static uint32_t *times;
static size_t room;
static char value[LARGEST + 1];

static void fail(const char *what) { perror(what); exit(1); }

static uint64_t now(void) {
    struct timespec t;
    clock_gettime(CLOCK_MONOTONIC, &t);
    return (uint64_t)t.tv_sec * 1000000000u + (uint64_t)t.tv_nsec;
}

static uint64_t chosen(uint64_t below) {
    state ^= state << 13, state ^= state >> 7, state ^= state << 17;
    return state % below;
}

static int addresses(char *list, struct sockaddr_in *to) {
    int count = 0;
    if (strcmp(list, "-") == 0) return 0;
    for (char *one = strtok(list, ","); one; one = strtok(NULL, ",")) {
        char *colon = strrchr(one, ':');
        if (!colon || count == PLACES) { fprintf(stderr, "bad list\n"); exit(1); }
        *colon = 0;
        to[count].sin_family = AF_INET;
        to[count].sin_port = htons((uint16_t)atoi(colon + 1));
        if (inet_pton(AF_INET, one, &to[count].sin_addr) != 1) fail("inet_pton");
        count++;
    }
    return count;
}

/* It is broken off at its end, so that no port waits for the next run. */
static void connected(struct link *link, const struct sockaddr_in *to) {
    int yes = 1;
    struct linger none = {.l_onoff = 1, .l_linger = 0};
    link->socket = socket(AF_INET, SOCK_STREAM, 0);
    link->open = 0, link->have = 0, link->bytes = calloc(room, 1);
    if (!link->bytes) fail("calloc");
    setsockopt(link->socket, SOL_SOCKET, SO_LINGER, &none, sizeof none);
    if (link->socket < 0 || connect(link->socket, (const struct sockaddr *)to, sizeof *to)) fail("connect");
    setsockopt(link->socket, IPPROTO_TCP, TCP_NODELAY, &yes, sizeof yes);
}

static void sent(struct client *client, struct link *link, const char *bytes, size_t count) {
    if (send(link->socket, bytes, count, MSG_NOSIGNAL) != (ssize_t)count) fail("send");
    link->open = 1, link->have = 0;
    client->waits++;
}

static unsigned place_of(const char *key) {
    uint64_t hash = 14695981039346656037ull;
    for (; *key; key++) hash = (hash ^ (unsigned char)*key) * 1099511628211ull;
    return (unsigned)(hash % (uint64_t)spreads);
}

static void ask(struct client *client, enum kind kind, uint64_t number) {
    char key[32], text[LARGEST + 64];
    int count;
    snprintf(key, sizeof key, "key-%08llu", (unsigned long long)number);
    client->kind = kind, client->begun = now(), client->waits = 0, begun++;
    if (kind == GET) count = snprintf(text, sizeof text, "get %s\r\n", key);
    else if (kind == DELETE) count = snprintf(text, sizeof text, "delete %s\r\n", key);
    else count = snprintf(text, sizeof text, "set %s 0 0 %d\r\n%.*s\r\n", key, size, size, value);
    if (kind == DELETE && fans)
        for (int k = 0; k < fans; k++) sent(client, &client->fan[k], text, (size_t)count);
    else
        sent(client, &client->spread[place_of(key)], text, (size_t)count);
}

static void ask_next(struct client *client) {
    if (begun >= most || now() >= end_of_time) return;
    int share = (int)chosen(100);
    enum kind kind = share < delete_share ? DELETE : share < delete_share + set_share ? SET : GET;
    ask(client, kind, chosen((uint64_t)keys));
}

/* Whether the bytes of a link are the whole answer. */
static int whole(const struct client *client, const struct link *link) {
    if (link->have < 2 || memcmp(link->bytes + link->have - 2, "\r\n", 2)) return 0;
    if (client->kind != GET || link->bytes[0] != 'V') return 1;
    return link->have >= (size_t)size + 7 && !memcmp(link->bytes + link->have - 7, "\r\nEND\r\n", 7);
}

static void note(struct client *client, const struct link *link) {
    static const char *good[3][2] = {{"VALUE ", "END\r\n"}, {"STORED", "STORED"}, {"DELETED", "NOT_FOUND"}};
    const char **texts = good[client->kind];
    if (strncmp(link->bytes, texts[0], strlen(texts[0])) && strncmp(link->bytes, texts[1], strlen(texts[1]))) {
        if (errors++ == 0) fprintf(stderr, "an answer: %.*s", (int)(link->have < 80 ? link->have : 80), link->bytes);
    }
}

static void read_more(struct client *client, struct link *link) {
    ssize_t got = recv(link->socket, link->bytes + link->have, room - link->have, 0);
    if (got <= 0) fail("recv");
    link->have += (size_t)got;
    if (!link->open || !whole(client, link)) return;
    note(client, link);
    link->open = 0;
    if (--client->waits == 0) {
        if (done < MOST) times[done] = (uint32_t)((now() - client->begun) / 10);
        done++;
        ask_next(client);
    }
}

static int by_size(const void *a, const void *b) {
    uint32_t x = *(const uint32_t *)a, y = *(const uint32_t *)b;
    return x < y ? -1 : x > y;
}

/* Epoll says of an event only the link; so a link's client is found by its number. */
static void watch(int poll, uint64_t client, int is_fan, int place, struct link *link) {
    struct epoll_event event = {.events = EPOLLIN, .data.u64 = client << 16 | (uint64_t)is_fan << 8 | (uint64_t)place};
    if (epoll_ctl(poll, EPOLL_CTL_ADD, link->socket, &event)) fail("epoll_ctl");
}

static void run_until_idle(int poll, struct client *clients) {
    struct epoll_event events[256];
    while (done < begun) {
        int count = epoll_wait(poll, events, 256, 10000);
        if (count == 0) { fprintf(stderr, "no answer for ten seconds, %ld of %ld\n", done, begun); exit(1); }
        for (int k = 0; k < count; k++) {
            uint64_t of = events[k].data.u64;
            struct client *client = &clients[of >> 16];
            read_more(client, (of >> 8 & 1 ? client->fan : client->spread) + (of & 255));
        }
    }
}

int main(int count, char **words) {
    struct rusage used;
    if (count != 10) { fprintf(stderr, "bad words\n"); return 1; }
    int clients = atoi(words[1]), poll = epoll_create1(0);
    long wanted = atol(words[2]);
    keys = atoi(words[4]), size = atoi(words[5]), set_share = atoi(words[6]), delete_share = atoi(words[7]);
    spreads = addresses(words[8], spread), fans = addresses(words[9], fan);
    if (clients < 1 || clients > MOST_CLIENTS || size < 1 || size > LARGEST || wanted > MOST || keys < 1 || !spreads) return 1;
    struct client *all = calloc((size_t)clients, sizeof *all);
    times = calloc(MOST, sizeof *times);
    if (!all || !times) fail("calloc");
    memset(value, 'x', LARGEST);
    room = (size_t)size + 128;
    struct rlimit files;
    if (getrlimit(RLIMIT_NOFILE, &files)) fail("getrlimit");
    files.rlim_cur = files.rlim_max;
    if (setrlimit(RLIMIT_NOFILE, &files)) fail("setrlimit");
    struct link *links = calloc((size_t)clients * (size_t)(spreads + fans), sizeof *links);
    if (!links) fail("calloc");
    for (int c = 0; c < clients; c++) {
        all[c].spread = links + (size_t)c * (size_t)(spreads + fans), all[c].fan = all[c].spread + spreads;
        for (int k = 0; k < spreads; k++) connected(&all[c].spread[k], &spread[k]), watch(poll, (uint64_t)c, 0, k, &all[c].spread[k]);
        for (int k = 0; k < fans; k++) connected(&all[c].fan[k], &fan[k]), watch(poll, (uint64_t)c, 1, k, &all[c].fan[k]);
    }
    most = wanted, end_of_time = now() + (uint64_t)(atof(words[3]) * 1e9);
    uint64_t from = now();
    for (int c = 0; c < clients; c++) ask_next(&all[c]);
    run_until_idle(poll, all);
    double seconds = (double)(now() - from) / 1e9;
    getrusage(RUSAGE_SELF, &used);
    double busy = (double)(used.ru_utime.tv_sec + used.ru_stime.tv_sec) + (double)(used.ru_utime.tv_usec + used.ru_stime.tv_usec) / 1e6;
    qsort(times, (size_t)done, sizeof *times, by_size);
    printf("%ld %.4f %.1f %.1f %.1f %ld %.0f\n", done, seconds, times[done / 2] / 100.0, times[done * 99 / 100] / 100.0, times[done - 1] / 100.0, errors, 100 * busy / seconds);
    return 0;
}
