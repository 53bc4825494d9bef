/* Asks for keys for long, while a second connection changes them: library_soak PORT HITS FETCHES. It
 * ends with 1 where an answer is older than the last invalidation of its key that was read, or where
 * the memory at the end is more than 5 percent above that after the first hundred thousand asks. */
#include <arpa/inet.h>
#include <netinet/in.h>
#include <netinet/tcp.h>
#include <stdio.h>
#include <stdlib.h>
#include <string.h>
#include <sys/socket.h>
#include <time.h>
#include <unistd.h>

#include "zeovalki.h"

enum { KEYS = 1000, WARM = 100000, AHEAD = 64 };

/* Of each key, the version of the last fetch, and the oldest that an answer may have. */
static long fetched[KEYS], oldest[KEYS];

static void stop(const char *why)
{
    fprintf(stderr, "%s\n", why);
    exit(1);
}

static int connected(uint16_t port)
{
    struct sockaddr_in address = {.sin_family = AF_INET, .sin_port = htons(port)};
    int link = socket(AF_INET, SOCK_STREAM, 0);
    int at_once = 1;
    address.sin_addr.s_addr = htonl(INADDR_LOOPBACK);
    if (link < 0 || connect(link, (struct sockaddr *)&address, sizeof address) != 0) {
        stop("no connection");
    }
    setsockopt(link, IPPROTO_TCP, TCP_NODELAY, &at_once, sizeof at_once);
    return link;
}

static void send_all(int link, const uint8_t *bytes, size_t size)
{
    while (size > 0) {
        ssize_t sent = send(link, bytes, size, 0);
        if (sent <= 0) {
            stop("the connection is lost");
        }
        bytes += sent;
        size -= (size_t)sent;
    }
}

/* A key of an invalidation: the next answer is of the write that it tells of, or of a later one. */
static void on_invalidated(const char *key)
{
    int at = atoi(key + strlen("key:"));
    oldest[at] = fetched[at] + 1;
}

/* Reads the lines of what the server sends, for the keys of its invalidations. */
static void scan(const uint8_t *bytes, size_t size)
{
    static char line[64];
    static size_t used;
    static int names, keys;
    for (size_t at = 0; at < size; at++) {
        if (bytes[at] != '\n') {
            line[used < sizeof line - 1 ? used++ : used] = (char)bytes[at];
            continue;
        }
        line[used > 0 ? used - 1 : 0] = '\0';
        used = 0;
        if (strcmp(line, "invalidate") == 0) {
            names = 1;
        } else if (names && line[0] == '*') {
            keys = atoi(line + 1);
            names = 0;
        } else if (keys > 0 && line[0] != '$') {
            on_invalidated(line);
            keys--;
        }
    }
}

static void send_waiting(int link, zeovalki_client *client)
{
    uint8_t bytes[4096];
    while (zeovalki_take_out(client, sizeof bytes) == ZEOVALKI_BYTES) {
        send_all(link, bytes, (size_t)zeovalki_answer(client, bytes, sizeof bytes));
    }
}

/* Reads what has arrived; with 0 for the flags it waits for some. */
static void receive(int link, zeovalki_client *client, int flags)
{
    uint8_t bytes[4096];
    ssize_t received;
    while ((received = recv(link, bytes, sizeof bytes, flags)) > 0) {
        scan(bytes, (size_t)received);
        if (zeovalki_feed(client, bytes, (size_t)received) != ZEOVALKI_DONE) {
            stop("no memory");
        }
        flags = MSG_DONTWAIT;
    }
    if (received == 0) {
        stop("the connection is lost");
    }
}

/* A version as it stands in an answer; 0 for nil. */
static long version(zeovalki_client *client)
{
    uint8_t answer[64];
    uint64_t size = zeovalki_answer(client, answer, sizeof answer - 1);
    if (size > sizeof answer - 1) {
        stop("an answer that is too long");
    }
    answer[size] = '\0';
    const char *number = strstr((const char *)answer, "\r\n");
    return answer[0] == '_' || number == NULL ? 0 : atol(number + 2);
}

/* Asks for a key: whether it is a hit. */
static int ask(int link, zeovalki_client *client, int key)
{
    char request[64];
    size_t size = (size_t)snprintf(request, sizeof request, "GET key:%d\r\n", key);
    receive(link, client, MSG_DONTWAIT);
    zeovalki_status status;
    while ((status = zeovalki_ask(client, (const uint8_t *)request, size)) == ZEOVALKI_NOT_READY) {
        send_waiting(link, client);
        receive(link, client, 0);
    }
    int is_hit = status == ZEOVALKI_HIT;
    if (status == ZEOVALKI_SENT) {
        uint64_t number = zeovalki_number(client);
        send_waiting(link, client);
        while ((status = zeovalki_poll(client, number)) == ZEOVALKI_NOT_YET) {
            receive(link, client, 0);
        }
    }
    if (status != ZEOVALKI_HIT && status != ZEOVALKI_REPLY) {
        fprintf(stderr, "status %llu\n", (unsigned long long)status);
        exit(1);
    }
    long told = version(client);
    if (told < oldest[key]) {
        fprintf(stderr, "key:%d is %ld and was invalidated at %ld\n", key, told, oldest[key]);
        exit(1);
    }
    fetched[key] = is_hit ? fetched[key] : told;
    return is_hit;
}

/* Changes a key, by a connection that answers up to so many commands later. */
static void change(int link, int key)
{
    static int awaited;
    char request[64];
    size_t size = (size_t)snprintf(request, sizeof request, "INCR key:%d\r\n", key);
    send_all(link, (const uint8_t *)request, size);
    for (awaited++; awaited >= AHEAD;) {
        uint8_t replies[4096];
        ssize_t received = recv(link, replies, sizeof replies, 0);
        if (received <= 0) {
            stop("the writer's connection is lost");
        }
        for (ssize_t at = 0; at < received; at++) {
            awaited -= replies[at] == '\n';
        }
    }
}

/* The memory that the process has, in pages. */
static long resident(void)
{
    long all = 0, pages = 0;
    FILE *statm = fopen("/proc/self/statm", "r");
    if (statm == NULL || fscanf(statm, "%ld %ld", &all, &pages) != 2) {
        stop("no /proc/self/statm");
    }
    fclose(statm);
    return pages;
}

static uint32_t random_below(uint32_t most)
{
    static uint64_t state = 88172645463325252u;
    state ^= state << 13;
    state ^= state >> 7;
    state ^= state << 17;
    return (uint32_t)(state >> 32) % most;
}

int main(int count, char **words)
{
    if (count != 4) {
        stop("usage: library_soak PORT HITS FETCHES");
    }
    int link = connected((uint16_t)atoi(words[1])), writer = connected((uint16_t)atoi(words[1]));
    uint64_t hits = strtoull(words[2], NULL, 10), fetches = strtoull(words[3], NULL, 10);
    uint32_t each = (uint32_t)(hits / fetches + 1);
    zeovalki_client *client = NULL;
    /* with a bound, for which times are kept, but none that is ever reached */
    zeovalki_options options = {.capacity = KEYS, .max_age = UINT64_MAX};
    if (zeovalki_new(&options, &client) != ZEOVALKI_DONE) {
        stop("no memory");
    }
    zeovalki_counts counts = {0};
    long first = 0;
    time_t began = time(NULL);
    for (uint64_t asks = 1; counts.hits < hits || counts.misses < fetches; asks++) {
        if (random_below(each) == 0) {
            change(writer, (int)random_below(KEYS));
        }
        zeovalki_time(client, asks);
        ask(link, client, (int)random_below(KEYS));
        if (asks % WARM == 0) {
            counts.hits = zeovalki_count(client, ZEOVALKI_HITS);
            counts.misses = zeovalki_count(client, ZEOVALKI_MISSES);
            first = first == 0 ? resident() : first;
        }
    }
    long last = resident();
    zeovalki_stats(client, &counts);
    printf("C: %llu hits, %llu fetches, %llu invalidations in %ld s; %ld pages, and %ld at first\n",
           (unsigned long long)counts.hits, (unsigned long long)counts.misses,
           (unsigned long long)counts.invalidations, (long)(time(NULL) - began), last, first);
    zeovalki_free(client);
    return last * 100 > first * 105;
}
