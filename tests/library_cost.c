/* What a hit costs: library_cost prints nanoseconds of the processor for values of 10, 1,000 and
 * 100,000 bytes, beside a copy of the bytes, and how much memory a hit's entry in the log takes; and
 * what sending a command of ten words costs, of one that the library knows and of one that it does
 * not know, whose words it lets go. */
#define _GNU_SOURCE
#include <stdio.h>
#include <stdlib.h>
#include <string.h>
#include <sys/resource.h>
#include <time.h>

#include "zeovalki.h"

enum { CALLS = 200000, MOST = 100000 };

static double seconds(void)
{
    struct timespec now;
    clock_gettime(CLOCK_PROCESS_CPUTIME_ID, &now);
    return (double)now.tv_sec + 1e-9 * (double)now.tv_nsec;
}

static long most_memory(void)
{
    struct rusage usage;
    getrusage(RUSAGE_SELF, &usage);
    return 1024 * usage.ru_maxrss;
}

static void feed(zeovalki_client *client, const char *text)
{
    zeovalki_feed(client, (const uint8_t *)text, strlen(text));
}

static void measure(size_t size)
{
    static const char GET[] = "*2\r\n$3\r\nGET\r\n$3\r\nfoo\r\n";
    static char value[MOST + 64];
    static uint8_t answer[MOST + 64], copy[MOST + 64];
    zeovalki_client *client = NULL;
    zeovalki_options options = {.capacity = 100};
    if (zeovalki_new(&options, &client) != ZEOVALKI_DONE) {
        exit(1);
    }
    feed(client, "%0\r\n+OK\r\n");
    zeovalki_ask(client, (const uint8_t *)GET, sizeof GET - 1);
    int head = sprintf(value, "$%zu\r\n", size);
    memset(value + head, 'x', size);
    strcpy(value + head + size, "\r\n");
    feed(client, value);
    long before = most_memory();
    double began = seconds();
    for (int call = 0; call < CALLS; call++) {
        if (zeovalki_ask(client, (const uint8_t *)GET, sizeof GET - 1) != ZEOVALKI_HIT) {
            exit(1);
        }
        zeovalki_answer(client, answer, sizeof answer);
    }
    double hit = seconds() - began;
    began = seconds();
    for (int call = 0; call < CALLS; call++) {
        memcpy(copy, answer, size);
        __asm__ volatile("" : : "r"(copy) : "memory");
    }
    double copied = seconds() - began;
    printf("a hit of %zu bytes: %.0f ns; a copy of them: %.0f ns; memory: %ld bytes a hit\n", size,
           1e9 * hit / CALLS, 1e9 * copied / CALLS, (most_memory() - before) / CALLS);
    zeovalki_free(client);
}

static double send_cost(const char *name)
{
    enum { ROUNDS = 200, SENDS = 500 };
    char command[256];
    static uint8_t out[1 << 20];
    static char replies[8 * SENDS];
    zeovalki_client *client = NULL;
    zeovalki_options options = {.capacity = 100000};
    if (zeovalki_new(&options, &client) != ZEOVALKI_DONE) {
        exit(1);
    }
    feed(client, "%0\r\n+OK\r\n");
    int size = sprintf(command, "%s key:1 key:2 key:3 key:4 key:5 key:6 key:7 key:8 key:9\r\n", name);
    for (int at = 0; at < SENDS; at++) {
        memcpy(replies + 5 * at, "+OK\r\n", 6);
    }
    double took = 0;
    for (int round = 0; round < ROUNDS; round++) {
        double began = seconds();
        for (int call = 0; call < SENDS; call++) {
            if (zeovalki_send(client, (const uint8_t *)command, (size_t)size) != ZEOVALKI_SENT) {
                exit(1);
            }
        }
        took += seconds() - began;
        uint64_t last = zeovalki_number(client);
        while (zeovalki_take_out(client, sizeof out) == ZEOVALKI_BYTES) {
        }
        feed(client, replies);
        for (uint64_t number = last + 1 - SENDS; number <= last; number++) {
            zeovalki_poll(client, number);
        }
    }
    zeovalki_free(client);
    return 1e9 * took / ROUNDS / SENDS;
}

int main(void)
{
    measure(10);
    measure(1000);
    measure(MOST);
    double known = send_cost("MGET"), unknown = send_cost("LPUSH");
    printf("a command of ten words: %.0f ns; one that is not known: %.0f ns\n", known, unknown);
    return 0;
}
