/* Plays a recorded dialogue on a client of the library: library_test FILE PIECE. What the server
 * sends is handed in by pieces of that size, 0 for all at once. Each answer is taken with too
 * little room first. It ends with 1 where a call tells anything else than the dialogue says. */
#include <stdio.h>
#include <stdlib.h>
#include <string.h>

#include "zeovalki.h"

enum { LINE_MAX_SIZE = 4096 };

struct bytes {
    uint8_t *at;
    size_t size;
};

struct told {
    uint64_t status;
    uint64_t number;
    struct bytes answer;
};

static void stop(const char *why)
{
    fprintf(stderr, "%s\n", why);
    exit(2);
}

static uint8_t *block(size_t size)
{
    uint8_t *at = malloc(size == 0 ? 1 : size);
    if (at == NULL) {
        stop("no memory");
    }
    return at;
}

static uint8_t unescaped(char letter)
{
    switch (letter) {
    case 'r':
        return '\r';
    case 'n':
        return '\n';
    case 's':
        return ' ';
    default:
        return (uint8_t)letter;
    }
}

/* The bytes of a printed form, in a block of just their size. */
static struct bytes read_bytes(const char *text)
{
    struct bytes read = {block(strlen(text)), 0};
    if (strcmp(text, "-") == 0) {
        return read;
    }
    for (; *text != '\0'; text++) {
        read.at[read.size++] = *text == '\\' ? unescaped(*++text) : (uint8_t)*text;
    }
    struct bytes exact = {block(read.size), read.size};
    memcpy(exact.at, read.at, read.size);
    free(read.at);
    return exact;
}

static struct bytes answer_of(zeovalki_client *client)
{
    uint8_t none[1];
    size_t size = (size_t)zeovalki_answer(client, none, 0);
    struct bytes answer = {block(size), size};
    if (size > 0) {
        uint8_t *small = block(size - 1);
        memset(small, 0xAA, size - 1);
        if (zeovalki_answer(client, small, size - 1) != size) {
            stop("a size that changes");
        }
        for (size_t at = 0; at + 1 < size; at++) {
            if (small[at] != 0xAA) {
                stop("an answer without room for it was copied");
            }
        }
        free(small);
    }
    if (zeovalki_answer(client, answer.at, size) != size) {
        stop("a size that changes");
    }
    return answer;
}

static zeovalki_status feed(zeovalki_client *client, struct bytes bytes, size_t piece)
{
    size_t step = piece == 0 ? bytes.size : piece;
    zeovalki_status status = ZEOVALKI_DONE;
    for (size_t at = 0; at < bytes.size; at += step) {
        size_t left = bytes.size - at;
        status = zeovalki_feed(client, bytes.at + at, left < step ? left : step);
    }
    return status;
}

static struct told call(zeovalki_client *client, const char *verb, const char *argument,
                        size_t piece)
{
    struct told told = {0, 0, {NULL, 0}};
    struct bytes bytes = read_bytes(argument);
    if (strcmp(verb, "ask") == 0) {
        told.status = zeovalki_ask(client, bytes.at, bytes.size);
    } else if (strcmp(verb, "send") == 0) {
        told.status = zeovalki_send(client, bytes.at, bytes.size);
    } else if (strcmp(verb, "feed") == 0) {
        told.status = feed(client, bytes, piece);
    } else if (strcmp(verb, "poll") == 0) {
        told.status = zeovalki_poll(client, strtoull(argument, NULL, 10));
    } else if (strcmp(verb, "take") == 0) {
        told.status = zeovalki_take_out(client, strtoull(argument, NULL, 10));
    } else if (strcmp(verb, "time") == 0) {
        told.status = zeovalki_time(client, strtoull(argument, NULL, 10));
    } else if (strcmp(verb, "end") == 0) {
        told.status = zeovalki_end(client);
    } else if (strcmp(verb, "ended") == 0) {
        told.status = zeovalki_ended(client);
    } else if (strcmp(verb, "count") == 0) {
        told.status = zeovalki_count(client, strtoull(argument, NULL, 10));
    } else if (strcmp(verb, "close") == 0) {
        told.status = zeovalki_close(client);
    } else {
        stop("no such call");
    }
    free(bytes.at);
    if (strcmp(verb, "ended") != 0 && strcmp(verb, "count") != 0) {
        told.number = zeovalki_number(client);
        told.answer = answer_of(client);
    } else {
        told.answer.at = block(0);
    }
    return told;
}

static int is_told(struct told told, uint64_t status, uint64_t number, const char *answer)
{
    struct bytes wanted = read_bytes(answer);
    int same = told.status == status && told.number == number && told.answer.size == wanted.size
               && memcmp(told.answer.at, wanted.at, wanted.size) == 0;
    free(wanted.at);
    return same;
}

static int play(FILE *dialogue, zeovalki_client *client, size_t piece)
{
    char line[LINE_MAX_SIZE];
    int failed = 0;
    for (int number = 1; fgets(line, sizeof line, dialogue) != NULL; number++) {
        char verb[16], argument[2048], answer[1024];
        unsigned long long status, told_number;
        if (line[0] == '#') {
            continue;
        }
        if (sscanf(line, "%15s %2047s %llu %llu %1023s", verb, argument, &status, &told_number,
                   answer)
            != 5) {
            stop("a line that is no call");
        }
        struct told told = call(client, verb, argument, piece);
        if (!is_told(told, status, told_number, answer)) {
            fprintf(stderr, "line %d tells status %llu, number %llu and `%.*s`\n", number,
                    (unsigned long long)told.status, (unsigned long long)told.number,
                    (int)told.answer.size, (const char *)told.answer.at);
            failed = 1;
        }
        free(told.answer.at);
    }
    return failed;
}

/* A client by the first lines of a dialogue, each an option and its value. */
static zeovalki_client *make(FILE *dialogue)
{
    zeovalki_options options = {.capacity = 100};
    struct bytes prefixes = {block(0), 0};
    char name[16], value[1024];
    long at = 0;
    while (fscanf(dialogue, "%15s %1023s\n", name, value) == 2) {
        if (strcmp(name, "max_age") == 0) {
            options.max_age = strtoull(value, NULL, 10);
        } else if (strcmp(name, "tracking") == 0) {
            options.tracking = strtoull(value, NULL, 10);
        } else if (strcmp(name, "noloop") == 0) {
            options.noloop = strtoull(value, NULL, 10);
        } else if (strcmp(name, "prefixes") == 0) {
            free(prefixes.at);
            prefixes = read_bytes(value);
        } else {
            break;
        }
        at = ftell(dialogue);
    }
    fseek(dialogue, at, SEEK_SET);
    zeovalki_client *client = NULL;
    if (zeovalki_new_with_prefixes(&options, prefixes.at, prefixes.size, &client)
        != ZEOVALKI_DONE) {
        stop("no client");
    }
    free(prefixes.at);
    return client;
}

/* Options of which one is wrong, and what is told of it. */
static void refuse_options(void)
{
    static const struct {
        zeovalki_status told;
        const char *prefixes;
        zeovalki_options options;
    } rows[] = {
        {ZEOVALKI_BAD_LIMIT, "", {.capacity = 0}},
        {ZEOVALKI_BAD_LIMIT, "", {.capacity = 1000001}},
        {ZEOVALKI_BAD_TRACKING, "", {.capacity = 1, .tracking = 4}},
        {ZEOVALKI_BAD_TRACKING, "", {.capacity = 1, .tracking = 4, .noloop = 2}},
        {ZEOVALKI_BAD_NOLOOP, "", {.capacity = 1, .noloop = 2}},
        {ZEOVALKI_BAD_RESERVED, "", {.capacity = 1, .reserved = {1, 0, 0, 0}}},
        {ZEOVALKI_BAD_RESERVED, "", {.capacity = 1, .reserved = {0, 0, 0, 1}}},
        {ZEOVALKI_BAD_PREFIXES, "a\r\n", {.capacity = 1}},
        {ZEOVALKI_BAD_PREFIXES, "a\r\n", {.capacity = 1, .tracking = 1}},
        {ZEOVALKI_BAD_PREFIXES, "a", {.capacity = 1, .tracking = 3}},
        {ZEOVALKI_BAD_PREFIXES, "*1\r\n$2\r\na\r\n", {.capacity = 1, .tracking = 3}},
        {ZEOVALKI_BAD_PREFIXES, "\r\n", {.capacity = 1, .tracking = 3}},
    };
    for (size_t at = 0; at < sizeof rows / sizeof rows[0]; at++) {
        const uint8_t *prefixes = (const uint8_t *)rows[at].prefixes;
        zeovalki_client *client = NULL;
        if (zeovalki_new_with_prefixes(&rows[at].options, prefixes, strlen(rows[at].prefixes),
                                       &client)
                != rows[at].told
            || client != NULL) {
            fprintf(stderr, "options in row %zu are taken\n", at);
            exit(2);
        }
    }
    zeovalki_client *client = NULL;
    if (zeovalki_new(&rows[0].options, &client) != ZEOVALKI_BAD_LIMIT || client != NULL) {
        stop("no capacity is taken");
    }
}

int main(int count, char **words)
{
    if (count != 3) {
        stop("usage: library_test FILE PIECE");
    }
    FILE *dialogue = fopen(words[1], "r");
    if (dialogue == NULL) {
        stop("no such dialogue");
    }
    refuse_options();
    zeovalki_client *client = make(dialogue);
    int failed = play(dialogue, client, (size_t)strtoull(words[2], NULL, 10));
    zeovalki_counts counts;
    zeovalki_stats(client, &counts);
    if (counts.hits != zeovalki_count(client, ZEOVALKI_HITS)
        || counts.bytes != zeovalki_count(client, ZEOVALKI_BYTES_HELD)
        || zeovalki_count(client, 5) != 0) {
        stop("counts that differ");
    }
    zeovalki_free(client);
    fclose(dialogue);
    return failed;
}
