/* A client-side cache for Redis, for any event loop or thread.
 *
 * The library opens no socket and starts no thread. Its program carries the bytes: what
 * zeovalki_take_out answers goes to the server, and what the server sends goes in by zeovalki_feed,
 * all of it, in order, and in pieces of any size. docs/library.md tells what a user has to know.
 *
 * What the program has to keep, and nothing checks:
 *   - a client is what zeovalki_new wrote, and was not freed;
 *   - a client is one thread's at a time, and is used by no signal handler and by no forked child;
 *   - bytes and room are never NULL, also where their size is 0;
 *   - malloc, realloc and free come from one allocator, whose blocks are aligned to 16.
 */
#ifndef ZEOVALKI_H
#define ZEOVALKI_H

#include <stddef.h>
#include <stdint.h>

#ifdef __cplusplus
extern "C" {
#endif

typedef struct zeovalki_client zeovalki_client;

/* What a call tells. */
typedef uint64_t zeovalki_status;
enum {
    ZEOVALKI_DONE = 0,       /* there is nothing more to tell */
    ZEOVALKI_HIT = 1,        /* the answer is the value that is held; the number is its fetch's */
    ZEOVALKI_SENT = 2,       /* the command goes to the server; the number is its own */
    ZEOVALKI_NOT_YET = 3,    /* the reply is not there yet */
    ZEOVALKI_REPLY = 4,      /* the answer is the reply */
    ZEOVALKI_BYTES = 5,      /* the answer is bytes for the server */
    ZEOVALKI_QUIET = 6,      /* no bytes are to be sent */
    ZEOVALKI_ENDED = 7,      /* the link has ended; nothing is held any more */
    ZEOVALKI_NOT_READY = 8,  /* the server has not answered the set-up yet: feed, and ask again */
    ZEOVALKI_CONTROL = 9,    /* the command would change how the server serves this connection */
    ZEOVALKI_NO_NUMBER = 10, /* nobody waits for a reply of this number */
    ZEOVALKI_LOG_FULL = 11,  /* 2^64 - 1 calls and values were counted: it can't come in practice */
    ZEOVALKI_NO_MEMORY = 12, /* memory ran out; zeovalki_ended tells whether the link has ended */
    ZEOVALKI_NO_REQUEST = 13, /* the bytes begin with no whole command */
    ZEOVALKI_NO_QUERY = 14,  /* the command is no read that can be held: send it */
    ZEOVALKI_BAD_LIMIT = 15, /* the capacity is not 1 to 1,000,000 */
    ZEOVALKI_BAD_TRACKING = 16, /* there is no tracking of that number */
    ZEOVALKI_BAD_NOLOOP = 17,   /* noloop is neither 0 nor 1 */
    ZEOVALKI_BAD_PREFIXES = 18, /* prefixes without BCAST, or bytes that begin with no whole words */
    ZEOVALKI_BAD_RESERVED = 19, /* what is for options to come is not 0 */
};

/* How the server is to track what is read (the page of CLIENT TRACKING). */
enum {
    ZEOVALKI_TRACK_DEFAULT = 0, /* it remembers each key that was read */
    ZEOVALKI_TRACK_OPTIN = 1,   /* those of the reads that can be held: each goes behind a word */
    ZEOVALKI_TRACK_OPTOUT = 2,  /* likewise: a word goes before each read that can't be held */
    ZEOVALKI_TRACK_BCAST = 3,   /* it remembers none, and tells of each key with a prefix */
};

/* What a client is made of. Set all to 0 (`zeovalki_options options = {0};`), then what is wanted:
 * a later version may make an option of a word of `reserved`, and at its 0 does what this one does.
 */
typedef struct zeovalki_options {
    uint64_t capacity;    /* at most so many keys are held: 1 to 1,000,000 */
    uint64_t max_age;     /* what was fetched longer ago is fetched anew, by the times that
                             zeovalki_time tells, in any unit; 0 is no bound */
    uint64_t tracking;    /* one of ZEOVALKI_TRACK_.. */
    uint64_t noloop;      /* 1: the server does not tell of this connection's own writes; else 0 */
    uint64_t reserved[4]; /* 0 */
} zeovalki_options;

/* Makes a client. DONE, and *client points to one that has done nothing yet, whose first bytes for
 * the server are its set-up; or the first of BAD_LIMIT, BAD_TRACKING, BAD_NOLOOP and BAD_RESERVED
 * that is so, and so exactly where the header says; or NO_MEMORY. Where it is not DONE, *client is as
 * before. *client has a value at the call (NULL, say), which is written over and not freed. The
 * options are read in the call alone. */
zeovalki_status zeovalki_new(const zeovalki_options *options, zeovalki_client **client);

/* As zeovalki_new, with prefixes for BCAST, written as a command is: a line, "user: object:\r\n", or
 * for any bytes "*2\r\n$5\r\nuser:\r\n$7\r\nobject:\r\n". What stands behind that is not read, and
 * no bytes are no prefixes: then the server tells of every key. Keys with none of the prefixes are
 * fetched each time. It may also tell BAD_PREFIXES, last. A server refuses prefixes of which one
 * begins with another one: then the link ends by its answer to the set-up. */
zeovalki_status zeovalki_new_with_prefixes(const zeovalki_options *options, const uint8_t *prefixes,
                                           size_t size, zeovalki_client **client);

/* The time of the asks that follow, of a client with a bound: 0 until one is told. A time before the
 * latest counts as the latest. DONE, or ENDED after zeovalki_close. */
zeovalki_status zeovalki_time(zeovalki_client *client, uint64_t now);

/* What the server sent next. Each whole value in it is processed: replies, and invalidations. Bytes
 * that are no RESP, a malformed invalidation and a reply to nothing end the link.
 * DONE; or NO_MEMORY, and the link has ended. */
zeovalki_status zeovalki_feed(zeovalki_client *client, const uint8_t *bytes, size_t size);

/* The next bytes for the server, at most `most`: BYTES, QUIET, ENDED, LOG_FULL or NO_MEMORY. */
zeovalki_status zeovalki_take_out(zeovalki_client *client, uint64_t most);

/* Asks a read (GET, HGET and the like), written as it would be sent: "*2\r\n$3\r\nGET\r\n$3\r\nfoo\r\n",
 * or as a line, "GET foo\r\n". Only the first command of the bytes is read.
 * HIT; SENT; NO_QUERY, NO_REQUEST, NOT_READY, ENDED, LOG_FULL or NO_MEMORY. */
zeovalki_status zeovalki_ask(zeovalki_client *client, const uint8_t *request, size_t size);

/* Sends any other command, written likewise. What it may write is no longer held: the keys of a
 * command that the library knows, and each word of any other. CONTROL where its first word is one of
 * those that docs/library.md lists (SELECT, MULTI, SUBSCRIBE, AUTH and the like): nothing is sent.
 * SENT; CONTROL, NO_REQUEST, NOT_READY, ENDED, LOG_FULL or NO_MEMORY. */
zeovalki_status zeovalki_send(zeovalki_client *client, const uint8_t *request, size_t size);

/* The reply to the command of that number, which is told once.
 * REPLY; NOT_YET; ENDED where it can never come; NO_NUMBER; NO_MEMORY, and the link has ended. */
zeovalki_status zeovalki_poll(zeovalki_client *client, uint64_t number);

/* The connection is lost: what is held is let go. DONE. */
zeovalki_status zeovalki_end(zeovalki_client *client);

/* 1 where the link has ended, else 0. It changes nothing. */
uint64_t zeovalki_ended(zeovalki_client *client);

/* The number that the last call told, or 0. It changes nothing. */
uint64_t zeovalki_number(zeovalki_client *client);

/* What zeovalki_count counts. */
enum {
    ZEOVALKI_HITS = 0,          /* asks that were answered from the cache */
    ZEOVALKI_MISSES = 1,        /* asks that sent a fetch, those of what was too old among them */
    ZEOVALKI_INVALIDATIONS = 2, /* invalidations that the server sent, of a key, of several or of all */
    ZEOVALKI_KEYS = 3,          /* keys that are held */
    ZEOVALKI_BYTES_HELD = 4,    /* bytes of the queries and values that are held, as they are written */
};

/* The count of that name; 0 of any other name, and after zeovalki_close. KEYS and BYTES_HELD go over
 * all that is held, and are UINT64_MAX where memory runs out for that; the others take no time. It
 * changes nothing. */
uint64_t zeovalki_count(zeovalki_client *client, uint64_t name);

/* All of them at once. */
typedef struct zeovalki_counts {
    uint64_t hits;
    uint64_t misses;
    uint64_t invalidations;
    uint64_t keys;
    uint64_t bytes;
} zeovalki_counts;

static inline void zeovalki_stats(zeovalki_client *client, zeovalki_counts *counts)
{
    counts->hits = zeovalki_count(client, ZEOVALKI_HITS);
    counts->misses = zeovalki_count(client, ZEOVALKI_MISSES);
    counts->invalidations = zeovalki_count(client, ZEOVALKI_INVALIDATIONS);
    counts->keys = zeovalki_count(client, ZEOVALKI_KEYS);
    counts->bytes = zeovalki_count(client, ZEOVALKI_BYTES_HELD);
}

/* The size of the last call's answer, which is copied to `out` where `room` is enough for it. Where
 * it is not, nothing is copied. It changes nothing else, so it may be called again with more room.
 * The answer stands until the next call of the functions above; a value is written in RESP3. */
uint64_t zeovalki_answer(zeovalki_client *client, uint8_t *out, size_t room);

/* Lets go of all that a client has; zeovalki_free calls it. */
zeovalki_status zeovalki_close(zeovalki_client *client);

/* Of the library's own heap file: frees the block of a client that was closed. */
void rattle_dealloc(void *block);

/* Frees a client. */
static inline void zeovalki_free(zeovalki_client *client)
{
    if (client != NULL) {
        zeovalki_close(client);
        rattle_dealloc(client);
    }
}

#ifdef __cplusplus
}
#endif

#endif
