/* A profile page that is shown 1,000 times, while another connection changes the profile ten times.
 *
 *     tools/build_library
 *     cc -Iinclude -o out/profile_page examples/library/profile_page.c out/libzeovalki.a
 *     out/profile_page 6379
 */
#include <arpa/inet.h>
#include <netinet/in.h>
#include <netinet/tcp.h>
#include <stdio.h>
#include <stdlib.h>
#include <string.h>
#include <sys/socket.h>
#include <unistd.h>

#include "zeovalki.h"

static const char PROFILE[] = "HGETALL profile:7\r\n";
static const char VISIT[] = "HINCRBY profile:7 visits 1\r\n";

static void stop(const char *why)
{
    fprintf(stderr, "%s\n", why);
    exit(1);
}

static int connected(uint16_t port)
{
    struct sockaddr_in address = {.sin_family = AF_INET, .sin_port = htons(port)};
    int link = socket(AF_INET, SOCK_STREAM, 0);
    int at_once = 1;
    address.sin_addr.s_addr = htonl(INADDR_LOOPBACK);
    if (link < 0 || connect(link, (struct sockaddr *)&address, sizeof address) != 0) {
        stop("no connection");
    }
    setsockopt(link, IPPROTO_TCP, TCP_NODELAY, &at_once, sizeof at_once);
    return link;
}

static void send_all(int link, const uint8_t *bytes, size_t size)
{
    while (size > 0) {
        ssize_t sent = send(link, bytes, size, 0);
        if (sent <= 0) {
            stop("the connection is lost");
        }
        bytes += sent;
        size -= (size_t)sent;
    }
}

/* Sends what waits to be sent. */
static void send_waiting(int link, zeovalki_client *client)
{
    uint8_t bytes[4096];
    while (zeovalki_take_out(client, sizeof bytes) == ZEOVALKI_BYTES) {
        send_all(link, bytes, (size_t)zeovalki_answer(client, bytes, sizeof bytes));
    }
}

/* Reads what has arrived; with 0 for the flags it waits for some. */
static void receive(int link, zeovalki_client *client, int flags)
{
    uint8_t bytes[4096];
    ssize_t received = recv(link, bytes, sizeof bytes, flags);
    if (received == 0) {
        stop("the connection is lost");
    }
    if (received > 0) {
        zeovalki_feed(client, bytes, (size_t)received);
    }
}

/* Whether the page is shown from the cache; else its profile comes from the server. */
static int show_page(int link, zeovalki_client *client)
{
    zeovalki_status status;
    receive(link, client, MSG_DONTWAIT);
    while ((status = zeovalki_ask(client, (const uint8_t *)PROFILE, sizeof PROFILE - 1))
           == ZEOVALKI_NOT_READY) {
        send_waiting(link, client);
        receive(link, client, 0);
    }
    if (status == ZEOVALKI_HIT) {
        return 1;
    }
    if (status != ZEOVALKI_SENT) {
        stop("the client has ended");
    }
    uint64_t number = zeovalki_number(client);
    send_waiting(link, client);
    while (zeovalki_poll(client, number) == ZEOVALKI_NOT_YET) {
        receive(link, client, 0);
    }
    return 0;
}

int main(int count, char **words)
{
    uint16_t port = (uint16_t)(count > 1 ? atoi(words[1]) : 6379);
    int link = connected(port), writer = connected(port), hits = 0;
    uint8_t reply[64], profile[4096];
    zeovalki_client *client = NULL;
    zeovalki_options options = {.capacity = 1000};
    if (zeovalki_new(&options, &client) != ZEOVALKI_DONE) {
        stop("no memory");
    }
    for (int shown = 0; shown < 1000; shown++) {
        if (shown % 100 == 50) {
            send_all(writer, (const uint8_t *)VISIT, sizeof VISIT - 1);
            if (recv(writer, reply, sizeof reply, 0) <= 0) {
                stop("the writer's connection is lost");
            }
        }
        hits += show_page(link, client);
    }
    size_t size = (size_t)zeovalki_answer(client, profile, sizeof profile);
    printf("%d pages from the cache, %d from the server; the last, in RESP3:\n%.*s", hits,
           1000 - hits, (int)(size < sizeof profile ? size : 0), (const char *)profile);
    zeovalki_free(client);
    close(writer);
    close(link);
    return 0;
}
