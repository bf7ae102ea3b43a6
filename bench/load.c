// Puts or gets many keys by several connections to a silt server, for measuring. Each connection has a thread of its own, which
// keeps two batches of lines on their way.
//
//     cc -O2 -pthread -o load bench/load.c
//     ./load PORT put|get CONNECTIONS KEYS V BATCH
//
// The keys are those of the numbers below KEYS, spread as digests are, and each connection takes its share of them in turn; a value
// has V bytes. It prints how many replies a second came, and fails if a reply is not `accepted N` or `value` with the value that was put.
#include <arpa/inet.h>
#include <netinet/tcp.h>
#include <pthread.h>
#include <stdint.h>
#include <stdio.h>
#include <stdlib.h>
#include <string.h>
#include <sys/socket.h>
#include <time.h>
#include <unistd.h>

enum { MOST_READ = 1 << 18 };

static int port, is_put;
static long connections, keys, value_len, batch;

// A connection: its socket, the next number to send and the next to be replied to, and what was read and not looked at yet.
struct client {
    pthread_t thread;
    int at;
    long sent, replied;
    char *lines, *read;
    size_t had;
};

static void fail(const char *words) {
    fprintf(stderr, "load: %s\n", words);
    exit(1);
}

// 64 bits that look as if they were drawn.
static uint64_t spread(uint64_t number) {
    number += 0x9e3779b97f4a7c15;
    number = (number ^ number >> 30) * 0xbf58476d1ce4e5b9;
    number = (number ^ number >> 27) * 0x94d049bb133111eb;
    return number ^ number >> 31;
}

static char *hex(char *to, uint64_t number, int digits) {
    for (int digit = digits - 1; digit >= 0; digit--) *to++ = "0123456789abcdef"[number >> 4 * digit & 15];
    return to;
}

// The value of a number, in digits: its bytes are all the same.
static char *value(char *to, long number) {
    for (long byte = 0; byte < value_len; byte++) to = hex(to, number & 255, 2);
    return to;
}

// The line of a number.
static char *line(char *to, long number) {
    uint64_t key = spread(number);
    to = stpcpy(to, is_put ? "put " : "get ");
    to = hex(hex(hex(to, key, 16), spread(key), 16), number, 8);
    if (is_put) to = value(stpcpy(to, " "), number);
    *to++ = '\n';
    return to;
}

// Sends the lines of one batch of the client's numbers, as many as are left.
static void send_batch(struct client *client) {
    char *end = client->lines;
    for (long count = 0; count < batch && client->sent < keys; count++, client->sent += connections) end = line(end, client->sent);
    for (char *at = client->lines; at < end;) {
        ssize_t moved = write(client->at, at, end - at);
        if (moved <= 0) fail("the connection broke");
        at += moved;
    }
}

// Looks at one reply without its line feed.
static void look(const char *reply, size_t len, long number) {
    char due[2 * 4096 + 16];
    if (is_put) {
        if (len < 9 || memcmp(reply, "accepted ", 9) != 0) fail(strndup(reply, len));
        return;
    }
    char *end = value(stpcpy(due, "value "), number);
    if (len != (size_t)(end - due) || memcmp(reply, due, len) != 0) fail(strndup(reply, len));
}

// Reads once, and looks at each whole reply.
static void take_replies(struct client *client) {
    ssize_t moved = read(client->at, client->read + client->had, MOST_READ - client->had);
    if (moved <= 0) fail("the connection broke");
    client->had += moved;
    char *from = client->read, *end = client->read + client->had, *feed;
    for (; (feed = memchr(from, '\n', end - from)); from = feed + 1, client->replied += connections) look(from, feed - from, client->replied);
    memmove(client->read, from, client->had = end - from);
}

static void *run(void *of) {
    struct client *client = of;
    client->lines = malloc(batch * (64 + 2 * value_len));
    client->read = malloc(MOST_READ);
    send_batch(client);
    while (client->replied < keys) {
        send_batch(client);
        while (client->replied < keys && client->sent - client->replied > batch * connections) take_replies(client);
        while (client->sent >= keys && client->replied < keys) take_replies(client);
    }
    return NULL;
}

static int connected(void) {
    struct sockaddr_in to = {.sin_family = AF_INET, .sin_port = htons(port), .sin_addr.s_addr = htonl(INADDR_LOOPBACK)};
    int at = socket(AF_INET, SOCK_STREAM, 0), one = 1;
    if (at < 0 || connect(at, (struct sockaddr *)&to, sizeof to) != 0) fail("no connection");
    setsockopt(at, IPPROTO_TCP, TCP_NODELAY, &one, sizeof one);
    return at;
}

static double now(void) {
    struct timespec time;
    clock_gettime(CLOCK_MONOTONIC, &time);
    return time.tv_sec + time.tv_nsec / 1e9;
}

int main(int count, char **words) {
    if (count != 7) return 2;
    port = atoi(words[1]), is_put = strcmp(words[2], "put") == 0;
    connections = atol(words[3]), keys = atol(words[4]), value_len = atol(words[5]), batch = atol(words[6]);
    if (connections < 1 || keys < 1 || value_len < 1 || value_len > 4096 || batch < 1) return 2;
    struct client *clients = calloc(connections, sizeof *clients);
    double start = now();
    for (long it = 0; it < connections; it++) {
        clients[it] = (struct client){.at = connected(), .sent = it, .replied = it};
        pthread_create(&clients[it].thread, NULL, run, &clients[it]);
    }
    for (long it = 0; it < connections; it++) pthread_join(clients[it].thread, NULL);
    printf("%.0f\n", keys / (now() - start));
}
