// Clients of a silt server, for measuring: each keeps one connection, sends lines, waits for their replies, and sends
// the next. Two threads share them, as those of redis-benchmark do, so that the other processors are left to the server.
//
//     cc -O2 -pthread -o clients bench/clients.c
//     ./clients PORT WRITERS READERS SECONDS V BURST MOST
//
// WRITERS connections, one at least, put values of V bytes under keys of their own, BURST lines in one write. READERS
// get these keys, one line at a time. All end after SECONDS, or when MOST puts are sent. It prints how many puts were
// accepted, how many gets had a reply, how many puts were refused, and how many milliseconds all of it took. For
// people, not for the gate: measure_server.sh calls it.
#include <arpa/inet.h>
#include <netinet/tcp.h>
#include <pthread.h>
#include <stdatomic.h>
#include <stdio.h>
#include <stdlib.h>
#include <string.h>
#include <sys/epoll.h>
#include <sys/socket.h>
#include <time.h>
#include <unistd.h>

enum { KEYS = 256, MOST_READ = 65536, MOST_EVENTS = 64, THREADS = 2 };

// A connection, and the lines that it sends next.
struct client {
    int number, is_writer, at;
    unsigned long turn;
    char *lines;
    size_t len;
    // How many replies are to come, and whether the next byte begins one.
    long waits;
    int is_first;
};

// A thread with its connections.
struct loop {
    pthread_t thread;
    int poll, busy;
};

static int port, value_len, writers;
static long burst, most, end;
static atomic_int done;
static atomic_long sent, accepted, found, refused;

static void fail(const char *words) {
    fprintf(stderr, "clients: %s\n", words);
    exit(1);
}

static int connected(void) {
    struct sockaddr_in to = {.sin_family = AF_INET, .sin_port = htons(port), .sin_addr.s_addr = htonl(INADDR_LOOPBACK)};
    int at = socket(AF_INET, SOCK_STREAM, 0), one = 1;
    setsockopt(at, IPPROTO_TCP, TCP_NODELAY, &one, sizeof one);
    if (at < 0 || connect(at, (struct sockaddr *)&to, sizeof to) != 0) fail("no connection");
    return at;
}

// Writes the line of a put, and returns its length.
static int put_line(char *line, int number, unsigned long turn) {
    static const char digits[] = "0123456789abcdef";
    int len = sprintf(line, "put =%d.%lu ", number, turn % KEYS);
    for (int i = 0; i < value_len; i++) {
        line[len++] = digits[(turn + i) >> 4 & 15];
        line[len++] = digits[(turn + i) & 15];
    }
    line[len++] = '\n';
    return len;
}

// Makes the lines that a client sends next: some puts, or one get of what a writer put.
static void make_lines(struct client *client) {
    client->len = 0;
    if (client->is_writer) {
        for (long i = 0; i < burst; i++) client->len += put_line(client->lines + client->len, client->number, client->turn++);
    } else {
        client->len = sprintf(client->lines, "get =%lu.%lu\n", client->turn % writers, client->turn * 7 % KEYS);
        client->turn++;
    }
}

// Sends a client's lines, and makes the next ones while the server works. A burst fits the buffers of the system.
static void send_lines(struct client *client) {
    client->waits = client->is_writer ? burst : 1;
    for (size_t at = 0; at < client->len;) {
        ssize_t count = write(client->at, client->lines + at, client->len - at);
        if (count <= 0) fail("a connection broke");
        at += count;
    }
    make_lines(client);
}

// Receives what came, and counts the replies.
static void receive(struct client *client) {
    char got[MOST_READ];
    ssize_t count = read(client->at, got, sizeof got);
    if (count <= 0) fail("a connection ended before its replies");
    for (ssize_t i = 0; i < count; i++) {
        if (client->is_first) {
            if (!client->is_writer) found += got[i] == 'v';
            else if (got[i] == 'a') accepted++;
            else refused++;
        }
        client->is_first = got[i] == '\n';
        client->waits -= client->is_first;
    }
}

static long milliseconds(void) {
    struct timespec now;
    clock_gettime(CLOCK_MONOTONIC, &now);
    return now.tv_sec * 1000 + now.tv_nsec / 1000000;
}

// Whether a client may send: the time is not over, and its puts are not too many.
static int may_send(struct client *client) {
    if (done || milliseconds() >= end) return 0;
    if (client->is_writer && atomic_fetch_add(&sent, burst) + burst > most) done = 1;
    return !done;
}

// Sends and receives until the time is over or enough puts are sent, and then what is still to come.
static void *run(void *of) {
    struct loop *loop = of;
    while (loop->busy > 0) {
        struct epoll_event events[MOST_EVENTS];
        int count = epoll_wait(loop->poll, events, MOST_EVENTS, -1);
        for (int i = 0; i < count; i++) {
            struct client *client = events[i].data.ptr;
            receive(client);
            if (client->waits > 0) continue;
            if (may_send(client)) send_lines(client);
            else loop->busy--;
        }
    }
    return NULL;
}

// Adds a client to a thread, and sends its first lines.
static void start(struct client *client, struct loop *loop) {
    struct epoll_event event = {.events = EPOLLIN, .data.ptr = client};
    epoll_ctl(loop->poll, EPOLL_CTL_ADD, client->at, &event);
    if (!may_send(client)) return;
    loop->busy++;
    send_lines(client);
}

int main(int count, char **words) {
    if (count != 8) {
        fprintf(stderr, "usage: clients PORT WRITERS READERS SECONDS V BURST MOST\n");
        return 2;
    }
    port = atoi(words[1]);
    writers = atoi(words[2]);
    int clients = writers + atoi(words[3]), seconds = atoi(words[4]);
    value_len = atoi(words[5]);
    burst = atol(words[6]);
    most = atol(words[7]);
    struct client *all = calloc(clients, sizeof *all);
    for (int i = 0; i < clients; i++) {
        all[i] = (struct client){.number = i, .is_writer = i < writers, .at = connected(), .is_first = 1};
        all[i].lines = malloc(burst * (64 + 2 * value_len));
        make_lines(&all[i]);
    }
    struct loop loops[THREADS] = {0};
    for (int i = 0; i < THREADS; i++) loops[i].poll = epoll_create1(0);
    long from = milliseconds();
    end = from + seconds * 1000;
    for (int i = 0; i < clients; i++) start(&all[i], &loops[i % THREADS]);
    for (int i = 0; i < THREADS; i++) pthread_create(&loops[i].thread, NULL, run, &loops[i]);
    for (int i = 0; i < THREADS; i++) pthread_join(loops[i].thread, NULL);
    long took = milliseconds() - from;
    if (took == 0) took = 1;
    printf("puts %ld gets %ld refused %ld milliseconds %ld\n", (long)accepted, (long)found, (long)refused, took);
    return 0;
}
