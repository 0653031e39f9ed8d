/*
 * A client that asks for one catalog again and again, on connections that are kept, and tells how long it took.
 *
 *     load PORT CONNECTIONS EACH NODE FACTS
 *
 * Each of 1 to 64 connections sends EACH requests, 1 to 1,024 (a connection of `serve` is answered no oftener), one after another, with
 * the bytes of the file FACTS as the node's facts. Everything is done by one thread, so that the client takes little of the machine. It
 * prints a line: requests a second, and the time of a request in microseconds that 50, 99 and 99.9 of a hundred did not pass, and the
 * longest. An answer other than 200, or a connection that ends early, ends it with 1. `bench/serve` builds and runs it.
 */
#define _GNU_SOURCE
#include <arpa/inet.h>
#include <errno.h>
#include <fcntl.h>
#include <netinet/tcp.h>
#include <poll.h>
#include <stdio.h>
#include <stdlib.h>
#include <string.h>
#include <sys/socket.h>
#include <time.h>
#include <unistd.h>

enum { MOST_CONNECTIONS = 64, MOST_EACH = 1024, HEAD = 8192 };

struct connection {
    int socket;
    int left;          /* requests that are not answered yet */
    size_t sent;       /* bytes of the request in hand */
    int64_t begun;     /* when it was begun */
    char head[HEAD];   /* the answer, until its head is whole */
    size_t size;
    int64_t body;      /* bytes of the body that are to come, or -1 before the head is whole */
};

static char *request;
static size_t request_size;
static int64_t *took;
static size_t answered;

static void fail(const char *what) {
    fprintf(stderr, "load: %s%s%s\n", what, errno ? ": " : "", errno ? strerror(errno) : "");
    exit(1);
}

static int64_t now(void) {
    struct timespec at;
    clock_gettime(CLOCK_MONOTONIC, &at);
    return (int64_t)at.tv_sec * 1000000000 + at.tv_nsec;
}

static long number(const char *text, long most) {
    char *end;
    long it = strtol(text, &end, 10);
    errno = 0;
    if (*end != 0 || it < 1 || it > most) fail("usage: load PORT CONNECTIONS EACH NODE FACTS");
    return it;
}

static void make_request(const char *node, const char *path) {
    FILE *file = fopen(path, "rb");
    if (!file || fseek(file, 0, SEEK_END)) fail(path);
    size_t size = (size_t)ftell(file);
    rewind(file);
    request = malloc(size + 1024);
    if (!request) fail("memory");
    request_size = (size_t)snprintf(request, 1024, "POST /catalog/%.255s HTTP/1.1\r\nHost: 127.0.0.1\r\nContent-Length: %zu\r\n\r\n", node, size);
    if (fread(request + request_size, 1, size, file) != size) fail(path);
    request_size += size;
    fclose(file);
}

static void open_connection(struct connection *it, int port, int each) {
    struct sockaddr_in place = {.sin_family = AF_INET, .sin_port = htons((uint16_t)port), .sin_addr.s_addr = htonl(INADDR_LOOPBACK)};
    int yes = 1;
    it->socket = socket(AF_INET, SOCK_STREAM, 0);
    if (it->socket < 0 || connect(it->socket, (struct sockaddr *)&place, sizeof place)) fail("connect");
    setsockopt(it->socket, IPPROTO_TCP, TCP_NODELAY, &yes, sizeof yes);
    fcntl(it->socket, F_SETFL, O_NONBLOCK);
    it->left = each;
}

static void begin(struct connection *it) {
    it->sent = it->size = 0;
    it->body = -1;
    it->begun = now();
}

static void send_more(struct connection *it) {
    ssize_t size = send(it->socket, request + it->sent, request_size - it->sent, MSG_NOSIGNAL);
    if (size < 0 && errno != EAGAIN && errno != EINTR) fail("send");
    if (size > 0) it->sent += (size_t)size;
}

/* The head is whole: how long the body is, of which `behind` bytes came with it. */
static void read_head(struct connection *it, size_t behind) {
    errno = 0;
    if (strncmp(it->head, "HTTP/1.1 200", 12)) {
        it->head[60] = 0;
        fail(it->head);
    }
    char *length = strcasestr(it->head, "\r\nContent-Length:");
    if (!length) fail("an answer without a length");
    it->body = strtoll(length + 17, NULL, 10) - (int64_t)behind;
}

static void take_more(struct connection *it) {
    static char rest[262144];
    char *into = it->body < 0 ? it->head + it->size : rest;
    ssize_t size = recv(it->socket, into, it->body < 0 ? HEAD - 1 - it->size : sizeof rest, 0);
    if (size < 0 && (errno == EAGAIN || errno == EINTR)) return;
    errno = size == 0 ? 0 : errno;
    if (size <= 0) fail("a connection ended early");
    if (it->body >= 0) {
        it->body -= size;
    } else {
        it->size += (size_t)size;
        it->head[it->size] = 0;
        char *end = strstr(it->head, "\r\n\r\n");
        if (end) read_head(it, it->size - (size_t)(end + 4 - it->head));
        else if (it->size == HEAD - 1) fail("a head that is too long");
    }
    if (it->body == 0) {
        took[answered++] = now() - it->begun;
        if (--it->left > 0) begin(it);
        else close(it->socket);
    }
}

static int by_size(const void *a, const void *b) {
    int64_t x = *(const int64_t *)a, y = *(const int64_t *)b;
    return (x > y) - (x < y);
}

static double at(double part) {
    size_t index = (size_t)(part * (double)answered);
    return (double)took[index < answered ? index : answered - 1] / 1000;
}

int main(int count, char **words) {
    static struct connection all[MOST_CONNECTIONS];
    struct pollfd polled[MOST_CONNECTIONS];
    if (count != 6) fail("usage: load PORT CONNECTIONS EACH NODE FACTS");
    int port = (int)number(words[1], 65535), connections = (int)number(words[2], MOST_CONNECTIONS), each = (int)number(words[3], MOST_EACH);
    make_request(words[4], words[5]);
    took = calloc((size_t)connections * (size_t)each, sizeof *took);
    if (!took) fail("memory");
    for (int i = 0; i < connections; i++) open_connection(&all[i], port, each);
    int64_t begun = now();
    for (int i = 0; i < connections; i++) begin(&all[i]);
    while (answered < (size_t)connections * (size_t)each) {
        for (int i = 0; i < connections; i++) {
            polled[i].fd = all[i].left > 0 ? all[i].socket : -1;
            polled[i].events = all[i].sent < request_size ? POLLOUT : POLLIN;
        }
        if (poll(polled, (nfds_t)connections, 60000) <= 0 && errno != EINTR) fail("no answer within a minute");
        for (int i = 0; i < connections; i++) {
            if (polled[i].fd < 0 || !polled[i].revents) continue;
            if (all[i].sent < request_size) send_more(&all[i]);
            else take_more(&all[i]);
        }
    }
    double seconds = (double)(now() - begun) / 1e9;
    qsort(took, answered, sizeof *took, by_size);
    printf("%.0f %.0f %.0f %.0f %.0f\n", (double)answered / seconds, at(0.5), at(0.99), at(0.999), at(1));
    return 0;
}
