// A POP3 server without a maildrop: it answers whoever asks as the service would, but for the number of messages, which is
// its own. It is what the service is measured beside. At its port it serves all connections from one epoll loop, at the next one from a thread for each.
// Arguments: its port, the octets of a message, and how many messages there are.
#define _GNU_SOURCE
#include <arpa/inet.h>
#include <errno.h>
#include <netinet/tcp.h>
#include <pthread.h>
#include <stdio.h>
#include <stdlib.h>
#include <string.h>
#include <strings.h>
#include <sys/epoll.h>
#include <sys/resource.h>
#include <sys/socket.h>
#include <unistd.h>

enum { LINE = 512, EVENTS = 256 };

struct client {
    int fd;
    size_t held;      // bytes of a line that has not ended
    char line[LINE];
    char *out;        // what is still to be written
    size_t out_start, out_end, out_room;
    int closes;
};

static char *message;
static size_t message_size;
static char ready[128];

static void put(struct client *c, const char *bytes, size_t count) {
    if (c->out_end + count > c->out_room) {
        c->out_room = (c->out_end + count) * 2;
        c->out = realloc(c->out, c->out_room);
        if (!c->out) abort();
    }
    memcpy(c->out + c->out_end, bytes, count);
    c->out_end += count;
}

static void say(struct client *c, const char *text) { put(c, text, strlen(text)); }

static void answer(struct client *c, const char *line) {
    if (!strncasecmp(line, "USER", 4)) say(c, "+OK send PASS\r\n");
    else if (!strncasecmp(line, "PASS", 4)) say(c, ready);
    else if (!strncasecmp(line, "STAT", 4)) say(c, "+OK 0 0\r\n");
    else if (!strncasecmp(line, "NOOP", 4)) say(c, "+OK\r\n");
    else if (!strncasecmp(line, "RETR", 4)) put(c, message, message_size);
    else if (!strncasecmp(line, "QUIT", 4)) { say(c, "+OK signing off\r\n"); c->closes = 1; }
    else say(c, "-ERR unknown command\r\n");
}

// Writes what it can. Gives whether the client is still there.
static int flush(struct client *c) {
    while (c->out_start < c->out_end) {
        ssize_t n = send(c->fd, c->out + c->out_start, c->out_end - c->out_start, MSG_NOSIGNAL);
        if (n < 0) return errno == EAGAIN;
        c->out_start += (size_t)n;
    }
    c->out_start = c->out_end = 0;
    return !c->closes;
}

static int hear(struct client *c) {
    char bytes[4096];
    ssize_t n = recv(c->fd, bytes, sizeof bytes, 0);
    if (n < 0) return errno == EAGAIN;
    if (n == 0) return 0;
    for (ssize_t i = 0; i < n; i++) {
        if (c->held < LINE - 1) c->line[c->held++] = bytes[i];
        if (bytes[i] == '\n') {
            c->line[c->held] = 0;
            c->held = 0;
            answer(c, c->line);
        }
    }
    return flush(c);
}

static void forget(struct client *c) {
    close(c->fd);
    free(c->out);
    free(c);
}

static int listen_at(int port, int flags) {
    int listener = socket(AF_INET, SOCK_STREAM | flags, 0), one = 1;
    setsockopt(listener, SOL_SOCKET, SO_REUSEADDR, &one, sizeof one);
    struct sockaddr_in here = {.sin_family = AF_INET, .sin_port = htons((unsigned short)port),
                               .sin_addr.s_addr = htonl(INADDR_LOOPBACK)};
    if (bind(listener, (struct sockaddr *)&here, sizeof here) || listen(listener, 4096)) exit(1);
    return listener;
}

// The next client of a listener, which is greeted. None where none is there.
static struct client *greet(int listener, int flags) {
    int fd = accept4(listener, 0, 0, flags), one = 1;
    if (fd < 0) return 0;
    setsockopt(fd, IPPROTO_TCP, TCP_NODELAY, &one, sizeof one);
    struct client *c = calloc(1, sizeof *c);
    if (!c) abort();
    c->fd = fd;
    say(c, "+OK POP3 server ready <0123456789abcdef.1@localhost>\r\n");
    return c;
}

static void *serve_one(void *client) {
    struct client *c = client;
    if (flush(c)) while (hear(c)) {}
    forget(c);
    return 0;
}

static void *serve_by_threads(void *listener) {
    pthread_attr_t small;
    pthread_attr_init(&small);
    pthread_attr_setstacksize(&small, 65536);
    pthread_attr_setdetachstate(&small, PTHREAD_CREATE_DETACHED);
    for (;;) {
        struct client *c = greet(*(int *)listener, 0);
        pthread_t its;
        if (c && pthread_create(&its, &small, serve_one, c)) forget(c);
    }
}

static void serve_by_loop(int listener) {
    int loop = epoll_create1(0);
    struct epoll_event own = {.events = EPOLLIN, .data.ptr = 0}, got[EVENTS];
    epoll_ctl(loop, EPOLL_CTL_ADD, listener, &own);
    for (;;) {
        int n = epoll_wait(loop, got, EVENTS, -1);
        for (int i = 0; i < n; i++) {
            struct client *c = got[i].data.ptr;
            if (!c) {
                c = greet(listener, SOCK_NONBLOCK);
                struct epoll_event its = {.events = EPOLLIN | EPOLLOUT | EPOLLET, .data.ptr = c};
                if (c) epoll_ctl(loop, EPOLL_CTL_ADD, c->fd, &its);
                continue;
            }
            int stays = flush(c);
            if (stays && (got[i].events & (EPOLLIN | EPOLLHUP | EPOLLERR))) stays = hear(c);
            if (!stays) forget(c);
        }
    }
}

static void write_message(size_t octets, const char *count) {
    message = malloc(octets + 64);
    if (!message) abort();
    message_size = (size_t)sprintf(message, "+OK %zu octets\r\n", octets);
    for (size_t i = 0; i + 2 <= octets; i++) message[message_size++] = i % 72 == 70 ? '\r' : i % 72 == 71 ? '\n' : 'x';
    memcpy(message + message_size, "\r\n.\r\n", 5);
    message_size += 5;
    sprintf(ready, "+OK maildrop has %s messages (%zu octets)\r\n", count, octets * strtoul(count, 0, 10));
}

int main(int count, char **words) {
    if (count != 4) return 2;
    struct rlimit files = {65536, 65536};
    setrlimit(RLIMIT_NOFILE, &files);
    write_message(strtoul(words[2], 0, 10), words[3]);
    int port = atoi(words[1]), for_threads = listen_at(port + 1, 0);
    pthread_t others;
    if (pthread_create(&others, 0, serve_by_threads, &for_threads)) return 1;
    serve_by_loop(listen_at(port, SOCK_NONBLOCK));
}
