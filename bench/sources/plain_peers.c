// Three nodes that pass on the messages of Multi-Paxos commands over TCP on this machine, and decide nothing: what
// `serve --peer-port` and `serve --node` are measured beside. And the load generator for both of these.
//
// plain_peers plain processes|threads PORT CLIENTS SECONDS
//     The nodes are three processes, or three in one, and listen at PORT + 1 to PORT + 3. Each has a connection to every
//     node, itself too, a receiving thread for each connection that it takes, and a thread that hears messages. Clients are
//     threads of the nodes, from node 1 on in turn. Each makes one command after another.
// plain_peers load CONNECTIONS SECONDS NODE:PORT..
//     Each connection is to the operator's port of a node, from the first on in turn, and has messages of 100 octets
//     delivered to a user of its own, `u10` and so on. Each is a command; the next one is made when it is stored.
//
// Both print one line: the median time of a command in microseconds, the time that 99 of 100 stayed within, and the commands
// a second of all clients together. The first half second isn't counted.
//
// A command takes 12 messages, as there: its node sends Propose to all three, the leader, node 1, P2a to all three, each of
// them P2b to the leader, and the leader Decision to all three once it has two votes.
#define _GNU_SOURCE
#include <arpa/inet.h>
#include <netinet/tcp.h>
#include <pthread.h>
#include <signal.h>
#include <stdatomic.h>
#include <stdint.h>
#include <stdio.h>
#include <stdlib.h>
#include <string.h>
#include <sys/mman.h>
#include <sys/prctl.h>
#include <sys/socket.h>
#include <time.h>
#include <unistd.h>

enum { NODES = 3, CLIENTS = 64, BUCKETS = 100000, MESSAGES = 2000, PIECE = 65536 };
enum { PROPOSE = 1, P2A = 4, P2B = 5, DECISION = 6 };

// The bytes of a frame: a length of four bytes; version, kind, sender and addressee; the fields. A slot has 8 bytes, a
// ballot 9. A command is a name of 3 after its length, a ticket of 9, an operation's number, an empty key's length, and a
// text: how many lines in four bytes, and three lines of 14, 0 and 80 bytes, each after its length of four.
enum {
    HEADER = 4 + 4,
    COMMAND = 1 + 3 + 9 + 1 + 1 + 4 + 3 * 4 + 94,
    PROPOSE_SIZE = HEADER + 8 + COMMAND,
    P2A_SIZE = HEADER + 9 + 8 + COMMAND,
    P2B_SIZE = HEADER + 9 + 8 + 9,
    DECISION_SIZE = HEADER + 8 + COMMAND,
    LARGEST = P2A_SIZE,
};

static const size_t size_of[] = {[PROPOSE] = PROPOSE_SIZE, [P2A] = P2A_SIZE, [P2B] = P2B_SIZE, [DECISION] = DECISION_SIZE};

enum { WARMS_UP, COUNTS, ENDS };

// What all processes share: how far the run is, and how long commands took, in tenths of a microsecond up to 10 ms, for
// each client.
static struct shared {
    atomic_int phase, ready;
    atomic_uint done[CLIENTS];
    uint32_t times[CLIENTS][BUCKETS];
} *shared;

static void fail(const char *what) {
    perror(what);
    exit(1);
}

static uint64_t now(void) {
    struct timespec it;
    clock_gettime(CLOCK_MONOTONIC, &it);
    return (uint64_t)it.tv_sec * 1000000000 + (uint64_t)it.tv_nsec;
}

static void note(int client, uint64_t nanoseconds) {
    if (atomic_load_explicit(&shared->phase, memory_order_relaxed) != COUNTS) return;
    uint64_t bucket = nanoseconds / 100;
    shared->times[client][bucket < BUCKETS ? bucket : BUCKETS - 1]++;
    atomic_fetch_add_explicit(&shared->done[client], 1, memory_order_relaxed);
}

static void start(void *(*work)(void *), void *with) {
    pthread_t thread;
    if (pthread_create(&thread, 0, work, with)) fail("pthread_create");
    pthread_detach(thread);
}

static struct sockaddr_in place(int port) {
    return (struct sockaddr_in){.sin_family = AF_INET, .sin_port = htons((uint16_t)port), .sin_addr.s_addr = htonl(INADDR_LOOPBACK)};
}

static int connected(int port) {
    struct sockaddr_in there = place(port);
    int fd = socket(AF_INET, SOCK_STREAM, 0), one = 1;
    if (fd < 0 || connect(fd, (struct sockaddr *)&there, sizeof there)) fail("connect");
    setsockopt(fd, IPPROTO_TCP, TCP_NODELAY, &one, sizeof one);
    return fd;
}

static void send_all(int fd, const uint8_t *bytes, size_t count) {
    while (count) {
        ssize_t n = send(fd, bytes, count, MSG_NOSIGNAL);
        if (n <= 0 && atomic_load(&shared->phase) == ENDS) _exit(0);
        if (n <= 0) fail("send");
        bytes += n;
        count -= (size_t)n;
    }
}

struct message {
    uint8_t kind, from, client;
    uint32_t number;
};

struct buffer {
    uint8_t *bytes;
    size_t count, room;
};

struct inbox {
    pthread_mutex_t lock;
    pthread_cond_t came;
    struct message *items;
    size_t count, room;
};

struct waiter {
    pthread_mutex_t lock;
    pthread_cond_t came;
    uint32_t decided;
};

struct node {
    int me, listener, out[NODES];
    pthread_mutex_t out_lock[NODES];
    struct inbox inbox;
    struct waiter waiters[CLIENTS];
    uint32_t voted[CLIENTS];
    int votes[CLIENTS];
};

static struct node nodes[NODES];

static void add_frame(struct buffer *to, const struct message *it, int addressee) {
    size_t size = size_of[it->kind];
    if (to->count + size > to->room) {
        to->room = (to->count + size) * 2;
        to->bytes = realloc(to->bytes, to->room);
        if (!to->bytes) abort();
    }
    uint8_t *frame = to->bytes + to->count;
    uint32_t length = htonl((uint32_t)(size - 4));
    memset(frame, 'x', size);
    memcpy(frame, &length, 4);
    frame[4] = 2;
    frame[5] = it->kind;
    frame[6] = it->from;
    frame[7] = (uint8_t)addressee;
    frame[8] = it->client;
    memcpy(frame + 9, &it->number, 4);
    to->count += size;
}

static void send_to(struct node *node, int to, struct buffer *frames) {
    pthread_mutex_lock(&node->out_lock[to]);
    send_all(node->out[to], frames->bytes, frames->count);
    pthread_mutex_unlock(&node->out_lock[to]);
    frames->count = 0;
}

static void send_to_each(struct buffer *lanes, struct message it) {
    for (int to = 0; to < NODES; to++) add_frame(&lanes[to], &it, to);
}

static void hear(struct node *node, const struct message *it, struct buffer *lanes) {
    struct message answer = {.from = (uint8_t)node->me, .client = it->client, .number = it->number};
    switch (it->kind) {
    case PROPOSE:
        if (node->me) return;
        answer.kind = P2A;
        node->voted[it->client] = it->number;
        node->votes[it->client] = 0;
        send_to_each(lanes, answer);
        return;
    case P2A:
        answer.kind = P2B;
        add_frame(&lanes[it->from], &answer, it->from);
        return;
    case P2B:
        answer.kind = DECISION;
        if (node->voted[it->client] == it->number && ++node->votes[it->client] == NODES / 2 + 1) send_to_each(lanes, answer);
        return;
    case DECISION:
        if (it->client % NODES == node->me) {
            struct waiter *waiter = &node->waiters[it->client];
            pthread_mutex_lock(&waiter->lock);
            waiter->decided = it->number;
            pthread_cond_signal(&waiter->came);
            pthread_mutex_unlock(&waiter->lock);
        }
        return;
    }
}

static void *run_node(void *with) {
    struct node *node = with;
    struct message *items = 0;
    struct buffer lanes[NODES] = {0};
    size_t room = 0;
    for (;;) {
        pthread_mutex_lock(&node->inbox.lock);
        while (!node->inbox.count) pthread_cond_wait(&node->inbox.came, &node->inbox.lock);
        struct message *heard = node->inbox.items;
        size_t count = node->inbox.count, its_room = node->inbox.room;
        node->inbox.items = items;
        node->inbox.count = 0;
        node->inbox.room = room;
        pthread_mutex_unlock(&node->inbox.lock);
        for (size_t i = 0; i < count; i++) hear(node, &heard[i], lanes);
        for (int to = 0; to < NODES; to++)
            if (lanes[to].count) send_to(node, to, &lanes[to]);
        items = heard;
        room = its_room;
    }
}

struct receiver {
    struct node *node;
    int fd;
};

static void put_in(struct inbox *inbox, const struct message *items, size_t count) {
    pthread_mutex_lock(&inbox->lock);
    if (inbox->count + count > inbox->room) {
        inbox->room = (inbox->count + count) * 2;
        inbox->items = realloc(inbox->items, inbox->room * sizeof *items);
        if (!inbox->items) abort();
    }
    memcpy(inbox->items + inbox->count, items, count * sizeof *items);
    inbox->count += count;
    pthread_cond_signal(&inbox->came);
    pthread_mutex_unlock(&inbox->lock);
}

static void *run_receiver(void *with) {
    struct receiver *it = with;
    static _Thread_local uint8_t bytes[PIECE];
    static _Thread_local struct message items[PIECE / P2B_SIZE];
    size_t held = 0;
    for (;;) {
        ssize_t n = recv(it->fd, bytes + held, sizeof bytes - held, 0);
        if (n <= 0) return 0;
        held += (size_t)n;
        size_t at = 0, count = 0;
        while (held - at >= 4) {
            uint32_t length;
            memcpy(&length, bytes + at, 4);
            size_t size = ntohl(length) + 4;
            if (held - at < size) break;
            struct message *item = &items[count++];
            *item = (struct message){.kind = bytes[at + 5], .from = bytes[at + 6], .client = bytes[at + 8]};
            memcpy(&item->number, bytes + at + 9, 4);
            at += size;
        }
        if (count) put_in(&it->node->inbox, items, count);
        memmove(bytes, bytes + at, held - at);
        held -= at;
    }
}

static void *take_connections(void *with) {
    struct node *node = with;
    for (int i = 0; i < NODES; i++) {
        struct receiver *it = malloc(sizeof *it);
        if (!it) abort();
        *it = (struct receiver){.node = node, .fd = accept(node->listener, 0, 0)};
        int one = 1;
        if (it->fd < 0) fail("accept");
        setsockopt(it->fd, IPPROTO_TCP, TCP_NODELAY, &one, sizeof one);
        start(run_receiver, it);
    }
    return 0;
}

static void *run_client(void *with) {
    int client = (int)(intptr_t)with;
    struct node *node = &nodes[client % NODES];
    struct waiter *waiter = &node->waiters[client];
    struct buffer lane = {0};
    while (atomic_load(&shared->ready) < NODES) usleep(1000);
    for (uint32_t number = 1;; number++) {
        uint64_t from = now();
        struct message it = {.kind = PROPOSE, .from = (uint8_t)node->me, .client = (uint8_t)client, .number = number};
        for (int to = 0; to < NODES; to++) {
            add_frame(&lane, &it, to);
            send_to(node, to, &lane);
        }
        pthread_mutex_lock(&waiter->lock);
        while (waiter->decided != number) pthread_cond_wait(&waiter->came, &waiter->lock);
        pthread_mutex_unlock(&waiter->lock);
        note(client, now() - from);
    }
}

static void start_node(int me, int port, int clients) {
    struct node *node = &nodes[me];
    pthread_mutex_init(&node->inbox.lock, 0);
    pthread_cond_init(&node->inbox.came, 0);
    for (int i = 0; i < CLIENTS; i++) {
        pthread_mutex_init(&node->waiters[i].lock, 0);
        pthread_cond_init(&node->waiters[i].came, 0);
    }
    start(take_connections, node);
    for (int to = 0; to < NODES; to++) {
        pthread_mutex_init(&node->out_lock[to], 0);
        node->out[to] = connected(port + to + 1);
    }
    start(run_node, node);
    for (int client = me; client < clients; client += NODES) start(run_client, (void *)(intptr_t)client);
    atomic_fetch_add(&shared->ready, 1);
}

static void listen_at(struct node *node, int port) {
    struct sockaddr_in here = place(port);
    int one = 1;
    node->listener = socket(AF_INET, SOCK_STREAM, 0);
    setsockopt(node->listener, SOL_SOCKET, SO_REUSEADDR, &one, sizeof one);
    if (bind(node->listener, (struct sockaddr *)&here, sizeof here) || listen(node->listener, 16)) fail("listen");
}

// Waits for the end of the run, and prints what the clients did.
static void report(int clients, double seconds) {
    usleep(500000);
    uint64_t from = now();
    atomic_store(&shared->phase, COUNTS);
    usleep((useconds_t)(seconds * 1e6));
    atomic_store(&shared->phase, ENDS);
    double took = (double)(now() - from) / 1e9;
    uint64_t count = 0, so_far = 0, median = 0, late = 0;
    for (int client = 0; client < clients; client++) count += atomic_load(&shared->done[client]);
    for (uint64_t bucket = 0; bucket < BUCKETS; bucket++) {
        uint64_t here = 0;
        for (int client = 0; client < clients; client++) here += shared->times[client][bucket];
        if (so_far <= count / 2 && so_far + here > count / 2) median = bucket;
        if (so_far <= count * 99 / 100 && so_far + here > count * 99 / 100) late = bucket;
        so_far += here;
    }
    printf("p50 %.1f p99 %.1f a_second %.0f\n", (double)median / 10, (double)late / 10, (double)count / took);
}

static void run_plain(int by_processes, int port, int clients, double seconds) {
    pid_t children[NODES];
    for (int me = 0; me < NODES; me++) {
        nodes[me].me = me;
        listen_at(&nodes[me], port + me + 1);
    }
    for (int me = 0; me < NODES; me++) {
        if (!by_processes) {
            start_node(me, port, clients);
            continue;
        }
        children[me] = fork();
        if (children[me] < 0) fail("fork");
        if (!children[me]) {
            prctl(PR_SET_PDEATHSIG, SIGKILL);
            start_node(me, port, clients);
            for (;;) pause();
        }
    }
    while (atomic_load(&shared->ready) < NODES) usleep(1000);
    report(clients, seconds);
    for (int me = 0; by_processes && me < NODES; me++) kill(children[me], SIGKILL);
}

struct connection {
    int client, node, port;
    char *text;
    size_t size;
};

// Reads lines until the answer ends. Each but the last is a command that is done.
static void read_lines(const struct connection *it, int fd) {
    char bytes[4096], line[256];
    size_t held = 0;
    uint64_t last = 0;
    for (;;) {
        ssize_t n = recv(fd, bytes, sizeof bytes, 0);
        if (n <= 0) fail("an answer breaks off");
        uint64_t at = now();
        for (ssize_t i = 0; i < n; i++) {
            if (bytes[i] != '\n') {
                if (held < sizeof line - 1) line[held++] = bytes[i];
                continue;
            }
            line[held] = 0;
            held = 0;
            if (!strcmp(line, "end")) return;
            if (!strstr(line, " stored ")) {
                fprintf(stderr, "node %d: %s\n", it->node, line);
                exit(1);
            }
            if (last) note(it->client, at - last);
            last = at;
        }
    }
}

static void *run_connection(void *with) {
    struct connection *it = with;
    for (;;) {
        int fd = connected(it->port);
        char line[128];
        int count = snprintf(line, sizeof line, "deliver %d u%d %zu\n", it->node, it->client + 10, it->size);
        send_all(fd, (uint8_t *)line, (size_t)count);
        send_all(fd, (uint8_t *)it->text, it->size);
        read_lines(it, fd);
        close(fd);
    }
}

static char *mailbox(size_t *size) {
    static const char message[] = "From a@b Thu Jan  1 00:00:00 1970\nSubject: bench\n\n%080d\n\n";
    char *text = malloc(MESSAGES * 200);
    if (!text) abort();
    *size = 0;
    for (int i = 0; i < MESSAGES; i++) *size += (size_t)sprintf(text + *size, message, i);
    return text;
}

static void run_load(int count, double seconds, int places, char **words) {
    size_t size;
    char *text = mailbox(&size);
    for (int client = 0; client < count; client++) {
        struct connection *it = malloc(sizeof *it);
        if (!it) abort();
        *it = (struct connection){.client = client, .text = text, .size = size};
        if (sscanf(words[client % places], "%d:%d", &it->node, &it->port) != 2) exit(2);
        start(run_connection, it);
    }
    report(count, seconds);
}

int main(int count, char **words) {
    shared = mmap(0, sizeof *shared, PROT_READ | PROT_WRITE, MAP_SHARED | MAP_ANONYMOUS, -1, 0);
    if (shared == MAP_FAILED) fail("mmap");
    if (count == 6 && !strcmp(words[1], "plain") && atoi(words[4]) <= CLIENTS) {
        run_plain(!strcmp(words[2], "processes"), atoi(words[3]), atoi(words[4]), atof(words[5]));
    } else if (count >= 5 && !strcmp(words[1], "load") && atoi(words[2]) <= CLIENTS) {
        run_load(atoi(words[2]), atof(words[3]), count - 4, words + 4);
    } else {
        fprintf(stderr, "plain_peers plain processes|threads PORT CLIENTS SECONDS, or load CONNECTIONS SECONDS NODE:PORT..\n");
        return 2;
    }
    fflush(stdout);
    _exit(0);
}
