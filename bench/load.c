/* The load generator: N connections on T threads, each with one transaction after another (a closed loop). It checks each reply and each
 * value, and prints how many transactions a second were committed, and those of the connection that was served least and most.
 *
 *   load --server echo|resp|redis|postgres|etcd --address 127.0.0.1:PORT --work ping|pings|read|range|write|hot|fill [options]
 *
 *   ping    PING
 *   pings   32 PINGs, sent together
 *   read    BEGIN, 4 GET of any keys, COMMIT
 *   range   BEGIN, RANGE of 64 keys, COMMIT
 *   write   BEGIN, SET of a key that no other connection writes, COMMIT
 *   hot     BEGIN, GET and SET of one of 16 keys that all connections write, COMMIT
 *   fill    sets every key once, 64 in a transaction, on one connection
 *
 *   --connections N (1)  --threads T (1)  --seconds S (1)  --warm-up S (0.1)  --keys K (10000)  --value-bytes B (100)
 *   --at-once       sends a transaction's requests together; without it each waits for the reply to the one before. With etcd a
 *                   transaction is always one request.
 */
#define _GNU_SOURCE
#include "common.h"
#include "protocol.h"
#include <arpa/inet.h>
#include <errno.h>
#include <getopt.h>
#include <netinet/in.h>
#include <netinet/tcp.h>
#include <pthread.h>
#include <stdbool.h>
#include <stdio.h>
#include <stdlib.h>
#include <sys/epoll.h>
#include <sys/resource.h>
#include <sys/socket.h>
#include <unistd.h>

#define GETS 4
#define PINGS 32
#define HOT_KEYS 16
#define FILL_WRITES 64
#define REQUESTS_MAX (FILL_WRITES + 2)
#define CONNECTIONS_MAX 1024
#define RECEIVE_ROOM 65536

enum work { WORK_PING, WORK_PINGS, WORK_READ, WORK_RANGE, WORK_WRITE, WORK_HOT, WORK_FILL };
static const char *const work_names[] = {"ping", "pings", "read", "range", "write", "hot", "fill"};

static const struct protocol *server = &resp;
static struct sockaddr_in address = {.sin_family = AF_INET};
static enum work work = WORK_PING;
static uint32_t connections = 1, threads = 1, keys = 10000;
static double seconds = 1, warm_up = 0.1;
static bool at_once;
size_t value_bytes = 100;

/* What is finished between these moments counts. */
static uint64_t counted_from, counted_to;

struct connection {
    int socket;
    uint32_t number;
    /* The transaction, how many of its requests were sent and answered, and how many messages its batch still waits for. */
    struct request requests[REQUESTS_MAX];
    int count, sent, answered, awaited;
    bool refused;
    uint64_t began, served;
    struct bytes out, in;
};

struct worker {
    pthread_t thread;
    int poll;
    struct connection *connections;
    uint32_t count, live, filled;
    /* Of all transactions `committed` counts those that were; the others count those of the measured time. */
    uint64_t random, committed, refused;
    struct histogram times;
};

_Noreturn void fail(const char *what, const char *text, size_t length) {
    fprintf(stderr, "load: %s: %.*s\n", what, (int)(length < 200 ? length : 200), text);
    exit(2);
}

static _Noreturn void fail_call(const char *what) {
    const char *text = strerror(errno);
    fail(what, text, strlen(text));
}

void append(struct bytes *bytes, const void *from, size_t length) {
    if (bytes->length + length > bytes->room) {
        bytes->room = 2 * (bytes->length + length);
        bytes->at = realloc(bytes->at, bytes->room);
        if (!bytes->at) fail_call("realloc");
    }
    memcpy(bytes->at + bytes->length, from, length);
    bytes->length += length;
}

void write_key(char text[KEY_BYTES], uint32_t key) {
    text[0] = 'k';
    for (int i = KEY_BYTES - 1; i > 0; i--) {
        text[i] = (char)('0' + key % 10);
        key /= 10;
    }
}

static void write_value(char value[VALUE_BYTES_MAX], uint32_t key) {
    memset(value, 'x', value_bytes);
    write_key(value, key);
}

void append_value(struct bytes *bytes, uint32_t key) {
    char value[VALUE_BYTES_MAX];
    write_value(value, key);
    append(bytes, value, value_bytes);
}

void check_value(const char *value, size_t length, uint32_t key) {
    char expected[VALUE_BYTES_MAX];
    write_value(expected, key);
    if (length != value_bytes || memcmp(value, expected, length)) fail("a wrong value", value, length);
}

void check_pair(const char *key, size_t key_length, const char *value, size_t length, uint32_t first) {
    char low[KEY_BYTES], high[KEY_BYTES];
    write_key(low, first);
    write_key(high, first + RANGE_PAIRS);
    if (key_length != KEY_BYTES || memcmp(key, low, KEY_BYTES) < 0 || memcmp(key, high, KEY_BYTES) >= 0) fail("a wrong key", key, key_length);
    check_value(value, length, (uint32_t)strtoul(key + 1, NULL, 10));
}

void send_all(int socket, const struct bytes *bytes) {
    for (size_t sent = 0; sent < bytes->length;) {
        ssize_t moved = send(socket, bytes->at + sent, bytes->length - sent, MSG_NOSIGNAL);
        if (moved < 0) fail_call("send");
        sent += (size_t)moved;
    }
}

/* A number below `limit`, by xorshift. */
static uint32_t random_below(uint64_t *random, uint32_t limit) {
    *random ^= *random << 13;
    *random ^= *random >> 7;
    *random ^= *random << 17;
    return (uint32_t)((*random >> 32) * limit >> 32);
}

static void add(struct connection *connection, enum kind kind, uint32_t key) {
    connection->requests[connection->count++] = (struct request){kind, key};
}

/* The middle of a connection's next transaction. */
static void add_accesses(struct worker *worker, struct connection *connection) {
    if (work == WORK_WRITE) {
        add(connection, SET, connection->number + connections * random_below(&worker->random, keys / connections));
        return;
    }
    if (work == WORK_READ) {
        for (int i = 0; i < GETS; i++) add(connection, GET, random_below(&worker->random, keys));
        return;
    }
    if (work == WORK_RANGE) {
        add(connection, RANGE, random_below(&worker->random, keys - RANGE_PAIRS));
        return;
    }
    if (work == WORK_HOT) {
        uint32_t key = random_below(&worker->random, HOT_KEYS);
        add(connection, GET, key);
        add(connection, SET, key);
        return;
    }
    for (int i = 0; i < FILL_WRITES && worker->filled < keys; i++) add(connection, SET, worker->filled++);
}

static void choose_transaction(struct worker *worker, struct connection *connection) {
    connection->count = 0;
    if (work == WORK_PING || work == WORK_PINGS) {
        for (int i = 0; i < (work == WORK_PING ? 1 : PINGS); i++) add(connection, PING, 0);
        return;
    }
    add(connection, BEGIN, work == WORK_READ ? GETS : work == WORK_HOT ? 1 : 0);
    add_accesses(worker, connection);
    add(connection, COMMIT, 0);
}

/* Sends the next request, or all that are left where they go at once. */
static void send_batch(struct connection *connection) {
    int last = at_once || server->encode_all ? connection->count : connection->sent + 1;
    connection->awaited = server->encode_all ? 1 : last - connection->sent + server->endings;
    connection->out.length = 0;
    if (server->encode_all) {
        server->encode_all(&connection->out, connection->requests, connection->count);
        connection->sent = last;
    }
    while (connection->sent < last) server->encode(&connection->out, connection->requests[connection->sent++]);
    if (server->finish) server->finish(&connection->out);
    send_all(connection->socket, &connection->out);
}

static bool is_over(const struct worker *worker) {
    return work == WORK_FILL ? worker->filled == keys : now_ns() >= counted_to;
}

/* Begins the next transaction, unless the time is over. */
static void begin(struct worker *worker, struct connection *connection) {
    if (is_over(worker)) {
        worker->live--;
        return;
    }
    choose_transaction(worker, connection);
    connection->sent = connection->answered = 0;
    connection->refused = false;
    connection->began = now_ns();
    send_batch(connection);
}

static void finish_transaction(struct worker *worker, struct connection *connection) {
    uint64_t now = now_ns();
    if (!connection->refused) worker->committed++;
    if (now < counted_from || now >= counted_to) return;
    connection->served++;
    if (connection->refused) worker->refused++;
    else histogram_add(&worker->times, now - connection->began);
}

/* What follows once all messages of a batch have come. */
static void go_on(struct worker *worker, struct connection *connection) {
    if (connection->sent < connection->count) {
        send_batch(connection);
        return;
    }
    finish_transaction(worker, connection);
    begin(worker, connection);
}

/* Takes one message from the front of what came in. Returns its length, 0 where it is not whole. */
static size_t take_message(struct connection *connection, size_t at) {
    enum found found;
    int index = connection->answered < connection->count ? connection->answered : connection->count - 1;
    size_t used = server->take(connection->in.at + at, connection->in.length - at, connection->requests[index], &found);
    if (found == REFUSED) connection->refused = true;
    if (found == ANSWERED || found == REFUSED) {
        if (connection->awaited > server->endings) connection->answered++;
        connection->awaited--;
    }
    return used;
}

static void receive(struct worker *worker, struct connection *connection) {
    struct bytes *in = &connection->in;
    ssize_t came = recv(connection->socket, in->at + in->length, in->room - in->length, MSG_DONTWAIT);
    if (came < 0 && errno == EAGAIN) return;
    if (came <= 0) fail("receive", "the connection was closed", 25);
    in->length += (size_t)came;
    size_t at = 0, used;
    while (connection->awaited > 0 && (used = take_message(connection, at)) > 0) at += used;
    memmove(in->at, in->at + at, in->length - at);
    in->length -= at;
    if (connection->awaited > 0) return;
    if (in->length > 0) fail("more than the replies came", in->at, in->length);
    go_on(worker, connection);
}

static void open_connection(struct worker *worker, struct connection *connection) {
    int one = 1;
    struct epoll_event event = {.events = EPOLLIN, .data.ptr = connection};
    connection->socket = socket(AF_INET, SOCK_STREAM, 0);
    if (connect(connection->socket, (struct sockaddr *)&address, sizeof address)) fail_call("connect");
    setsockopt(connection->socket, IPPROTO_TCP, TCP_NODELAY, &one, sizeof one);
    if (server->greet) server->greet(connection->socket);
    connection->in = (struct bytes){.at = malloc(RECEIVE_ROOM), .room = RECEIVE_ROOM};
    if (!connection->in.at || epoll_ctl(worker->poll, EPOLL_CTL_ADD, connection->socket, &event)) fail_call("epoll_ctl");
}

static void *run(void *argument) {
    struct worker *worker = argument;
    struct epoll_event events[CONNECTIONS_MAX];
    worker->live = worker->count;
    for (uint32_t i = 0; i < worker->count; i++) begin(worker, &worker->connections[i]);
    while (worker->live > 0) {
        int count = epoll_wait(worker->poll, events, CONNECTIONS_MAX, 20000);
        if (count <= 0) fail("wait", "no reply for 20 seconds", 23);
        for (int i = 0; i < count; i++) receive(worker, events[i].data.ptr);
    }
    return NULL;
}

static struct worker *open_workers(void) {
    struct worker *workers = calloc(threads, sizeof *workers);
    struct connection *all = calloc(connections, sizeof *all);
    if (!workers || !all) fail_call("calloc");
    for (uint32_t t = 0, first = 0; t < threads; t++) {
        struct worker *worker = &workers[t];
        worker->count = connections / threads + (t < connections % threads);
        worker->connections = all + first;
        worker->poll = epoll_create1(0);
        worker->random = 0x9E3779B97F4A7C15u * (t + 1);
        for (uint32_t i = 0; i < worker->count; i++) {
            worker->connections[i].number = first + i;
            open_connection(worker, &worker->connections[i]);
        }
        first += worker->count;
    }
    return workers;
}

static double processor_seconds(void) {
    struct rusage usage;
    getrusage(RUSAGE_SELF, &usage);
    return (double)(usage.ru_utime.tv_sec + usage.ru_stime.tv_sec) + (double)(usage.ru_utime.tv_usec + usage.ru_stime.tv_usec) / 1e6;
}

/* How many transactions of the measured time the connections had that were served least and most. */
static void find_least_and_most(const struct worker *workers, uint64_t *least, uint64_t *most) {
    *least = UINT64_MAX, *most = 0;
    for (uint32_t t = 0; t < threads; t++)
        for (uint32_t i = 0; i < workers[t].count; i++) {
            uint64_t served = workers[t].connections[i].served;
            if (served < *least) *least = served;
            if (served > *most) *most = served;
        }
}

static void run_workers(struct worker *workers) {
    uint64_t start = now_ns();
    double before = processor_seconds();
    counted_from = work == WORK_FILL ? 0 : start + (uint64_t)(warm_up * 1e9);
    counted_to = work == WORK_FILL ? UINT64_MAX : counted_from + (uint64_t)(seconds * 1e9);
    for (uint32_t t = 0; t < threads; t++)
        if (pthread_create(&workers[t].thread, NULL, run, &workers[t])) fail_call("pthread_create");
    for (uint32_t t = 0; t < threads; t++) pthread_join(workers[t].thread, NULL);
    double took = (double)(now_ns() - start) / 1e9;
    if (work == WORK_FILL) seconds = took;
    struct histogram *times = &workers[0].times;
    for (uint32_t t = 1; t < threads; t++) {
        histogram_merge(times, &workers[t].times);
        workers[0].committed += workers[t].committed;
        workers[0].refused += workers[t].refused;
    }
    uint64_t least, most;
    find_least_and_most(workers, &least, &most);
    printf("rate=%.1f p50_us=%.1f p99_us=%.1f p999_us=%.1f committed=%llu refused=%llu least=%llu most=%llu busy=%.2f\n", (double)times->count / seconds,
           histogram_us(times, 0.5), histogram_us(times, 0.99), histogram_us(times, 0.999), (unsigned long long)workers[0].committed,
           (unsigned long long)workers[0].refused, (unsigned long long)least, (unsigned long long)most, (processor_seconds() - before) / (took * threads));
}

static void read_server(const char *text) {
    const struct protocol *const all[] = {&echo, &resp, &redis, &postgres, &etcd};
    for (int i = 0; i < 5; i++) {
        server = all[i];
        if (!strcmp(text, server->name)) return;
    }
    fail("no such server", text, strlen(text));
}

static void read_work(const char *text) {
    for (int i = WORK_PING; i <= WORK_FILL; i++) {
        work = (enum work)i;
        if (!strcmp(text, work_names[i])) return;
    }
    fail("no such work", text, strlen(text));
}

static void read_address(const char *text) {
    char host[64];
    const char *colon = strrchr(text, ':');
    if (!colon || colon - text >= (ptrdiff_t)sizeof host) fail("bad address", text, strlen(text));
    snprintf(host, sizeof host, "%.*s", (int)(colon - text), text);
    address.sin_port = htons((uint16_t)atoi(colon + 1));
    if (inet_pton(AF_INET, host, &address.sin_addr) != 1) fail("bad address", text, strlen(text));
}

static void read_options(int count, char **words) {
    static const struct option known[] = {
        {"server", 1, NULL, 's'}, {"address", 1, NULL, 'a'}, {"work", 1, NULL, 'w'},    {"connections", 1, NULL, 'c'}, {"threads", 1, NULL, 't'},
        {"seconds", 1, NULL, 'd'}, {"warm-up", 1, NULL, 'u'}, {"keys", 1, NULL, 'k'}, {"value-bytes", 1, NULL, 'b'}, {"at-once", 0, NULL, 'o'},
        {NULL, 0, NULL, 0},
    };
    int found;
    while ((found = getopt_long(count, words, "", known, NULL)) != -1) switch (found) {
        case 's': read_server(optarg); break;
        case 'a': read_address(optarg); break;
        case 'w': read_work(optarg); break;
        case 'c': connections = (uint32_t)atoi(optarg); break;
        case 't': threads = (uint32_t)atoi(optarg); break;
        case 'd': seconds = atof(optarg); break;
        case 'u': warm_up = atof(optarg); break;
        case 'k': keys = (uint32_t)atoi(optarg); break;
        case 'b': value_bytes = (size_t)atoi(optarg); break;
        case 'o': at_once = true; break;
        default: exit(2);
        }
    if (work == WORK_PINGS) at_once = true;
    if (work == WORK_FILL) {
        connections = 1;
        at_once = true;
    }
    if (threads > connections) threads = connections;
    if (threads < 1 || connections > CONNECTIONS_MAX || keys < connections || keys <= RANGE_PAIRS || keys > 99999999) fail("an option is out of range", "", 0);
    if (value_bytes < KEY_BYTES || value_bytes > VALUE_BYTES_MAX) fail("an option is out of range", "", 0);
}

int main(int count, char **words) {
    read_options(count, words);
    run_workers(open_workers());
    return 0;
}
