/* A stand-in for ssikvd with nothing behind it: one thread, level-triggered epoll, one read and one write for each batch. It answers the
 * load generator's requests out of one sorted array: no snapshots, no conflicts, and a SET stands at once. It shows what a server in C does
 * that has the same commands and none of the promises.
 *
 *   stand_in [FILE]        listens on a free port of 127.0.0.1 and prints "listening ADDRESS"
 *
 * With a FILE, each COMMIT behind a SET makes the writes and syncs of a commit of one small key there. Nothing is read from it.
 */
#define _GNU_SOURCE
#include "two_syncs.h"
#include <arpa/inet.h>
#include <errno.h>
#include <netinet/in.h>
#include <netinet/tcp.h>
#include <stdbool.h>
#include <string.h>
#include <sys/epoll.h>
#include <sys/socket.h>

#define EVENTS 129
#define ROOM 131072
#define PARTS_MAX 4

struct text {
    const char *at;
    size_t length;
};

struct entry {
    struct text key, value;
};

struct connection {
    int socket;
    bool has_written;
    size_t length;
    char in[ROOM];
};

static struct entry *entries;
static size_t count, room;
/* What a batch is answered. There is one thread, so one buffer serves all. */
static char *out;
static size_t out_length, out_room;
static bool is_durable;
static struct log log_of_commits;

static void *grown(void *block, size_t bytes) {
    block = realloc(block, bytes);
    if (!block) stop("realloc");
    return block;
}

static void put(const char *from, size_t length) {
    if (out_length + length > out_room) out = grown(out, out_room = 2 * (out_length + length));
    memcpy(out + out_length, from, length);
    out_length += length;
}

static void put_line(const char *line) {
    put(line, strlen(line));
}

static void put_head(char kind, size_t number) {
    char head[32];
    put(head, (size_t)snprintf(head, sizeof head, "%c%zu\r\n", kind, number));
}

static void put_bulk(struct text text) {
    put_head('$', text.length);
    put(text.at, text.length);
    put("\r\n", 2);
}

static int order(struct text a, struct text b) {
    int by_bytes = memcmp(a.at, b.at, a.length < b.length ? a.length : b.length);
    return by_bytes ? by_bytes : (a.length > b.length) - (a.length < b.length);
}

/* The place of the first entry whose key is not below this one. */
static size_t place_of(struct text key) {
    size_t low = 0, high = count;
    while (low < high) {
        size_t middle = (low + high) / 2;
        if (order(entries[middle].key, key) < 0) low = middle + 1;
        else high = middle;
    }
    return low;
}

static bool is_at(size_t place, struct text key) {
    return place < count && order(entries[place].key, key) == 0;
}

static struct text copy(struct text text) {
    char *at = grown(NULL, text.length + 1);
    memcpy(at, text.at, text.length);
    return (struct text){at, text.length};
}

static void set(struct text key, struct text value) {
    size_t place = place_of(key);
    if (is_at(place, key)) {
        free((char *)entries[place].value.at);
    } else {
        if (count == room) entries = grown(entries, (room = 2 * room + 64) * sizeof *entries);
        memmove(entries + place + 1, entries + place, (count++ - place) * sizeof *entries);
        entries[place].key = copy(key);
    }
    entries[place].value = copy(value);
}

static void range(struct text low, struct text high, size_t limit) {
    size_t first = place_of(low), end = place_of(high);
    if (end > first + limit) end = first + limit;
    put_head('*', 2 * (end - first));
    for (; first < end; first++) {
        put_bulk(entries[first].key);
        put_bulk(entries[first].value);
    }
}

static bool is_named(struct text part, const char *name) {
    return part.length == strlen(name) && !memcmp(part.at, name, part.length);
}

static void commit(struct connection *connection) {
    if (is_durable && connection->has_written) append_commit(&log_of_commits);
    connection->has_written = false;
}

static void answer(struct connection *connection, const struct text *parts, size_t many) {
    if (is_named(parts[0], "PING")) {
        put_line("+PONG\r\n");
    } else if (is_named(parts[0], "COMMIT")) {
        commit(connection);
        put_line(":0\r\n");
    } else if (is_named(parts[0], "GET") && many == 2) {
        size_t place = place_of(parts[1]);
        if (is_at(place, parts[1])) put_bulk(entries[place].value);
        else put_line("$-1\r\n");
    } else if (is_named(parts[0], "RANGE") && many == 4) {
        range(parts[1], parts[2], strtoul(parts[3].at, NULL, 10));
    } else {
        if (is_named(parts[0], "SET") && many == 3) {
            set(parts[1], parts[2]);
            connection->has_written = true;
        }
        put_line("+OK\r\n");
    }
}

/* The number of a line `*N` or `$N`, behind which `from` then stands. False where the line is not whole. */
static bool take_number(const char **from, const char *end, size_t *number) {
    const char *line_end = memchr(*from, '\n', (size_t)(end - *from));
    if (!line_end) return false;
    *number = strtoul(*from + 1, NULL, 10);
    *from = line_end + 1;
    return true;
}

/* The length of the frame that begins here, which is answered; 0 where it is not whole. */
static size_t serve_frame(struct connection *connection, const char *from, size_t length) {
    const char *at = from, *end = from + length;
    struct text parts[PARTS_MAX];
    size_t many;
    if (!take_number(&at, end, &many)) return 0;
    if (many < 1 || many > PARTS_MAX) exit(2);
    for (size_t i = 0; i < many; i++) {
        if (!take_number(&at, end, &parts[i].length) || (size_t)(end - at) < parts[i].length + 2) return 0;
        parts[i].at = at;
        at += parts[i].length + 2;
    }
    answer(connection, parts, many);
    return (size_t)(at - from);
}

/* Hands on the whole answer, waiting where the peer is slow: the load generator never is for long. */
static void send_answer(int socket) {
    for (size_t sent = 0; sent < out_length;) {
        ssize_t moved = send(socket, out + sent, out_length - sent, MSG_NOSIGNAL);
        if (moved > 0) sent += (size_t)moved;
        else if (errno != EAGAIN) break;
    }
    out_length = 0;
}

static void serve(struct connection *connection) {
    ssize_t came = recv(connection->socket, connection->in + connection->length, ROOM - connection->length, 0);
    if (came < 0 && errno == EAGAIN) return;
    if (came <= 0) {
        close(connection->socket);
        free(connection);
        return;
    }
    connection->length += (size_t)came;
    size_t at = 0, used;
    while (at < connection->length && (used = serve_frame(connection, connection->in + at, connection->length - at)) > 0)
        at += used;
    memmove(connection->in, connection->in + at, connection->length - at);
    connection->length -= at;
    send_answer(connection->socket);
}

static int listen_somewhere(void) {
    struct sockaddr_in address = {.sin_family = AF_INET, .sin_addr.s_addr = htonl(INADDR_LOOPBACK)};
    socklen_t length = sizeof address;
    int listener = socket(AF_INET, SOCK_STREAM | SOCK_NONBLOCK, 0);
    if (listener < 0 || bind(listener, (struct sockaddr *)&address, sizeof address) || listen(listener, 256)) stop("listen");
    if (getsockname(listener, (struct sockaddr *)&address, &length)) stop("getsockname");
    printf("listening 127.0.0.1:%d\n", ntohs(address.sin_port));
    fflush(stdout);
    return listener;
}

static void watch(int poll, int socket, void *of) {
    struct epoll_event event = {.events = EPOLLIN, .data.ptr = of};
    if (epoll_ctl(poll, EPOLL_CTL_ADD, socket, &event)) stop("epoll_ctl");
}

static void accept_one(int poll, int listener) {
    int one = 1, socket = accept4(listener, NULL, NULL, SOCK_NONBLOCK);
    if (socket < 0) return;
    setsockopt(socket, IPPROTO_TCP, TCP_NODELAY, &one, sizeof one);
    struct connection *connection = grown(NULL, sizeof *connection);
    connection->socket = socket;
    connection->has_written = false;
    connection->length = 0;
    watch(poll, socket, connection);
}

int main(int count_of_words, char **words) {
    struct epoll_event events[EVENTS];
    is_durable = count_of_words == 2;
    if (is_durable) log_of_commits = open_log(words[1]);
    int poll = epoll_create1(0), listener = listen_somewhere();
    if (poll < 0) stop("epoll_create1");
    watch(poll, listener, NULL);
    for (;;) {
        int ready = epoll_wait(poll, events, EVENTS, -1);
        for (int i = 0; i < ready; i++) {
            if (events[i].data.ptr) serve(events[i].data.ptr);
            else accept_one(poll, listener);
        }
    }
}
