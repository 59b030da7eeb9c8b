/* See ssikvd.h. Frames first, then connections, transactions, and the pool. */
#define _GNU_SOURCE
#include "ssikvd.h"

#include <errno.h>
#include <netdb.h>
#include <netinet/in.h>
#include <netinet/tcp.h>
#include <pthread.h>
#include <stdio.h>
#include <stdlib.h>
#include <string.h>
#include <sys/socket.h>
#include <sys/time.h>
#include <time.h>
#include <unistd.h>

enum { KEY_MAX = 256, VALUE_MAX = 16384, WRITES_MAX = 64, MARKS_MAX = 256, PAIRS_MAX = 128, CONNECTIONS_MAX = 64, LINE_MAX_BYTES = 600 };

typedef struct ssikvd_bytes bytes;

static double now(void) {
    struct timespec time;
    clock_gettime(CLOCK_MONOTONIC, &time);
    return (double)time.tv_sec + (double)time.tv_nsec / 1e9;
}

static int fail(struct ssikvd_error *error, int status, const char *text) {
    memset(error, 0, sizeof *error);
    snprintf(error->text, sizeof error->text, "%s", text);
    return error->status = status;
}

static int full(struct ssikvd_error *error, const char *limit) {
    fail(error, SSIKVD_FULL, limit);
    snprintf(error->limit, sizeof error->limit, "%s", limit);
    return SSIKVD_FULL;
}

/* Frames */

/* A reply: its kind, the number of an integer or of an array's parts, and its text, its bytes, or the parts. */
struct reply {
    char kind;
    long long number;
    const char *data;
    size_t size;
};

static long long number_of(const char *text, size_t size, long long most) {
    char copy[24] = "";
    int is_number = size > 0 && size <= 19 && strspn(memcpy(copy, text, size), "0123456789") == size;
    long long number = is_number ? (long long)strtoull(copy, NULL, 10) : -1;
    return number <= most ? number : -1;
}

/* Takes the reply at the front of the bytes: its length; 0 while it isn't whole, and -1 where no reply begins so. */
static long decode(const char *data, size_t size, struct reply *reply) {
    const char *end = memmem(data, size < LINE_MAX_BYTES ? size : LINE_MAX_BYTES, "\r\n", 2);
    if (!end)
        return size < LINE_MAX_BYTES ? 0 : -1;
    if (end == data)
        return -1;
    size_t line = (size_t)(end - data) + 2, rest = size - line;
    *reply = (struct reply){data[0], 0, data + 1, line - 3};
    if (reply->kind == '+' || reply->kind == '-')
        return (long)line;
    if (reply->kind == '$' && !memcmp(reply->data, "-1\r", 3))
        return reply->data = NULL, (long)line;
    reply->number = number_of(reply->data, reply->size, reply->kind == ':' ? INT64_MAX : reply->kind == '$' ? VALUE_MAX : 2 * PAIRS_MAX);
    if (reply->number < 0 || !strchr(":$*", reply->kind))
        return -1;
    reply->data = data + line;
    reply->size = reply->kind == '$' ? (size_t)reply->number : 0;
    if (reply->kind == '$')
        return rest < reply->size + 2 ? 0 : memcmp(reply->data + reply->size, "\r\n", 2) ? -1 : (long)(line + reply->size + 2);
    for (long long part = 0; reply->kind == '*' && part < reply->number; part++) {
        struct reply inner;
        long used = decode(reply->data + reply->size, rest - reply->size, &inner);
        if (used <= 0 || inner.kind != '$' || !inner.data)
            return used > 0 ? -1 : used;
        reply->size += (size_t)used;
    }
    return (long)(line + reply->size);
}

/* The error of a refusal. */
static int refusal(struct ssikvd_error *error, const char *text, size_t size) {
    char words[LINE_MAX_BYTES + 1];
    snprintf(words, sizeof words, "%.*s", (int)size, text);
    fail(error, SSIKVD_REFUSED, words);
    const char *hex = strncmp(words, "CONFLICT overwritten ", 21) ? "" : words + 21;
    for (; error->key_size < KEY_MAX && sscanf(hex, "%2hhx", &error->key[error->key_size]) == 1; hex += 2)
        error->key_size++;
    if (error->key_size || !strncmp(words, "CONFLICT pivot ", 15)) {
        error->pivot = error->key_size ? 0 : strtoull(words + 15, NULL, 10);
        error->status = SSIKVD_CONFLICT;
    } else if (sscanf(words, "FULL %31[a-z]", error->limit) == 1) {
        error->status = SSIKVD_FULL;
    } else if (!strcmp(words, "STORE stopped")) {
        error->status = SSIKVD_STOPPED;
    }
    return error->status;
}

/* Connections */

/* A connection. It is whole while no reply is due; else it is of no more use. */
struct session {
    int socket, is_whole;
    double timeout;
    char *received;
    size_t size, room;
    struct session *next;
};

/* The calls of this kind wait no longer than until then. Is there time left? */
static int patience(int socket, int kind, double end) {
    double left = end - now();
    struct timeval wait = {(time_t)left, (suseconds_t)((left - (double)(time_t)left) * 1e6) + 1};
    setsockopt(socket, SOL_SOCKET, kind, &wait, sizeof wait);
    return left > 0 || (errno = ETIMEDOUT, 0);
}

static int send_all(struct session *session, const char *data, size_t size, double end) {
    for (ssize_t sent; size > 0; data += sent, size -= (size_t)sent)
        if (!patience(session->socket, SO_SNDTIMEO, end) || (sent = send(session->socket, data, size, MSG_NOSIGNAL)) < 0)
            return -1;
    return 0;
}

/* Reads more of a reply: 0, or -1 with an error of the system, 0 where the connection was closed. */
static int receive(struct session *session, double end) {
    if (session->size == session->room) {
        char *more = realloc(session->received, session->room = 2 * session->room + 4096);
        if (!more)
            return -1;
        session->received = more;
    }
    ssize_t count = -1;
    if (patience(session->socket, SO_RCVTIMEO, end))
        count = recv(session->socket, session->received + session->size, session->room - session->size, 0);
    session->size += count > 0 ? (size_t)count : 0;
    return count > 0 ? 0 : (errno = count < 0 ? errno : 0, -1);
}

/* The request of these parts, in `into`, which has room for the largest. */
static size_t encode(char *into, int count, const bytes *parts) {
    size_t size = (size_t)sprintf(into, "*%d\r\n", count);
    for (int part = 0; part < count; part++) {
        size += (size_t)sprintf(into + size, "$%zu\r\n", parts[part].size);
        memcpy(into + size, parts[part].data, parts[part].size);
        memcpy(into + size + parts[part].size, "\r\n", 2);
        size += parts[part].size + 2;
    }
    return size;
}

/* Sends a request and gives its reply, which stays until the next one. */
static int ask(struct session *session, struct reply *reply, struct ssikvd_error *error, int count, const bytes *parts) {
    char request[64 + KEY_MAX + VALUE_MAX + KEY_MAX];
    if (!session->is_whole)
        return fail(error, SSIKVD_UNREACHABLE, "the connection was lost");
    double end = now() + session->timeout;
    int failed = send_all(session, request, encode(request, count, parts), end);
    long used = 0;
    session->is_whole = 0;
    session->size = 0;
    while (!failed && used == 0 && !(failed = receive(session, end)))
        used = decode(session->received, session->size, reply);
    if (failed)
        return fail(error, SSIKVD_UNREACHABLE, errno ? strerror(errno) : "the server closed the connection: it has ended, or 128 are open");
    if (used < 0 || (size_t)used != session->size)
        return fail(error, SSIKVD_UNREACHABLE, "this is no reply of ssikvd");
    session->is_whole = 1;
    return reply->kind == '-' ? refusal(error, reply->data, reply->size) : SSIKVD_OK;
}

/* Transactions */

struct kept {
    struct kept *next;
    char data[];
};

struct keys {
    int count, most;
    const char *limit;
    bytes all[MARKS_MAX];
};

struct ssikvd_transaction {
    struct session *session;
    struct kept *kept;
    struct keys written, read;
    struct ssikvd_error *error;
};

void *ssikvd_keep(struct ssikvd_transaction *transaction, const void *data, size_t size) {
    struct kept *kept = malloc(sizeof *kept + size + 1);
    if (!kept)
        return NULL;
    kept->next = transaction->kept;
    transaction->kept = kept;
    kept->data[size] = 0;
    return memcpy(kept->data, data, size);
}

static int is_among(const struct keys *keys, bytes key) {
    for (int at = 0; at < keys->count; at++)
        if (keys->all[at].size == key.size && !memcmp(keys->all[at].data, key.data, key.size))
            return 1;
    return 0;
}

static int is_bad(struct ssikvd_transaction *transaction, bytes data, size_t least, size_t most, const char *what) {
    if (data.size >= least && data.size <= most)
        return SSIKVD_OK;
    fail(transaction->error, SSIKVD_INVALID, "");
    sprintf(transaction->error->text, "a %s has %zu to %zu bytes, this one has %zu", what, least, most, data.size);
    return SSIKVD_INVALID;
}

static int no_memory(struct ssikvd_transaction *transaction) {
    return fail(transaction->error, SSIKVD_INVALID, "out of memory");
}

/* Sends a request for a key, which is added to these keys, of which there may be so many. */
static int ask_for(struct ssikvd_transaction *transaction, struct keys *keys, struct reply *reply, int count, const bytes *parts) {
    bytes key = parts[1];
    if (is_bad(transaction, key, 1, KEY_MAX, "key") || (count > 2 && is_bad(transaction, parts[2], 0, VALUE_MAX, "value")))
        return SSIKVD_INVALID;
    if (!is_among(keys, key) && !is_among(&transaction->written, key)) {
        if (keys->count == keys->most)
            return full(transaction->error, keys->limit);
        bytes *kept = &keys->all[keys->count++];
        if (!(kept->data = ssikvd_keep(transaction, key.data, kept->size = key.size)))
            return no_memory(transaction);
    }
    return ask(transaction->session, reply, transaction->error, count, parts);
}

int ssikvd_get(struct ssikvd_transaction *transaction, bytes key, bytes *value) {
    struct reply reply;
    *value = (bytes){NULL, 0};
    int found = ask_for(transaction, &transaction->read, &reply, 2, (bytes[]){ssikvd_text("GET"), key});
    if (found || !reply.data)
        return found;
    *value = (bytes){ssikvd_keep(transaction, reply.data, reply.size), reply.size};
    return value->data ? SSIKVD_OK : no_memory(transaction);
}

int ssikvd_set(struct ssikvd_transaction *transaction, bytes key, bytes value) {
    struct reply reply;
    return ask_for(transaction, &transaction->written, &reply, 3, (bytes[]){ssikvd_text("SET"), key, value});
}

int ssikvd_delete(struct ssikvd_transaction *transaction, bytes key) {
    struct reply reply;
    return ask_for(transaction, &transaction->written, &reply, 2, (bytes[]){ssikvd_text("DEL"), key});
}

int ssikvd_range(struct ssikvd_transaction *transaction, bytes lo, bytes hi, size_t limit, struct ssikvd_range *range) {
    lo = lo.size ? lo : (bytes){"", 1};
    *range = (struct ssikvd_range){.transaction = transaction, .left = limit};
    if (is_bad(transaction, lo, 1, KEY_MAX, "key") || is_bad(transaction, hi, 0, KEY_MAX, "bound"))
        return SSIKVD_INVALID;
    if (limit < 1)
        return fail(transaction->error, SSIKVD_INVALID, "a limit is at least 1");
    range->at = (bytes){ssikvd_keep(transaction, lo.data, lo.size), lo.size};
    range->hi = (bytes){ssikvd_keep(transaction, hi.size ? hi.data : "", hi.size), hi.size};
    return range->at.data && range->hi.data ? SSIKVD_OK : no_memory(transaction);
}

static int is_below(bytes one, bytes other) {
    int order = memcmp(one.data, other.data, one.size < other.size ? one.size : other.size);
    return order < 0 || (order == 0 && one.size < other.size);
}

/* Asks for the next page, if there is one. */
static int turn(struct ssikvd_range *range) {
    struct ssikvd_transaction *transaction = range->transaction;
    if (!range->at.size || !range->left || (range->hi.size && !is_below(range->at, range->hi)))
        return SSIKVD_OK;
    char limit[24];
    struct reply reply;
    size_t most = range->left < PAIRS_MAX ? range->left : PAIRS_MAX;
    snprintf(limit, sizeof limit, "%zu", most);
    bytes parts[] = {ssikvd_text("RANGE"), range->at, range->hi, ssikvd_text(limit)};
    int found = ask(transaction->session, &reply, transaction->error, 4, parts);
    if (found)
        return found;
    if (!(range->page = ssikvd_keep(transaction, reply.data, reply.size)))
        return no_memory(transaction);
    range->size = reply.size;
    range->pairs = (size_t)reply.number / 2;
    range->at.size = range->pairs == most ? range->at.size : 0;
    range->left -= range->left == SSIKVD_ALL ? 0 : range->pairs;
    return SSIKVD_OK;
}

static bytes take_part(struct ssikvd_range *range) {
    struct reply reply;
    long used = decode(range->page, range->size, &reply);
    range->page += used;
    range->size -= (size_t)used;
    return (bytes){reply.data, reply.size};
}

int ssikvd_next(struct ssikvd_range *range, bytes *key, bytes *value) {
    *key = *value = (bytes){NULL, 0};
    int found = range->pairs ? SSIKVD_OK : turn(range);
    if (found || !range->pairs)
        return found;
    *key = take_part(range);
    *value = take_part(range);
    if (--range->pairs == 0 && range->at.size) {
        unsigned char after[KEY_MAX];
        range->at.size = ssikvd_after(*key, after);
        range->at.data = ssikvd_keep(range->transaction, after, range->at.size);
        return range->at.data ? SSIKVD_OK : no_memory(range->transaction);
    }
    return SSIKVD_OK;
}

/* The pool */

struct ssikvd {
    char host[256], port[8];
    struct ssikvd_options options;
    pthread_mutex_t lock;
    pthread_cond_t returned;
    struct session *idle;
    unsigned lent;
    int is_closed;
};

static void close_idle(struct ssikvd *store) {
    for (struct session *session; (session = store->idle); free(session)) {
        store->idle = session->next;
        close(session->socket);
        free(session->received);
    }
}

static int connect_one(const struct addrinfo *address, double timeout) {
    int file = socket(address->ai_family, SOCK_STREAM | SOCK_CLOEXEC, 0);
    if (file < 0)
        return -1;
    patience(file, SO_SNDTIMEO, now() + timeout);
    setsockopt(file, IPPROTO_TCP, TCP_NODELAY, &(int){1}, sizeof(int));
    if (!connect(file, address->ai_addr, address->ai_addrlen))
        return file;
    int error = errno;
    close(file);
    return errno = error, -1;
}

static struct session *open_session(struct ssikvd *store, struct ssikvd_error *error) {
    struct addrinfo hints = {.ai_socktype = SOCK_STREAM}, *all = NULL;
    struct session *session = calloc(1, sizeof *session);
    int file = -1, code = getaddrinfo(store->host, store->port, &hints, &all);
    for (struct addrinfo *address = all; session && address && file < 0; address = address->ai_next)
        file = connect_one(address, store->options.connect_timeout);
    if (file < 0)
        fail(error, SSIKVD_UNREACHABLE, code ? gai_strerror(code) : strerror(errno));
    if (all)
        freeaddrinfo(all);
    if (file < 0)
        return free(session), NULL;
    *session = (struct session){.socket = file, .is_whole = 1, .timeout = store->options.reply_timeout};
    return session;
}

/* Keeps the connection where it is whole. Else it is closed, and those that are idle with it. */
static void give_back(struct ssikvd *store, struct session *session) {
    pthread_mutex_lock(&store->lock);
    store->lent--;
    int is_kept = session && session->is_whole && !store->is_closed;
    if (session)
        session->next = store->idle, store->idle = session;
    if (!is_kept)
        close_idle(store);
    pthread_cond_signal(&store->returned);
    pthread_mutex_unlock(&store->lock);
}

/* A connection, once one is idle or there is room for one more. */
static struct session *lend(struct ssikvd *store, double end, struct ssikvd_error *error) {
    struct timespec until = {(time_t)end, (long)((end - (double)(time_t)end) * 1e9)};
    pthread_mutex_lock(&store->lock);
    int late = 0;
    while (!store->is_closed && store->lent == store->options.connections && !late)
        late = pthread_cond_clockwait(&store->returned, &store->lock, CLOCK_MONOTONIC, &until);
    int is_full = store->lent == store->options.connections;
    int is_refused = store->is_closed ? fail(error, SSIKVD_INVALID, "the store is closed") : is_full ? full(error, "connections") : SSIKVD_OK;
    struct session *session = is_refused ? NULL : store->idle;
    store->lent += !is_refused;
    store->idle = session ? session->next : store->idle;
    pthread_mutex_unlock(&store->lock);
    if (!is_refused && !session && !(session = open_session(store, error)))
        give_back(store, NULL);
    return session;
}

static int say(struct session *session, const char *word, struct ssikvd_error *error) {
    struct reply reply;
    return ask(session, &reply, error, 1, (bytes[]){ssikvd_text(word)});
}

static int commit(struct session *session, struct ssikvd_error *error) {
    int was_whole = session->is_whole, found = say(session, "COMMIT", error);
    int is_lost = (found == SSIKVD_UNREACHABLE && was_whole) || (found == SSIKVD_REFUSED && !strcmp(error->text, "STORE fault"));
    return is_lost ? error->status = SSIKVD_LOST : found;
}

/* One try: what the work answered, or an error of ours. */
static int attempt(struct ssikvd *store, double end, ssikvd_work *work, void *context, struct ssikvd_error *error) {
    struct session *session = lend(store, end, error);
    if (!session)
        return error->status;
    struct ssikvd_transaction transaction = {session, NULL, {.most = WRITES_MAX, .limit = "writes"}, {.most = MARKS_MAX, .limit = "marks"}, error};
    int found = say(session, "BEGIN", error);
    if (!found) {
        found = work(&transaction, context);
        if (found && !session->is_whole)
            found = SSIKVD_UNREACHABLE;
        else if (found)
            say(session, "ABORT", &(struct ssikvd_error){0});
        else
            found = commit(session, error);
    }
    if (found != error->status)
        fail(error, found, found == SSIKVD_UNREACHABLE ? "the connection was lost" : "");
    for (struct kept *kept; (kept = transaction.kept); free(kept))
        transaction.kept = kept->next;
    give_back(store, session);
    return found;
}

/* Waits for a random time, so that two don't meet again and again. Is there time left? */
static int wait_again(double end, int failed) {
    uint32_t chance = (uint32_t)(now() * 1e9) * 2654435761u;    /* nobody meets another at one nanosecond again and again */
    double seconds = (double)chance / UINT32_MAX * 0.001 * (double)(1 << (failed < 6 ? failed : 6));
    return seconds < end - now() && !nanosleep(&(struct timespec){0, (long)(seconds * 1e9)}, NULL);
}

static int attempts(struct ssikvd *store, double end, int *failed, ssikvd_work *work, void *context, struct ssikvd_error *error) {
    for (;;) {
        int found = attempt(store, end, work, context, error);
        int is_crowded = found == SSIKVD_FULL && !strcmp(error->limit, "transactions");
        if ((found != SSIKVD_CONFLICT && found != SSIKVD_UNREACHABLE && !is_crowded) || !wait_again(end, (*failed)++))
            return found;
    }
}

int ssikvd_transact(struct ssikvd *store, ssikvd_work *work, void *context, struct ssikvd_error *error) {
    struct ssikvd_error own;
    int failed = 0;
    return attempts(store, now() + store->options.deadline, &failed, work, context, error ? error : &own);
}

/* A work that is carried out once for a key, and what it made. */
struct once {
    bytes key, made;
    ssikvd_maker *work;
    void *context;
};

static int unless_done(struct ssikvd_transaction *transaction, void *context) {
    struct once *once = context;
    bytes made;
    int found = ssikvd_get(transaction, once->key, &made);
    if (!found && !made.data && !(found = once->work(transaction, once->context, &made)))
        found = ssikvd_set(transaction, once->key, made = (bytes){made.size ? made.data : "", made.size});
    char *copy = found ? NULL : malloc(made.size + 1);
    if (copy) {
        free((void *)once->made.data);
        copy[made.size] = 0;
        once->made = (bytes){memcpy(copy, made.data, made.size), made.size};
    }
    return found || copy ? found : no_memory(transaction);
}

int ssikvd_once(struct ssikvd *store, bytes key, ssikvd_maker *work, void *context, bytes *made, struct ssikvd_error *error) {
    struct ssikvd_error own;
    struct once once = {key, {NULL, 0}, work, context};
    error = error ? error : &own;
    double end = now() + store->options.deadline;
    int failed = 0, is_lost = 0, found;
    do
        found = attempts(store, end, &failed, unless_done, &once, error);
    while (found == SSIKVD_LOST && (is_lost = 1) && wait_again(end, failed++));
    if (found && is_lost)
        found = error->status = SSIKVD_LOST;
    if (found)
        free((void *)once.made.data);
    *made = found ? (bytes){NULL, 0} : once.made;
    return found;
}

struct ssikvd *ssikvd_connect(const char *address, const struct ssikvd_options *options, struct ssikvd_error *error) {
    struct ssikvd_error own;
    struct ssikvd *store = calloc(1, sizeof *store);
    const char *colon = strrchr(address, ':');
    fail(error = error ? error : &own, SSIKVD_INVALID, "an address is HOST:PORT, and a pool has 1 to 64 connections");
    int is_bracketed = address[0] == '[' && colon && colon[-1] == ']';
    if (store && colon && colon > address && number_of(colon + 1, strlen(colon + 1), 65535) >= 0) {
        store->options = options ? *options : SSIKVD_OPTIONS;
        snprintf(store->host, sizeof store->host, "%.*s", (int)(colon - address) - 2 * is_bracketed, address + is_bracketed);
        snprintf(store->port, sizeof store->port, "%s", colon + 1);
    }
    if (!store || store->options.connections < 1 || store->options.connections > CONNECTIONS_MAX)
        return free(store), NULL;
    pthread_cond_init(&store->returned, NULL);
    pthread_mutex_init(&store->lock, NULL);
    struct session *session = lend(store, now(), error);
    int found = session ? say(session, "PING", error) : error->status;
    if (session)
        give_back(store, session);
    if (found)
        ssikvd_free(store);
    return found ? NULL : (fail(error, SSIKVD_OK, ""), store);
}

void ssikvd_close(struct ssikvd *store) {
    pthread_mutex_lock(&store->lock);
    store->is_closed = 1;
    close_idle(store);
    pthread_mutex_unlock(&store->lock);
}

void ssikvd_free(struct ssikvd *store) {
    close_idle(store);
    pthread_cond_destroy(&store->returned);
    pthread_mutex_destroy(&store->lock);
    free(store);
}

/* Keys */

bytes ssikvd_text(const char *text) {
    return (bytes){text, strlen(text)};
}

size_t ssikvd_end_of_prefix(bytes prefix, unsigned char into[256]) {
    size_t size = prefix.size < KEY_MAX ? prefix.size : KEY_MAX;
    memcpy(into, prefix.data, size);
    while (size > 0 && into[size - 1] == 0xff)
        size--;
    if (size > 0)
        into[size - 1]++;
    return size;
}

size_t ssikvd_after(bytes key, unsigned char into[256]) {
    if (key.size >= KEY_MAX)
        return ssikvd_end_of_prefix(key, into);
    memcpy(into, key.data, key.size);
    into[key.size] = 0;
    return key.size + 1;
}
