/* The jobs of harness/packages.py: `jobs ADDRESS JOB WORDS..`. */
#include "ssikvd.h"

#include <pthread.h>
#include <stdatomic.h>
#include <stdio.h>
#include <stdlib.h>
#include <string.h>

typedef struct ssikvd_bytes bytes;
typedef struct ssikvd_transaction transaction;

enum { RAISED = SSIKVD_OWN };

static void need(int status, const struct ssikvd_error *error) {
    if (status == SSIKVD_OK)
        return;
    fprintf(stderr, "status %d: %s\n", status, error->text);
    exit(1);
}

static const char *shown(int status, const struct ssikvd_error *error) {
    static char text[1200];
    char *end = text;
    switch (status) {
    case SSIKVD_OK: return "done";
    case SSIKVD_CONFLICT:
        end += sprintf(text, "Conflict %s ", error->key_size ? "key" : "pivot");
        for (size_t at = 0; at < error->key_size; at++)
            end += sprintf(end, "%02x", error->key[at]);
        if (!error->key_size)
            sprintf(end, error->pivot ? "%llu" : "self", (unsigned long long)error->pivot);
        return text;
    case SSIKVD_FULL: return sprintf(text, "Full %s", error->limit), text;
    case SSIKVD_STOPPED: return "Stopped";
    case SSIKVD_REFUSED: return sprintf(text, "Refused %s", error->text), text;
    case SSIKVD_LOST: return "Lost";
    case SSIKVD_UNREACHABLE: return "Unreachable";
    case SSIKVD_INVALID: return "Invalid";
    default: return "Raised";
    }
}

static struct ssikvd *opened(const char *address, unsigned connections, double reply, double deadline, struct ssikvd_error *error) {
    struct ssikvd_options options = SSIKVD_OPTIONS;
    options.connections = connections;
    options.reply_timeout = reply;
    options.deadline = deadline;
    return ssikvd_connect(address, &options, error);
}

/* Workers at once */

struct worker {
    struct ssikvd *store;
    const char *name;
    int number, turn, times;
    atomic_int *tries;
};

static void together(struct worker all, int workers, void *(*work)(void *)) {
    pthread_t *threads = calloc((size_t)workers, sizeof *threads);
    struct worker *each = calloc((size_t)workers, sizeof *each);
    for (int number = 0; number < workers; number++) {
        each[number] = all;
        each[number].number = number;
        pthread_create(&threads[number], NULL, work, &each[number]);
    }
    for (int number = 0; number < workers; number++)
        pthread_join(threads[number], NULL);
    free(threads);
    free(each);
}

static long number_in(bytes value) {
    return value.data ? strtol(value.data, NULL, 10) : 0;
}

static int add(transaction *it, void *context, bytes *made) {
    struct worker *worker = context;
    bytes value;
    char text[24];
    int found = ssikvd_get(it, ssikvd_text(worker->name), &value);
    atomic_fetch_add(worker->tries, 1);
    *made = (bytes){NULL, 0};
    snprintf(text, sizeof text, "%ld", number_in(value) + 1);
    return found ? found : ssikvd_set(it, ssikvd_text(worker->name), ssikvd_text(text));
}

static void *adds(void *context) {
    struct worker *worker = context;
    struct ssikvd_error error;
    bytes made;
    char key[100];
    for (worker->turn = 0; worker->turn < worker->times; worker->turn++) {
        snprintf(key, sizeof key, "%s:%d:%d", worker->name, worker->number, worker->turn);
        need(ssikvd_once(worker->store, ssikvd_text(key), add, worker, &made, &error), &error);
        free((void *)made.data);
    }
    return NULL;
}

static int tell_count(transaction *it, void *context) {
    struct worker *worker = context;
    bytes value;
    int found = ssikvd_get(it, ssikvd_text(worker->name), &value);
    if (!found)
        printf("counter %ld tries %d\n", number_in(value), atomic_load(worker->tries));
    return found;
}

static int book(transaction *it, void *context, bytes *made) {
    struct worker *worker = context;
    struct ssikvd_range range;
    bytes key, value;
    int start = (13 * worker->number + 7 * worker->turn) % 60, end = start + 1 + (worker->number + worker->turn) % 5;
    char lo[100], hi[100], text[60];
    snprintf(lo, sizeof lo, "%s:%03d", worker->name, start + 1);
    snprintf(hi, sizeof hi, "%s;", worker->name);
    int found = ssikvd_range(it, ssikvd_text(lo), ssikvd_text(hi), 1, &range);
    if (found || (found = ssikvd_next(&range, &key, &value)))
        return found;
    if (key.data && strtol(value.data, NULL, 10) < end)
        return *made = ssikvd_text("taken"), SSIKVD_OK;
    snprintf(lo, sizeof lo, "%s:%03d", worker->name, end);
    snprintf(text, sizeof text, "%d %d %d", start, worker->number, worker->turn);
    *made = ssikvd_text("booked");
    return ssikvd_set(it, ssikvd_text(lo), ssikvd_text(text));
}

static void *books(void *context) {
    struct worker *worker = context;
    struct ssikvd_error error;
    bytes made;
    char key[100];
    for (worker->turn = 0; worker->turn < worker->times; worker->turn++) {
        snprintf(key, sizeof key, "by:%s:%d:%d", worker->name, worker->number, worker->turn);
        need(ssikvd_once(worker->store, ssikvd_text(key), book, worker, &made, &error), &error);
        printf("%d %d %s\n", worker->number, worker->turn, (const char *)made.data);
        free((void *)made.data);
    }
    return NULL;
}

/* A walk */

struct walk {
    unsigned char at[256];
    size_t size, most, number, found;
    unsigned long long sum;
};

static unsigned long long sum_of(unsigned long long sum, bytes data) {
    for (size_t at = 0; at < data.size; at++)
        sum = (31 * sum + ((const unsigned char *)data.data)[at]) % 1000000007;
    return sum;
}

static int walk_some(transaction *it, void *context) {
    struct walk *walk = context, next = *walk;
    struct ssikvd_range range;
    bytes key, value, last = {NULL, 0};
    int found = ssikvd_range(it, (bytes){walk->at, walk->size}, (bytes){NULL, 0}, walk->most, &range);
    for (next.found = 0; !found && !(found = ssikvd_next(&range, &key, &value)) && key.data; next.found++) {
        next.sum = sum_of(sum_of(next.sum, key), value);
        last = key;
    }
    next.size = next.found == walk->most ? ssikvd_after(last, next.at) : 0;
    next.number += next.found;
    if (!found)
        *walk = next;
    return found;
}

/* Errors */

static struct ssikvd *store, *small;
static transaction *kept;

static int set_k(transaction *it, void *value) {
    return ssikvd_set(it, ssikvd_text("k"), ssikvd_text(value));
}

static int overwritten(transaction *it, void *context) {
    (void)context;
    int found = set_k(it, "1");
    return found ? found : ssikvd_transact(store, set_k, "2", NULL);
}

static int crossing(transaction *it, void *context) {
    const char *const *keys = context;
    bytes value;
    int found = ssikvd_get(it, ssikvd_text(keys[0]), &value);
    return found ? found : ssikvd_set(it, ssikvd_text(keys[1]), ssikvd_text("1"));
}

static int pivot(transaction *it, void *context) {
    (void)context;
    int found = crossing(it, (const char *[]){"x", "y"});
    return found ? found : ssikvd_transact(store, crossing, (const char *[]){"y", "x"}, NULL);
}

static int writes(transaction *it, void *context) {
    (void)context;
    char key[10];
    int found = 0;
    for (int number = 0; number < 65 && !found; number++) {
        snprintf(key, sizeof key, "w%d", number);
        found = ssikvd_set(it, ssikvd_text(key), ssikvd_text(""));
    }
    return found;
}

static int marks(transaction *it, void *context) {
    (void)context;
    char key[10];
    bytes value;
    int found = 0;
    for (int number = 0; number < 257 && !found; number++) {
        snprintf(key, sizeof key, "m%d", number);
        found = ssikvd_get(it, ssikvd_text(key), &value);
    }
    return found;
}

static int get_of_size(transaction *it, void *context) {
    static char key[300];
    bytes value;
    memset(key, 'a', sizeof key);
    return ssikvd_get(it, (bytes){key, *(size_t *)context}, &value);
}

static int connections(transaction *it, void *context) {
    struct ssikvd_error error;
    (void)it;
    int found = ssikvd_transact(small, get_of_size, &(size_t){1}, &error);
    *(struct ssikvd_error *)context = error;
    return found;
}

static int long_value(transaction *it, void *context) {
    static char value[16385];
    (void)context;
    return ssikvd_set(it, ssikvd_text("a"), (bytes){value, sizeof value});
}

static int zero_limit(transaction *it, void *context) {
    struct ssikvd_range range;
    (void)context;
    return ssikvd_range(it, (bytes){NULL, 0}, (bytes){NULL, 0}, 0, &range);
}

static int raised(transaction *it, void *context) {
    (void)context;
    int found = ssikvd_set(it, ssikvd_text("raised"), ssikvd_text("1"));
    return found ? found : RAISED;
}

static int after_it(transaction *it, void *context) {
    return ssikvd_get(it, ssikvd_text("raised"), context);
}

static int keep(transaction *it, void *context) {
    (void)context;
    kept = it;
    return SSIKVD_OK;
}

static void tell(const char *what, struct ssikvd *in, ssikvd_work *work, void *context) {
    struct ssikvd_error error;
    int found = ssikvd_transact(in, work, context, &error);
    printf("%s: %s\n", what, work == connections ? shown(found, context) : shown(found, &error));
}

static void errors(const char *address) {
    struct ssikvd_error error;
    bytes value;
    store = opened(address, 16, 10, 0, &error);
    small = opened(address, 1, 10, 0, &error);
    tell("overwritten", store, overwritten, NULL);
    tell("pivot", store, pivot, NULL);
    tell("writes", store, writes, NULL);
    tell("marks", store, marks, NULL);
    tell("connections", small, connections, &error);
    tell("empty key", store, get_of_size, &(size_t){0});
    tell("long key", store, get_of_size, &(size_t){257});
    tell("long value", store, long_value, NULL);
    tell("zero limit", store, zero_limit, NULL);
    need(ssikvd_transact(store, keep, NULL, &error), &error);
    printf("ended: Invalid\n"); /* in C a transaction that is kept dangles: the header says that it ends with its work */
    tell("raised", store, raised, NULL);
    need(ssikvd_transact(store, after_it, &value, &error), &error);
    printf("after it: %s\n", value.data ? "kept" : "none");
    ssikvd_close(store);
    tell("closed", store, keep, NULL);
    ssikvd_free(store);
    ssikvd_free(small);
}

static int set(transaction *it, void *context) {
    char **words = context;
    return ssikvd_set(it, ssikvd_text(words[0]), ssikvd_text(words[1]));
}

static int make(transaction *it, void *context, bytes *made) {
    (void)it;
    (void)context;
    *made = ssikvd_text("made");
    return SSIKVD_OK;
}

int main(int count, char **words) {
    struct ssikvd_error error;
    const char *address = words[1], *job = words[2];
    (void)count;
    setvbuf(stdout, NULL, _IOLBF, 0);
    if (!strcmp(job, "errors"))
        return errors(address), 0;
    int is_set = !strcmp(job, "set"), is_once = !strcmp(job, "once");
    if (is_set || is_once) {
        struct ssikvd *in = opened(address, 16, atof(words[is_set ? 6 : 5]), atof(words[is_set ? 5 : 4]), &error);
        bytes made = {NULL, 0};
        int found = !in ? error.status : is_set ? ssikvd_transact(in, set, words + 3, &error)
                                                : ssikvd_once(in, ssikvd_text(words[3]), make, NULL, &made, &error);
        puts(is_once && !found ? made.data : shown(found, &error));
        free((void *)made.data);
        if (in)
            ssikvd_free(in);
        return 0;
    }
    struct ssikvd *in = opened(address, 16, 10, 60, &error);
    need(in ? SSIKVD_OK : error.status, &error);
    atomic_int tries = 0;
    if (!strcmp(job, "walk")) {
        struct walk walk = {.at = {0}, .size = 1, .most = strtoul(words[3], NULL, 10)};
        while (walk.size)
            need(ssikvd_transact(in, walk_some, &walk, &error), &error);
        printf("pairs %zu sum %llu\n", walk.number, walk.sum);
    } else {
        struct worker all = {in, words[3], 0, 0, atoi(words[5]), &tries};
        together(all, atoi(words[4]), !strcmp(job, "count") ? adds : books);
        if (!strcmp(job, "count"))
            need(ssikvd_transact(in, tell_count, &all, &error), &error);
    }
    ssikvd_free(in);
    return 0;
}
