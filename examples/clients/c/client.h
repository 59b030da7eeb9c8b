/* A client of ssikvd over hiredis (Debian: libhiredis-dev), which resends nothing by itself. */
#include <hiredis/hiredis.h>
#include <pthread.h>

/* At most `size` connections, each lent for one whole transaction; all programs together may have 64. It begins as STORE(host, port, size). */
struct store {
    const char *host;
    int port, size;
    redisContext *spare[64];
    int spares, lent;
    pthread_mutex_t turn;
    pthread_cond_t one_is_back;
};
#define STORE(host, port, size) {host, port, size, {0}, 0, 0, PTHREAD_MUTEX_INITIALIZER, PTHREAD_COND_INITIALIZER}

enum outcome {
    DONE,    /* COMMIT was answered a number */
    REFUSED, /* a request was refused; the session's transaction was ended */
    LOST,    /* the connection is gone: if COMMIT was sent, its outcome is unknown */
    AGAIN    /* from `ask` alone: CONFLICT or FULL transactions */
};

/* What runs inside a transaction, perhaps more than once: DONE, or what `ask` gave. */
typedef enum outcome work(redisContext *session, void *more);

/* Sends one request, as redisCommand formats it. Where it is DONE, `reply` is the caller's to free; it may be NULL. */
enum outcome ask(redisContext *session, redisReply **reply, const char *format, ...);

/* Runs the work in a transaction until COMMIT is answered a number. */
enum outcome transact(struct store *store, work *run, void *more);

/* Runs the work in a transaction that commits once, though connections are lost. Did this call commit it? */
enum outcome once(struct store *store, const char *name, work *run, void *more, int *is_new);
