#include "client.h"

#include <stdarg.h>
#include <stdlib.h>
#include <string.h>
#include <unistd.h>

static redisContext *borrow(struct store *store)
{
    pthread_mutex_lock(&store->turn);
    while (store->lent == store->size)
        pthread_cond_wait(&store->one_is_back, &store->turn);
    store->lent++;
    redisContext *session = store->spares ? store->spare[--store->spares] : NULL;
    pthread_mutex_unlock(&store->turn);
    struct timeval patience = {30, 0};
    if (!session && (session = redisConnectWithTimeout(store->host, store->port, patience)) && !session->err)
        redisSetTimeout(session, patience);
    return session;
}

static void give_back(struct store *store, redisContext *session, int is_ended)
{
    if (session && (session->err || !is_ended)) {
        redisFree(session); /* so that nobody is lent an open transaction: the server aborts it */
        session = NULL;
    }
    pthread_mutex_lock(&store->turn);
    store->lent--;
    if (session)
        store->spare[store->spares++] = session;
    pthread_cond_signal(&store->one_is_back);
    pthread_mutex_unlock(&store->turn);
}

enum outcome ask(redisContext *session, redisReply **reply, const char *format, ...)
{
    va_list parts;
    va_start(parts, format);
    redisReply *came = redisvCommand(session, format, parts);
    va_end(parts);
    if (!came)
        return LOST;
    enum outcome found = DONE;
    if (came->type == REDIS_REPLY_ERROR)
        found = strncmp(came->str, "CONFLICT", 8) == 0 || strcmp(came->str, "FULL transactions") == 0 ? AGAIN : REFUSED;
    if (found == DONE && reply)
        *reply = came;
    else
        freeReplyObject(came);
    return found;
}

static void wait_at_random(int turn) /* so that two do not meet again and again */
{
    usleep(random() % (1000L << (turn < 6 ? turn : 6)));
}

static enum outcome attempt(struct store *store, work *run, void *more)
{
    redisContext *session = borrow(store);
    enum outcome found = session && !session->err ? ask(session, NULL, "BEGIN") : LOST;
    int is_ended = 1;
    if (found == DONE) {
        found = run(session, more);
        is_ended = found == DONE;
        if (is_ended)
            found = ask(session, NULL, "COMMIT");
    }
    give_back(store, session, is_ended);
    return found;
}

enum outcome transact(struct store *store, work *run, void *more)
{
    for (int turn = 0; turn < 1000; turn++) {
        enum outcome found = attempt(store, run, more);
        if (found != AGAIN)
            return found;
        wait_at_random(turn);
    }
    return REFUSED;
}

struct named { const char *name; work *run; void *more; int *is_new; };

static enum outcome unless_done(redisContext *session, void *more)
{
    struct named *it = more;
    redisReply *done;
    enum outcome found = ask(session, &done, "GET done:%s", it->name);
    if (found != DONE)
        return found;
    *it->is_new = done->type == REDIS_REPLY_NIL;
    freeReplyObject(done);
    if (*it->is_new)
        found = it->run(session, it->more);
    return *it->is_new && found == DONE ? ask(session, NULL, "SET done:%s %s", it->name, "") : found;
}

enum outcome once(struct store *store, const char *name, work *run, void *more, int *is_new)
{
    struct named all = {name, run, more, is_new};
    enum outcome found = LOST;
    for (int turn = 0; found == LOST && turn < 1000; turn++) {
        if (turn)
            wait_at_random(turn);
        found = transact(store, unless_done, &all);
    }
    return found;
}
