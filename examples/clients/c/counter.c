/* Several workers add to one counter, each addition once: counter PORT COUNTER WORKERS TIMES. */
#include "client.h"

#include <stdio.h>
#include <stdlib.h>
#include <time.h>
#include <unistd.h>

static struct store store;
static int times;
static const char *counter;

struct worker { pthread_t thread; int number, added, tries; enum outcome outcome; };

static enum outcome read_count(redisContext *session, void *count)
{
    redisReply *reply;
    enum outcome found = ask(session, &reply, "GET %s", counter);
    if (found != DONE)
        return found;
    *(long *)count = reply->type == REDIS_REPLY_NIL ? 0 : atol(reply->str);
    freeReplyObject(reply);
    return DONE;
}

static enum outcome add(redisContext *session, void *more)
{
    long count;
    ((struct worker *)more)->tries++;
    enum outcome found = read_count(session, &count);
    return found == DONE ? ask(session, NULL, "SET %s %ld", counter, count + 1) : found;
}

static void *play(void *more)
{
    struct worker *self = more;
    for (int turn = 0; self->outcome == DONE && turn < times; turn++) {
        char name[200];
        int is_new = 0;
        snprintf(name, sizeof name, "%s.%d.%d", counter, self->number, turn);
        self->outcome = once(&store, name, add, self, &is_new);
        self->added += is_new;
    }
    return NULL;
}

int main(int count, char **words)
{
    if (count != 5)
        return 1;
    store = (struct store)STORE("127.0.0.1", atoi(words[1]), 64);
    counter = words[2];
    times = atoi(words[4]);
    srandom(time(NULL) ^ getpid());
    int workers = atoi(words[3]), added = 0, tries = 0;
    enum outcome worst = DONE;
    struct worker *all = calloc(workers, sizeof *all);
    for (int i = 0; i < workers; i++) {
        all[i].number = i;
        pthread_create(&all[i].thread, NULL, play, &all[i]);
    }
    for (int i = 0; i < workers; i++) {
        pthread_join(all[i].thread, NULL);
        added += all[i].added;
        tries += all[i].tries;
        worst = all[i].outcome ? all[i].outcome : worst;
    }
    free(all);
    long sum = 0;
    if (worst == DONE)
        worst = transact(&store, read_count, &sum);
    printf("added %d, counter %ld\ntries %d\n", added, sum, tries);
    return worst;
}
