/* Measures what a program does between two polls, by the processor time of the thread that polls.
 *
 * Preloaded into a program with one thread. The file named by POLLS_CONTROL is shared with whoever measures, who may read and write it at
 * any moment. First it holds eight numbers of 64 bits: how many turns there were, which begin where a poll returns and end where the next is
 * called; the longest of them and all of them together, in nanoseconds of the processor; how many such nanoseconds the next turn is
 * to waste, which then sets it to 0; the most syncs of a turn; how many polls were to wait, which says that the program had nothing
 * left to do; and of the longest turn how many of its nanoseconds were the system's, and how many pages of memory it provided. Behind
 * them stands how many turns had a sync, and what each of these took, of the first 131,072 of them. Without that variable all calls are
 * passed on and nothing is measured.
 */
#define _GNU_SOURCE
#include "shared.h"
#include <dlfcn.h>
#include <stdint.h>
#include <stdlib.h>
#include <sys/epoll.h>
#include <sys/resource.h>
#include <sys/syscall.h>
#include <time.h>
#include <unistd.h>

enum { PLACES = 131072 };

struct control {
    uint64_t turns, longest, all, waste, syncs, idle, system, pages;
    uint64_t with_sync, took[PLACES];
};

static volatile struct control *control;
/* When the last poll returned, or 0 before the first. */
static uint64_t returned;
/* What the thread had used then. */
static struct rusage used;
/* The syncs of this turn. */
static uint64_t syncs;

__attribute__((constructor)) static void open_control(void) {
    control = shared_file("POLLS_CONTROL", sizeof(struct control));
}

static uint64_t processor_ns(void) {
    struct timespec time;
    clock_gettime(CLOCK_THREAD_CPUTIME_ID, &time);
    return (uint64_t)time.tv_sec * 1000000000u + (uint64_t)time.tv_nsec;
}

static uint64_t system_ns(const struct rusage *of) {
    return (uint64_t)of->ru_stime.tv_sec * 1000000000u + (uint64_t)of->ru_stime.tv_usec * 1000u;
}

static void note_longest(uint64_t took) {
    struct rusage now;
    getrusage(RUSAGE_THREAD, &now);
    control->longest = took;
    control->system = system_ns(&now) - system_ns(&used);
    control->pages = (uint64_t)(now.ru_minflt - used.ru_minflt);
}

static void note_with_sync(uint64_t took) {
    if (control->with_sync < PLACES)
        control->took[control->with_sync++] = took;
}

static void end_turn(void) {
    uint64_t took = processor_ns() - returned;
    if (took > control->longest)
        note_longest(took);
    control->all += took;
    if (syncs > control->syncs)
        control->syncs = syncs;
    if (syncs)
        note_with_sync(took);
    syncs = 0;
    control->turns++;
}

/* Keeps the processor busy at the beginning of a turn, for as long as is asked for. */
static void waste(void) {
    uint64_t end = returned + control->waste;
    control->waste = 0;
    while (processor_ns() < end)
        ;
}

int epoll_wait(int poll, struct epoll_event *events, int most, int timeout) {
    if (control && returned)
        end_turn();
    if (control && timeout != 0)
        control->idle++;
    int found = (int)syscall(SYS_epoll_wait, poll, events, most, timeout);
    if (control) {
        getrusage(RUSAGE_THREAD, &used);
        returned = processor_ns();
        if (control->waste)
            waste();
    }
    return found;
}

/* The sync of this name that is behind this library: the system's, or that of a library that is preloaded as well. */
static int sync_behind(const char *name, int file) {
    int (*next)(int) = (int (*)(int))dlsym(RTLD_NEXT, name);
    syncs++;
    return next(file);
}

int fdatasync(int file) {
    return sync_behind("fdatasync", file);
}

int fsync(int file) {
    return sync_behind("fsync", file);
}
