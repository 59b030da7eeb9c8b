/* Makes each sync of a program take at least so long, as on a slower disk, and counts them.
 *
 * Preloaded into a server of one process or many. The file named by SLOW_SYNC is shared with whoever measures, who may read and write it
 * at any moment. It holds three numbers of 64 bits: how many nanoseconds each fdatasync or fsync takes at least; how many of them there
 * were; and how many nanoseconds all of them took. Without that variable all calls are passed on.
 */
#define _GNU_SOURCE
#include "common.h"
#include <errno.h>
#include <fcntl.h>
#include <stdlib.h>
#include <sys/mman.h>
#include <sys/prctl.h>
#include <sys/syscall.h>
#include <unistd.h>

struct control {
    uint64_t least, syncs, took;
};

static volatile struct control *control;

__attribute__((constructor)) static void open_control(void) {
    const char *name = getenv("SLOW_SYNC");
    int file = name ? open(name, O_RDWR | O_CLOEXEC) : -1;
    if (file < 0) return;
    void *shared = mmap(NULL, sizeof(struct control), PROT_READ | PROT_WRITE, MAP_SHARED, file, 0);
    close(file);
    if (shared == MAP_FAILED) return;
    control = shared;
    /* Else a sleep of 0.04 ms takes 0.09. Processes that are forked have it, too. */
    prctl(PR_SET_TIMERSLACK, 1);
}

static void sleep_until(uint64_t ns) {
    struct timespec end = {(time_t)(ns / 1000000000u), (long)(ns % 1000000000u)};
    while (clock_nanosleep(CLOCK_MONOTONIC, TIMER_ABSTIME, &end, NULL) == EINTR)
        ;
}

static int slowly(long call, int file) {
    uint64_t start = now_ns();
    int result = (int)syscall(call, file), fault = errno;
    if (control) {
        if (control->least) sleep_until(start + control->least);
        __atomic_fetch_add(&control->took, now_ns() - start, __ATOMIC_RELAXED);
        __atomic_fetch_add(&control->syncs, 1, __ATOMIC_RELAXED);
    }
    errno = fault;
    return result;
}

int fdatasync(int file) {
    return slowly(SYS_fdatasync, file);
}

int fsync(int file) {
    return slowly(SYS_fsync, file);
}
