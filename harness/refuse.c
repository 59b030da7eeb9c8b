/* Lets chosen calls of the C library fail, and passes on all others.
 *
 * Preloaded into a program. The file named by REFUSE_CONTROL is shared with whoever drives the test, who may read and write it at any
 * moment. It holds, for each kind of call, five numbers of 64 bits: how many calls were made, how many failed, the first and the last call
 * to fail, counted from 1, and the errno that they fail with, or 0 where they move one byte in place of all, 2^32 where they move none
 * and answer 0, or 2^33 where they move all, 1.2 seconds late. Behind these stands how many bytes of memory are held, which is what was taken less what
 * was freed, and then how many were held at most.
 * A block of 2,040 bytes, for which the server asks at the end of each turn and without which it goes on, is refused where the next call is, and
 * isn't counted as a call. Without that variable, and before the program's own code runs, all calls are passed on and none is counted.
 */
#define _GNU_SOURCE
#include "shared.h"
#include <errno.h>
#include <fcntl.h>
#include <malloc.h>
#include <stdint.h>
#include <stdlib.h>
#include <sys/epoll.h>
#include <sys/socket.h>
#include <sys/stat.h>
#include <sys/syscall.h>
#include <time.h>
#include <unistd.h>

enum kind { MEMORY, DEVICE, RECEIVE, SEND, ACCEPT, POLL, OPENING, KINDS };

/* The sizes of which the server asks for a block at the end of each turn, and goes on without. */
static int is_spare(size_t size) {
    return size == 2040 || size == 3064 || size == 4088;
}

static const uint64_t NOTHING = (uint64_t)1 << 32, LATE = (uint64_t)1 << 33;

struct calls {
    uint64_t made, failed, first, last, error;
};

struct control {
    struct calls calls[KINDS];
    int64_t held, most;
};

static volatile struct control *control;

extern void *__libc_malloc(size_t size);
extern void *__libc_calloc(size_t count, size_t size);
extern void *__libc_realloc(void *block, size_t size);
extern void *__libc_memalign(size_t alignment, size_t size);
extern void __libc_free(void *block);

__attribute__((constructor)) static void open_control(void) {
    control = shared_file("REFUSE_CONTROL", sizeof(struct control));
}

static int is_chosen(enum kind kind) {
    if (!control)
        return 0;
    volatile struct calls *calls = &control->calls[kind];
    uint64_t call = ++calls->made;
    if (call < calls->first || call > calls->last)
        return 0;
    calls->failed++;
    errno = (int)calls->error;
    return 1;
}

/* Is a block of so many bytes refused? */
static int is_refused(size_t size) {
    if (!is_spare(size))
        return is_chosen(MEMORY);
    return control && control->calls[MEMORY].made + 1 >= control->calls[MEMORY].first && control->calls[MEMORY].made < control->calls[MEMORY].last;
}

/* How many of these bytes a call may move, or -1 where it fails. */
static ssize_t allowed(enum kind kind, size_t size) {
    if (!is_chosen(kind))
        return (ssize_t)size;
    if (control->calls[kind].error == NOTHING)
        return 0;
    if (control->calls[kind].error == LATE) {
        nanosleep(&(struct timespec){.tv_sec = 1, .tv_nsec = 200000000}, NULL);
        return (ssize_t)size;
    }
    return errno ? -1 : size > 0;
}

/* The block, which is counted, if there is one. */
static void *held(void *block) {
    if (control && block) {
        control->held += (int64_t)malloc_usable_size(block);
        if (control->held > control->most)
            control->most = control->held;
    }
    return block;
}

void *malloc(size_t size) {
    return is_refused(size) ? NULL : held(__libc_malloc(size));
}

void *calloc(size_t count, size_t size) {
    return is_chosen(MEMORY) ? NULL : held(__libc_calloc(count, size));
}

void *realloc(void *block, size_t size) {
    if (is_chosen(MEMORY))
        return NULL;
    int64_t before = block ? (int64_t)malloc_usable_size(block) : 0;
    void *found = __libc_realloc(block, size);
    if (control && (found || size == 0))
        control->held -= before;
    return held(found);
}

void free(void *block) {
    if (control && block)
        control->held -= (int64_t)malloc_usable_size(block);
    __libc_free(block);
}

void *aligned_alloc(size_t alignment, size_t size) {
    return is_refused(size) ? NULL : held(__libc_memalign(alignment, size));
}

int posix_memalign(void **block, size_t alignment, size_t size) {
    if (is_refused(size))
        return ENOMEM;
    *block = held(__libc_memalign(alignment, size));
    return *block ? 0 : ENOMEM;
}

ssize_t pread(int file, void *into, size_t size, off_t at) {
    ssize_t most = allowed(DEVICE, size);
    return most <= 0 && size ? most : syscall(SYS_pread64, file, into, (size_t)most, at);
}

ssize_t pwrite(int file, const void *from, size_t size, off_t at) {
    ssize_t most = allowed(DEVICE, size);
    return most <= 0 && size ? most : syscall(SYS_pwrite64, file, from, (size_t)most, at);
}

int fsync(int file) {
    return allowed(DEVICE, 0) < 0 ? -1 : (int)syscall(SYS_fsync, file);
}

int fdatasync(int file) {
    return allowed(DEVICE, 0) < 0 ? -1 : (int)syscall(SYS_fdatasync, file);
}

ssize_t recv(int file, void *into, size_t size, int flags) {
    ssize_t most = allowed(RECEIVE, size);
    return most <= 0 && size ? most : syscall(SYS_recvfrom, file, into, (size_t)most, flags, NULL, NULL);
}

ssize_t send(int file, const void *from, size_t size, int flags) {
    ssize_t most = allowed(SEND, size);
    return most <= 0 && size ? most : syscall(SYS_sendto, file, from, (size_t)most, flags, NULL, 0);
}

int accept4(int file, struct sockaddr *address, socklen_t *length, int flags) {
    return allowed(ACCEPT, 0) < 0 ? -1 : (int)syscall(SYS_accept4, file, address, length, flags);
}

static int open_file(int folder, const char *path, int flags, mode_t mode) {
    return is_chosen(OPENING) ? -1 : (int)syscall(SYS_openat, folder, path, flags, mode);
}

#include "openings.h"

/* A write to a file at its own place, as zeros are written; those to a pipe or a terminal are none of the kind. */
ssize_t write(int file, const void *from, size_t size) {
    struct stat status;
    int is_file = control && fstat(file, &status) == 0 && S_ISREG(status.st_mode);
    return is_file && is_chosen(OPENING) ? -1 : syscall(SYS_write, file, from, size);
}

int epoll_wait(int poll, struct epoll_event *events, int most, int timeout) {
    return is_chosen(POLL) ? -1 : (int)syscall(SYS_epoll_wait, poll, events, most, timeout);
}
