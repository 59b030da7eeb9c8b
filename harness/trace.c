/* Writes down the system's calls of a program on files, and what it sends on sockets, in their order.
 *
 * Preloaded into a program. To the file named by TRACE_LOG it appends, behind each call, five numbers of 64 bits, and then bytes: the kind,
 * the descriptor, the place (of an opening its flags, of an advice which it is), the result, and how many bytes follow: what was written or sent as far as the call
 * took it, the path of an opening or a removal, or the place and the length of an advice. Where TRACE_SKIP is `fdatasync`, that call isn't made, succeeds, and is not written down. Where
 * TRACE_MEMORY is set, what is received is written down too, without its bytes, and each call that asks for memory, with the bytes that it asks for.
 */
#define _GNU_SOURCE
#include <errno.h>
#include <fcntl.h>
#include <stdint.h>
#include <stdlib.h>
#include <string.h>
#include <sys/socket.h>
#include <sys/syscall.h>
#include <sys/uio.h>
#include <unistd.h>

enum kind { OPEN, WRITE, WRITE_AT, READ_AT, SYNC, SYNC_DATA, CLOSE, REMOVE, TRUNCATE, SEND, ADVISE, RECEIVE, MEMORY };

/* The descriptors below are the program's own. */
static const int LEAST_DESCRIPTOR = 500;

extern void *__libc_malloc(size_t size);
extern void *__libc_calloc(size_t count, size_t size);
extern void *__libc_realloc(void *old, size_t size);

static int trace = -1;
static int skips, traces_memory;

__attribute__((constructor)) static void open_trace(void) {
    const char *name = getenv("TRACE_LOG"), *skip = getenv("TRACE_SKIP");
    int file = name ? (int)syscall(SYS_openat, AT_FDCWD, name, O_WRONLY | O_APPEND | O_CREAT | O_CLOEXEC, 0600) : -1;
    if (file < 0)
        return;
    trace = fcntl(file, F_DUPFD_CLOEXEC, LEAST_DESCRIPTOR);
    syscall(SYS_close, file);
    skips = skip && !strcmp(skip, "fdatasync");
    traces_memory = getenv("TRACE_MEMORY") != NULL;
}

/* Writes down a call, and answers its result. */
static int64_t note(enum kind kind, int file, int64_t at, int64_t result, const void *bytes, int64_t size) {
    int error = errno;
    int64_t head[5] = {kind, file, at, result, size > 0 ? size : 0};
    struct iovec parts[2] = {{head, sizeof head}, {(void *)bytes, (size_t)head[4]}};
    if (trace >= 0 && syscall(SYS_writev, trace, parts, 2) != (int64_t)sizeof head + head[4])
        abort();
    errno = error;
    return result;
}

/* Writes down what a call moved of several pieces. */
static ssize_t note_pieces(enum kind kind, int file, const struct iovec *pieces, size_t count, ssize_t result) {
    ssize_t left = result;
    for (size_t i = 0; i < count && left > 0; i++) {
        ssize_t here = (ssize_t)pieces[i].iov_len < left ? (ssize_t)pieces[i].iov_len : left;
        note(kind, file, 0, here, pieces[i].iov_base, here);
        left -= here;
    }
    if (result <= 0)
        note(kind, file, 0, result, NULL, 0);
    return result;
}

static int open_file(int folder, const char *path, int flags, mode_t mode) {
    int file = (int)syscall(SYS_openat, folder, path, flags, mode);
    return (int)note(OPEN, file, flags, file, path, (int64_t)strlen(path));
}

#include "openings.h"

int close(int file) {
    return (int)note(CLOSE, file, 0, syscall(SYS_close, file), NULL, 0);
}

int unlink(const char *path) {
    return (int)note(REMOVE, -1, 0, syscall(SYS_unlinkat, AT_FDCWD, path, 0), path, (int64_t)strlen(path));
}

int ftruncate(int file, off_t size) {
    return (int)note(TRUNCATE, file, size, syscall(SYS_ftruncate, file, size), NULL, 0);
}

ssize_t write(int file, const void *from, size_t size) {
    ssize_t moved = syscall(SYS_write, file, from, size);
    return note(WRITE, file, 0, moved, from, moved);
}

ssize_t writev(int file, const struct iovec *pieces, int count) {
    return note_pieces(WRITE, file, pieces, (size_t)count, syscall(SYS_writev, file, pieces, count));
}

ssize_t pwrite(int file, const void *from, size_t size, off_t at) {
    ssize_t moved = syscall(SYS_pwrite64, file, from, size, at);
    return note(WRITE_AT, file, at, moved, from, moved);
}

ssize_t pwrite64(int file, const void *from, size_t size, off_t at) {
    return pwrite(file, from, size, at);
}

ssize_t pread(int file, void *into, size_t size, off_t at) {
    return note(READ_AT, file, at, syscall(SYS_pread64, file, into, size, at), NULL, 0);
}

ssize_t pread64(int file, void *into, size_t size, off_t at) {
    return pread(file, into, size, at);
}

int fsync(int file) {
    return (int)note(SYNC, file, 0, syscall(SYS_fsync, file), NULL, 0);
}

int fdatasync(int file) {
    return skips ? 0 : (int)note(SYNC_DATA, file, 0, syscall(SYS_fdatasync, file), NULL, 0);
}

int posix_fadvise(int file, off_t at, off_t size, int advice) {
    int64_t error = syscall(SYS_fadvise64, file, at, size, advice) ? errno : 0, range[2] = {at, size};
    return (int)note(ADVISE, file, advice, error, range, sizeof range);
}

int posix_fadvise64(int file, off_t at, off_t size, int advice) {
    return posix_fadvise(file, at, size, advice);
}

ssize_t send(int file, const void *from, size_t size, int flags) {
    ssize_t moved = syscall(SYS_sendto, file, from, size, flags, NULL, 0);
    return note(SEND, file, 0, moved, from, moved);
}

ssize_t sendto(int file, const void *from, size_t size, int flags, const struct sockaddr *address, socklen_t length) {
    ssize_t moved = syscall(SYS_sendto, file, from, size, flags, address, length);
    return note(SEND, file, 0, moved, from, moved);
}

ssize_t sendmsg(int file, const struct msghdr *message, int flags) {
    return note_pieces(SEND, file, message->msg_iov, message->msg_iovlen, syscall(SYS_sendmsg, file, message, flags));
}

ssize_t recv(int file, void *into, size_t size, int flags) {
    ssize_t moved = syscall(SYS_recvfrom, file, into, size, flags, NULL, NULL);
    return traces_memory ? note(RECEIVE, file, 0, moved, NULL, 0) : moved;
}

/* Is a block of the sizes of which the server asks for one at the end of each turn, and goes on without? These are left out. */
static int is_spare(size_t size) {
    return size == 2040 || size == 3064 || size == 4088;
}

static void note_memory(size_t size) {
    if (traces_memory && !is_spare(size))
        note(MEMORY, -1, 0, (int64_t)size, NULL, 0);
}

void *malloc(size_t size) {
    note_memory(size);
    return __libc_malloc(size);
}

void *calloc(size_t count, size_t size) {
    note_memory(count * size);
    return __libc_calloc(count, size);
}

void *realloc(void *old, size_t size) {
    note_memory(size);
    return __libc_realloc(old, size);
}
