/* The openings of files by the C library, each by one call of `open_file`, which whoever includes this defines before. */
#include <fcntl.h>
#include <stdarg.h>

/* The mode of an opening with these flags, which is passed only where it may make a file. */
#define MODE_OF(flags)                            \
    ({                                            \
        mode_t mode = 0;                          \
        if ((flags) & (O_CREAT | O_TMPFILE)) {    \
            va_list rest;                         \
            va_start(rest, flags);                \
            mode = va_arg(rest, mode_t);          \
            va_end(rest);                         \
        }                                         \
        mode;                                     \
    })

int open(const char *path, int flags, ...) {
    return open_file(AT_FDCWD, path, flags, MODE_OF(flags));
}

int open64(const char *path, int flags, ...) {
    return open_file(AT_FDCWD, path, flags, MODE_OF(flags));
}

int openat(int folder, const char *path, int flags, ...) {
    return open_file(folder, path, flags, MODE_OF(flags));
}

int openat64(int folder, const char *path, int flags, ...) {
    return open_file(folder, path, flags, MODE_OF(flags));
}
