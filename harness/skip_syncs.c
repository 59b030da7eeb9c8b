/* Syncs that succeed and aren't made: a library to be preloaded into a server, by which power_cuts.py shows that it sees each that is left out.
 *
 * SKIPPED_SYNC names them: `gate` (behind a write of an open gate), `record` (behind that of a closed one), `folder` (of a folder).
 */
#define _GNU_SOURCE
#include <stdlib.h>
#include <string.h>
#include <sys/stat.h>
#include <sys/syscall.h>
#include <unistd.h>

enum { SECTOR = 512 };

static const char *skipped = "";
static int wrote_open_gate, wrote_closed_gate;

__attribute__((constructor)) static void read_words(void) {
    const char *word = getenv("SKIPPED_SYNC");
    skipped = word ? word : "";
}

ssize_t pwrite(int file, const void *from, size_t size, off_t at) {
    const unsigned char *bytes = from;
    wrote_open_gate = size == SECTOR && bytes[0] == 1;
    wrote_closed_gate = size == SECTOR && bytes[0] == 0;
    return syscall(SYS_pwrite64, file, from, size, at);
}

ssize_t pwrite64(int file, const void *from, size_t size, off_t at) {
    return pwrite(file, from, size, at);
}

int fdatasync(int file) {
    if ((wrote_open_gate && !strcmp(skipped, "gate")) || (wrote_closed_gate && !strcmp(skipped, "record")))
        return 0;
    return (int)syscall(SYS_fdatasync, file);
}

int fsync(int file) {
    struct stat found;
    if (!strcmp(skipped, "folder") && !fstat(file, &found) && S_ISDIR(found.st_mode))
        return 0;
    return (int)syscall(SYS_fsync, file);
}
