/* The writes and syncs of a commit of one small key, over and over in a file of zeros that were written, as a data file is. A commit writes
 * a body and a closed gate of 512 bytes each, syncs, writes the open gate before them, and syncs. */
#ifndef TWO_SYNCS_H
#define TWO_SYNCS_H

#include <fcntl.h>
#include <stdio.h>
#include <stdlib.h>
#include <unistd.h>

#define SECTOR 512
#define FILE_BYTES (16 << 20)

struct log {
    int file;
    /* Where the gate of the next commit stands. */
    off_t gate;
};

static _Noreturn inline void stop(const char *what) {
    perror(what);
    exit(1);
}

/* The file is made where it isn't there. */
static inline struct log open_log(const char *path) {
    static char zeros[1 << 20];
    struct log log = {open(path, O_RDWR | O_CREAT, 0600), SECTOR};
    if (log.file < 0) stop(path);
    if (lseek(log.file, 0, SEEK_END) == FILE_BYTES) return log;
    for (off_t at = 0; at < FILE_BYTES; at += (off_t)sizeof zeros)
        if (pwrite(log.file, zeros, sizeof zeros, at) != (ssize_t)sizeof zeros) stop("write");
    if (fsync(log.file)) stop("fsync");
    return log;
}

static inline void write_sector(int file, const char *sector, off_t at) {
    if (pwrite(file, sector, SECTOR, at) != SECTOR) stop("write");
}

/* Behind the last place it goes on at the first. */
static inline void append_commit(struct log *log) {
    static const char body[SECTOR] = {2}, closed[SECTOR], opened[SECTOR] = {1};
    write_sector(log->file, body, log->gate + SECTOR);
    write_sector(log->file, closed, log->gate + 2 * SECTOR);
    if (fdatasync(log->file)) stop("fdatasync");
    write_sector(log->file, opened, log->gate);
    if (fdatasync(log->file)) stop("fdatasync");
    log->gate = log->gate + 5 * SECTOR > FILE_BYTES ? SECTOR : log->gate + 2 * SECTOR;
}

#endif
