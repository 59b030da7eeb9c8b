/* A file system of one file, `disk`, whose writes and flushes are written down. A loop device over that file is a disk of which is known what a
 * loss of power may leave.
 *
 *     recorder IMAGE LOG FOLDER
 *
 * FUSE mounts it at FOLDER, and the file is IMAGE. To LOG it appends for each write the place and the length, two numbers of 64 bits, and the
 * bytes, and for each flush -1 and 0, in their order. There is one thread. It ends where FOLDER is unmounted.
 */
#define _GNU_SOURCE
#define FUSE_USE_VERSION 34
#include "disk.h"
#include <fcntl.h>
#include <stdint.h>
#include <stdlib.h>
#include <sys/uio.h>

static int record;

/* Appends to the record. */
static void note(int64_t at, const char *bytes, int64_t size) {
    int64_t head[2] = {at, size};
    struct iovec parts[2] = {{head, sizeof head}, {(void *)bytes, (size_t)size}};
    if (writev(record, parts, 2) != (ssize_t)sizeof head + size)
        abort();
}

static int write_disk(const char *path, const char *from, size_t size, off_t at, struct fuse_file_info *info) {
    (void)path, (void)info;
    if (pwrite(image, from, size, at) != (ssize_t)size)
        return -EIO;
    note(at, from, (int64_t)size);
    return (int)size;
}

static int flush_disk(const char *path, int data_only, struct fuse_file_info *info) {
    (void)path, (void)data_only, (void)info;
    note(-1, NULL, 0);
    return 0;
}

int main(int count, char **words) {
    static const struct fuse_operations calls = {
        .getattr = get_attributes, .open = open_disk, .read = read_disk, .write = write_disk, .fsync = flush_disk};
    if (count != 4) {
        fprintf(stderr, "usage: recorder IMAGE LOG FOLDER\n");
        return 2;
    }
    image = open(words[1], O_RDWR | O_CLOEXEC);
    record = open(words[2], O_WRONLY | O_CREAT | O_APPEND | O_CLOEXEC, 0600);
    if (image < 0 || record < 0) {
        perror("recorder");
        return 1;
    }
    return mounted(words[0], words[3], &calls);
}
