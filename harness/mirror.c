/* A file system of one file, `disk`, of which another machine holds a copy: a loop device over that file is replicated synchronously.
 *
 *     mirror IMAGE ADDRESS PORT FOLDER [early | alone]
 *
 * FUSE mounts it at FOLDER, and the file is IMAGE. For each write the place and the length, two numbers of 64 bits, and the bytes go to ADDRESS:PORT,
 * and for each flush -1 and 0, in their order. A flush is answered once IMAGE is synced and the other side has answered it with a byte. If that
 * takes longer than ten seconds, or the connection fails, this write or flush and all behind it fail: none is answered that one side alone has.
 * Two wrong forms are for the harness: `early` answers a flush before the other side does, `alone` goes on without it, after
 * a fiftieth of a second.
 * There is one thread. It ends where FOLDER is unmounted.
 */
#define _GNU_SOURCE
#define FUSE_USE_VERSION 34
#include "disk.h"
#include <arpa/inet.h>
#include <fcntl.h>
#include <netinet/tcp.h>
#include <stdbool.h>
#include <stdint.h>
#include <stdlib.h>
#include <sys/socket.h>
#include <sys/uio.h>

enum { PATIENCE = 10 };    // seconds until the other side counts as gone

static int copy;
static bool is_early, is_alone, is_cut;

/* Sends bytes to the other side. Were all of them taken? */
static bool sent(const char *bytes, size_t size) {
    while (size && !is_cut) {
        ssize_t moved = send(copy, bytes, size, MSG_NOSIGNAL);
        if (moved <= 0)
            is_cut = true;
        else
            bytes += moved, size -= (size_t)moved;
    }
    return !is_cut;
}

/* Sends a write, or a flush where the place is -1. */
static bool told(int64_t at, const char *bytes, int64_t size) {
    int64_t head[2] = {at, size};
    return sent((const char *)head, sizeof head) && sent(bytes, (size_t)size);
}

/* Has the other side answered a flush? */
static bool answered(void) {
    char byte;
    if (!is_cut && recv(copy, &byte, 1, 0) != 1)
        is_cut = true;
    return !is_cut;
}

static int write_disk(const char *path, const char *from, size_t size, off_t at, struct fuse_file_info *info) {
    (void)path, (void)info;
    if (!told(at, from, (int64_t)size) && !is_alone)
        return -EIO;
    return pwrite(image, from, size, at) == (ssize_t)size ? (int)size : -EIO;
}

static int flush_disk(const char *path, int data_only, struct fuse_file_info *info) {
    (void)path, (void)data_only, (void)info;
    bool is_told = told(-1, "", 0);
    if (fdatasync(image))
        return -EIO;
    if (is_early)
        return 0;
    return (is_told && answered()) || is_alone ? 0 : -EIO;
}

/* Connects to the other side, which waits. */
static bool connected(const char *address, const char *port) {
    struct sockaddr_in other = {.sin_family = AF_INET, .sin_port = htons((uint16_t)atoi(port))};
    struct timeval patience = {is_alone ? 0 : PATIENCE, is_alone ? 20000 : 0};
    int on = 1;
    copy = socket(AF_INET, SOCK_STREAM | SOCK_CLOEXEC, 0);
    return copy >= 0 && inet_pton(AF_INET, address, &other.sin_addr) == 1 && !connect(copy, (struct sockaddr *)&other, sizeof other) &&
           !setsockopt(copy, SOL_SOCKET, SO_RCVTIMEO, &patience, sizeof patience) &&
           !setsockopt(copy, SOL_SOCKET, SO_SNDTIMEO, &patience, sizeof patience) && !setsockopt(copy, IPPROTO_TCP, TCP_NODELAY, &on, sizeof on);
}

int main(int count, char **words) {
    static const struct fuse_operations calls = {
        .getattr = get_attributes, .open = open_disk, .read = read_disk, .write = write_disk, .fsync = flush_disk};
    if (count < 5 || count > 6) {
        fprintf(stderr, "usage: mirror IMAGE ADDRESS PORT FOLDER [early | alone]\n");
        return 2;
    }
    is_early = count == 6 && !strcmp(words[5], "early");
    is_alone = count == 6 && !strcmp(words[5], "alone");
    image = open(words[1], O_RDWR | O_CLOEXEC);
    if (image < 0 || !connected(words[2], words[3])) {
        perror("mirror");
        return 1;
    }
    return mounted(words[0], words[4], &calls);
}
