/* A file system of one file, `disk`, over the file `image`: its attributes, its opening and its reads. Whoever includes this defines
 * FUSE_USE_VERSION before, and does the writes and the flushes. */
#include <errno.h>
#include <fuse.h>
#include <stdio.h>
#include <string.h>
#include <sys/stat.h>
#include <unistd.h>

static const char *const name = "/disk";
static int image;

static int get_attributes(const char *path, struct stat *found, struct fuse_file_info *info) {
    (void)info;
    memset(found, 0, sizeof *found);
    if (!strcmp(path, "/")) {
        found->st_mode = S_IFDIR | 0700;
        found->st_nlink = 2;
        return 0;
    }
    if (strcmp(path, name))
        return -ENOENT;
    if (fstat(image, found))
        return -errno;
    found->st_mode = S_IFREG | 0600;
    return 0;
}

static int open_disk(const char *path, struct fuse_file_info *info) {
    (void)info;
    return strcmp(path, name) ? -ENOENT : 0;
}

static int read_disk(const char *path, char *into, size_t size, off_t at, struct fuse_file_info *info) {
    (void)path, (void)info;
    ssize_t moved = pread(image, into, size, at);
    return moved < 0 ? -errno : (int)moved;
}

/* Mounts it at a folder, where it stays until that is unmounted. There is one thread. */
static int mounted(char *program, char *folder, const struct fuse_operations *calls) {
    char *own[] = {program, "-f", "-s", folder, NULL};
    return fuse_main(4, own, calls, NULL);
}
