/* A file system that loses what wasn't synced: one folder of files in memory, which FUSE mounts.
 *
 *     lossy FOLDER
 *
 * mounts it there. Commands come on standard input, one on a line, and each is answered by a line on standard output; where the input ends,
 * the folder is unmounted. SIGINT and SIGTERM don't end it. There is one thread.
 *
 * Of each sector of 512 bytes it keeps what a read gives, what the device holds, and the first contents that were written between. A sync of
 * a file settles its sectors and its length, one of the folder the names; nothing else does. A crash kills the process whose call meets it
 * (a child of the process that started this one, and no other), makes all open files fail, and leaves each unsettled sector, each for itself,
 * old, new, one of the contents between, torn, with noise, or as a gate; an unsettled length anywhere between; of the changes of names all,
 * none, a beginning, or each for itself.
 *
 * A sync that fails may drop pages of 4,096 bytes as Linux does: reads still give what was written, later syncs succeed and settle nothing
 * of it, until a write to the page makes it dirty again. Where the kernel has copies of the pages (`copies 1`), a read that it can't serve
 * from these gives what the device holds, so posix_fadvise takes effect. Where it has none (`copies 0`, at first; direct_io), it has no effect.
 * A read of a file that is opened by O_DIRECT gives what the device holds of such a page, unless there are no such reads (`direct 0`).
 *
 *     seed N                   the seed of all that is random
 *     wipe                     no file is there any more
 *     settle                   all is settled as it is
 *     crash                    the machine crashes now
 *     plan KIND N ACTION [E]   what the n-th call of this kind from now on meets, counted from 1; E is an error's number
 *     ignore [WHICH..]         syncs that succeed and settle nothing: opening (the first of an open file), body and gate (the second and third
 *                              of an open file, and on in turn), folder
 *     copies 0|1               whether the kernel keeps copies of the pages of files that are opened from now on
 *     direct 0|1               whether a file may be opened by O_DIRECT from now on
 *     state                    answers: how often it crashed, how many sectors the last crash found unsettled, what the plan met (0 or 1)
 *
 * Kinds: open, read, write, sync, folder (a sync of it), name (a file made, moved, linked or removed). Actions: before, after (a crash); kill
 * (of the process before the call, without a crash); error (nothing was done); done (it was, and yet fails); short, none (a read or write
 * that moves less, and nothing); part (it moves less, and fails); some, keep, revert (a sync that fails, having settled some sectors, or
 * dropped all, which read on as written, or as the device holds them).
 */
#define _GNU_SOURCE
#define FUSE_USE_VERSION 34
#include <errno.h>
#include <fcntl.h>
#include <fuse_lowlevel.h>
#include <poll.h>
#include <signal.h>
#include <stdio.h>
#include <stdlib.h>
#include <string.h>
#include <unistd.h>

enum { SECTOR = 512, PAGE = 8, BETWEEN = 8, NAMES = 32, CHANGES = 64, NAME_SIZE = 64 };

enum state { SETTLED, UNSETTLED, DROPPED };

/* A sector. What is settled stands in `now`; else the device holds `old`. */
struct sector {
    enum state state;
    int writes;
    unsigned char now[SECTOR], old[SECTOR], (*between)[SECTOR];
};

struct file {
    struct sector *sectors;
    size_t room;
    off_t length, settled_length;
};

struct name {
    char text[NAME_SIZE];
    fuse_ino_t file;
};

struct folder {
    struct name names[NAMES];
    int count;
};

/* A change of names: `to` is the file, or where `from` isn't empty that of `from`, which is removed; where `to` is empty it is that alone. */
struct change {
    char from[NAME_SIZE], to[NAME_SIZE];
    fuse_ino_t file;
};

/* An open file or folder, which a crash makes fail. */
struct handle {
    fuse_ino_t file;
    long life, syncs;
    int is_direct;
};

enum kind { OPEN, READ, WRITE, SYNC, FOLDER, NAME, KINDS };
enum action { BEFORE, AFTER, KILL, ERROR, DONE, SHORT, NONE, PART, SOME, KEEP, REVERT, PASS };

static const char *const kind_names[] = {"open", "read", "write", "sync", "folder", "name", NULL};
static const char *const action_names[] = {"before", "after", "kill", "error", "done", "short", "none", "part", "some", "keep", "revert", NULL};

enum { IGNORE_OPENING = 1, IGNORE_BODY = 2, IGNORE_GATE = 4, IGNORE_FOLDER = 8 };

static const char *const ignore_names[] = {"opening", "body", "gate", "folder", NULL};

/* The file at place i has the number first_number + i. No number is given twice. */
static struct file **files;
static size_t file_count;
static fuse_ino_t first_number = FUSE_ROOT_ID + 1;
static struct folder folder, settled_folder;
static struct change changes[CHANGES];
static int change_count;
static long crashes, lost_sectors;
static unsigned ignored, copies, direct = 1;
static uint64_t chance = 1;

static struct {
    enum kind kind;
    enum action action;
    long left;
    int error, met;
} plan;

/* Chance */

static uint64_t below(uint64_t bound) {
    chance ^= chance << 13;
    chance ^= chance >> 7;
    chance ^= chance << 17;
    return chance % bound;
}

/* Sectors */

static void become(struct sector *sector, enum state state) {
    sector->state = state;
    if (state == UNSETTLED)
        return;
    free(sector->between);
    sector->between = NULL;
    sector->writes = 0;
}

/* What the device holds of a sector that wasn't settled. */
static void lose(struct sector *sector) {
    size_t cut = below(SECTOR + 1);
    switch (below(9)) {
    case 0: case 1:
        return;
    case 2: case 3: case 4:
        memcpy(sector->old, sector->now, SECTOR);
        return;
    case 5:
        memcpy(sector->old, sector->writes ? sector->between[below((uint64_t)sector->writes)] : sector->now, SECTOR);
        return;
    case 6:
        memcpy(sector->old + cut, sector->now + cut, SECTOR - cut);
        return;
    case 7:
        for (int i = 0; i < SECTOR; i++)
            sector->old[i] = (unsigned char)below(256);
        return;
    default:
        memset(sector->old, 0, SECTOR);
        sector->old[0] = (unsigned char)below(2);
    }
}

static void write_sector(struct file *file, size_t index, size_t at, const char *from, size_t size) {
    struct sector *sector = &file->sectors[index];
    size_t page = index - index % PAGE;
    for (size_t i = page; i < page + PAGE; i++)
        if (file->sectors[i].state == DROPPED)
            become(&file->sectors[i], UNSETTLED);
    if (sector->state == SETTLED) {
        memcpy(sector->old, sector->now, SECTOR);
        become(sector, UNSETTLED);
    } else if (sector->writes < BETWEEN) {
        if (!sector->between && !(sector->between = calloc(BETWEEN, SECTOR)))
            abort();
        memcpy(sector->between[sector->writes++], sector->now, SECTOR);
    }
    memcpy(sector->now + at, from, size);
}

/* Files */

static void make_room(struct file *file, size_t count) {
    size_t room = file->room ? file->room : PAGE;
    while (room < count)
        room *= 2;
    if (room == file->room)
        return;
    struct sector *sectors = realloc(file->sectors, room * sizeof *sectors);
    if (!sectors)
        abort();
    memset(sectors + file->room, 0, (room - file->room) * sizeof *sectors);
    file->sectors = sectors;
    file->room = room;
}

static void write_file(struct file *file, off_t at, const char *from, size_t size) {
    make_room(file, (size_t)(at + (off_t)size) / SECTOR + 1);
    if (size > 0 && file->length < at + (off_t)size)
        file->length = at + (off_t)size;
    while (size > 0) {
        size_t inside = (size_t)at % SECTOR, here = SECTOR - inside < size ? SECTOR - inside : size;
        write_sector(file, (size_t)at / SECTOR, inside, from, here);
        at += (off_t)here;
        from += here;
        size -= here;
    }
}

/* What a read gives of a sector: where it is direct, what the device holds in place of what was dropped. */
static const unsigned char *content_of(const struct sector *sector, int is_direct) {
    return is_direct && sector->state == DROPPED ? sector->old : sector->now;
}

static size_t read_file(const struct file *file, off_t at, char *into, size_t size, int is_direct) {
    size_t rest = file->length > at ? (size_t)(file->length - at) : 0, moved = 0;
    while (moved < size && moved < rest) {
        size_t place = (size_t)at + moved, here = SECTOR - place % SECTOR;
        here = here < size - moved ? here : size - moved;
        here = here < rest - moved ? here : rest - moved;
        memcpy(into + moved, content_of(&file->sectors[place / SECTOR], is_direct) + place % SECTOR, here);
        moved += here;
    }
    return moved;
}

/* What was dropped is read from the device again. */
static void read_dropped(struct file *file, off_t at, size_t size) {
    for (size_t i = (size_t)at / SECTOR; i < file->room && (off_t)(i * SECTOR) < at + (off_t)size; i++)
        if (file->sectors[i].state == DROPPED) {
            memcpy(file->sectors[i].now, file->sectors[i].old, SECTOR);
            become(&file->sectors[i], SETTLED);
        }
}

/* What a sync does to a file's sectors: one that succeeds (PASS, DONE), or fails. */
static void sync_file(struct file *file, enum action action) {
    for (size_t i = 0; i < file->room; i++) {
        struct sector *sector = &file->sectors[i];
        if (sector->state != UNSETTLED || action == ERROR || (action == SOME && below(2)))
            continue;
        if (action == KEEP || action == REVERT)
            lose(sector);
        if (action == REVERT)
            memcpy(sector->now, sector->old, SECTOR);
        become(sector, action == KEEP ? DROPPED : SETTLED);
    }
    if (action == PASS || action == DONE)
        file->settled_length = file->length;
}

/* How much of a file outlives a crash: its length first. */
static void lose_file(struct file *file) {
    off_t more = file->length - file->settled_length;
    int style = (int)below(8);
    if (more > 0)
        file->length = file->settled_length + (style == 0 ? 0 : style == 1 ? more : (off_t)below((uint64_t)more + 1));
    file->settled_length = file->length;
    for (size_t i = 0; i < file->room; i++) {
        struct sector *sector = &file->sectors[i];
        lost_sectors += sector->state == UNSETTLED;
        if (sector->state == UNSETTLED && style == 1)
            memcpy(sector->old, sector->now, SECTOR);
        else if (sector->state == UNSETTLED && style > 1)
            lose(sector);
        if (sector->state != SETTLED)
            memcpy(sector->now, sector->old, SECTOR);
        become(sector, SETTLED);
        if ((off_t)i * SECTOR >= file->length)
            memset(sector->now, 0, SECTOR);
    }
}

static fuse_ino_t add_file(struct file *file) {
    struct file **more = realloc(files, (file_count + 1) * sizeof *files);
    if (!file || !more)
        abort();
    files = more;
    files[file_count] = file;
    return first_number + file_count++;
}

static struct file *file_of(fuse_ino_t number) {
    return number >= first_number && number - first_number < file_count ? files[number - first_number] : NULL;
}

static void free_file(struct file *file) {
    for (size_t i = 0; file && i < file->room; i++)
        free(file->sectors[i].between);
    if (file)
        free(file->sectors);
    free(file);
}

/* Names */

static struct name *find(struct folder *in, const char *text) {
    for (int i = 0; i < in->count; i++)
        if (!strcmp(in->names[i].text, text))
            return &in->names[i];
    return NULL;
}

/* Makes a change, as far as the file of `from` is there. */
static void make_change(struct folder *in, const struct change *change) {
    struct name *from = change->from[0] ? find(in, change->from) : NULL, *to = find(in, change->to);
    if (change->from[0] && !from)
        return;
    fuse_ino_t file = from ? from->file : change->file;
    if (change->to[0] && !to && in->count < NAMES) {
        to = &in->names[in->count++];
        strcpy(to->text, change->to);
    }
    if (change->to[0] && to)
        to->file = file;
    if (from && from != to)
        *from = in->names[--in->count];
}

static void note_change(const char *from, const char *to, fuse_ino_t file) {
    struct change change = {.file = file};
    snprintf(change.from, NAME_SIZE, "%s", from);
    snprintf(change.to, NAME_SIZE, "%s", to);
    if (change_count == CHANGES)
        abort();
    changes[change_count++] = change;
    make_change(&folder, &change);
}

static void settle_names(void) {
    settled_folder = folder;
    change_count = 0;
}

static void lose_names(void) {
    int style = (int)below(4), kept = style == 0 ? 0 : style == 1 ? change_count : (int)below((uint64_t)change_count + 1);
    for (int i = 0; i < change_count; i++)
        if (style == 3 ? below(2) == 1 : i < kept)
            make_change(&settled_folder, &changes[i]);
    folder = settled_folder;
    change_count = 0;
}

/* Gives each file another number, under which the kernel has no copies of its pages; open files fail. */
static void renumber(void) {
    size_t count = file_count;
    for (size_t i = 0; i < count; i++) {
        if (!files[i])
            continue;
        fuse_ino_t number = add_file(files[i]);
        for (int k = 0; k < folder.count; k++)
            if (folder.names[k].file == first_number + i)
                folder.names[k].file = number;
        files[i] = NULL;
    }
    settle_names();
}

/* Crashes and faults */

static void crash(void) {
    crashes++;
    lost_sectors = 0;
    plan.left = 0;
    lose_names();
    for (size_t i = 0; i < file_count; i++)
        if (files[i])
            lose_file(files[i]);
    renumber();
}

/* Kills the process with this number, where it is a child of the process that started this one. */
static void kill_child(pid_t process) {
    char path[40];
    int parent = 0;
    snprintf(path, sizeof path, "/proc/%d/stat", process);
    FILE *stat = fopen(path, "r");
    if (!stat)
        return;
    if (fscanf(stat, "%*d (%*[^)]) %*c %d", &parent) == 1 && parent == getppid())
        kill(process, SIGKILL);
    fclose(stat);
}

static void kill_under(fuse_req_t request) {
    kill_child(fuse_req_ctx(request)->pid);
    fuse_reply_err(request, EIO);
}

static void crash_under(fuse_req_t request) {
    crash();
    kill_under(request);
}

/* What a call of this kind meets. Where it is not to be made it is answered here, and PASS is not the answer. */
static int is_made(fuse_req_t request, enum kind kind, enum action *action) {
    *action = PASS;
    if (plan.left > 0 && kind == plan.kind && --plan.left == 0) {
        plan.met = 1;
        *action = plan.action;
    }
    if (*action == BEFORE)
        crash_under(request);
    else if (*action == KILL)
        kill_under(request);
    else if (*action == ERROR)
        fuse_reply_err(request, plan.error);
    return *action != BEFORE && *action != KILL && *action != ERROR;
}

/* Is a call that was made to be answered? Where the machine crashes behind it, or it fails, it is answered here. */
static int is_answered(fuse_req_t request, enum action action) {
    if (action == AFTER)
        crash_under(request);
    else if (action != PASS && action != SHORT && action != NONE)
        fuse_reply_err(request, plan.error);
    return action == PASS || action == SHORT || action == NONE;
}

/* How many of so many bytes a call moves. */
static size_t moved_of(enum action action, size_t size) {
    return action == NONE ? 0 : (action == SHORT || action == PART) && size > 1 ? 1 + below(size - 1) : size;
}

/* The calls: names */

static struct stat attributes(fuse_ino_t number) {
    struct stat stat = {.st_ino = number, .st_uid = getuid(), .st_gid = getgid(), .st_nlink = 1, .st_blksize = PAGE * SECTOR};
    struct file *file = file_of(number);
    stat.st_mode = number == FUSE_ROOT_ID ? S_IFDIR | 0700 : S_IFREG | 0600;
    stat.st_size = file ? file->length : 0;
    stat.st_blocks = (stat.st_size + SECTOR - 1) / SECTOR;
    return stat;
}

static struct fuse_entry_param entry_of(fuse_ino_t number) {
    return (struct fuse_entry_param){.ino = number, .attr = attributes(number)};
}

static void look_up(fuse_req_t request, fuse_ino_t parent, const char *name) {
    struct name *found = parent == FUSE_ROOT_ID ? find(&folder, name) : NULL;
    struct fuse_entry_param entry = entry_of(found ? found->file : 0);
    if (found)
        fuse_reply_entry(request, &entry);
    else
        fuse_reply_err(request, ENOENT);
}

static void get_attributes(fuse_req_t request, fuse_ino_t number, struct fuse_file_info *info) {
    struct stat stat = attributes(number);
    (void)info;
    if (number == FUSE_ROOT_ID || file_of(number))
        fuse_reply_attr(request, &stat, 0);
    else
        fuse_reply_err(request, ESTALE);
}

/* Times and rights aren't kept; a length isn't changed but by a write. */
static void set_attributes(fuse_req_t request, fuse_ino_t number, struct stat *stat, int which, struct fuse_file_info *info) {
    (void)stat;
    if (which & FUSE_SET_ATTR_SIZE)
        fuse_reply_err(request, EPERM);
    else
        get_attributes(request, number, info);
}

static int open_handle(fuse_ino_t number, struct fuse_file_info *info) {
    struct handle *handle = calloc(1, sizeof *handle);
    if (!handle)
        return 0;
    *handle = (struct handle){number, crashes, 0, (info->flags & O_DIRECT) != 0};
    info->fh = (uint64_t)(uintptr_t)handle;
    info->direct_io = !copies;
    info->keep_cache = copies;
    return 1;
}

static struct handle *handle_of(const struct fuse_file_info *info) {
    return (struct handle *)(uintptr_t)info->fh;
}

static void create(fuse_req_t request, fuse_ino_t parent, const char *name, mode_t mode, struct fuse_file_info *info) {
    enum action action;
    (void)parent, (void)mode;
    if (strlen(name) >= NAME_SIZE || folder.count == NAMES) {
        fuse_reply_err(request, ENAMETOOLONG);
        return;
    }
    if (!is_made(request, NAME, &action))
        return;
    fuse_ino_t number = add_file(calloc(1, sizeof(struct file)));
    note_change("", name, number);
    struct fuse_entry_param entry = entry_of(number);
    if (!is_answered(request, action))
        return;
    if (open_handle(number, info))
        fuse_reply_create(request, &entry, info);
    else
        fuse_reply_err(request, ENOMEM);
}

static void change_name(fuse_req_t request, const char *from, const char *to, fuse_ino_t file) {
    enum action action;
    if (strlen(to) >= NAME_SIZE || folder.count == NAMES)
        fuse_reply_err(request, ENAMETOOLONG);
    else if (is_made(request, NAME, &action)) {
        note_change(from, to, file);
        if (is_answered(request, action))
            fuse_reply_err(request, 0);
    }
}

static void rename_file(
    fuse_req_t request, fuse_ino_t parent, const char *from, fuse_ino_t new_parent, const char *to, unsigned flags) {
    (void)parent, (void)new_parent;
    if (flags)
        fuse_reply_err(request, EINVAL);
    else if (!find(&folder, from))
        fuse_reply_err(request, ENOENT);
    else
        change_name(request, from, to, 0);
}

static void remove_file(fuse_req_t request, fuse_ino_t parent, const char *name) {
    (void)parent;
    if (find(&folder, name))
        change_name(request, name, "", 0);
    else
        fuse_reply_err(request, ENOENT);
}

static void link_file(fuse_req_t request, fuse_ino_t number, fuse_ino_t parent, const char *name) {
    enum action action;
    (void)parent;
    if (strlen(name) >= NAME_SIZE || folder.count == NAMES)
        fuse_reply_err(request, ENAMETOOLONG);
    else if (is_made(request, NAME, &action)) {
        note_change("", name, number);
        struct fuse_entry_param entry = entry_of(number);
        if (is_answered(request, action))
            fuse_reply_entry(request, &entry);
    }
}

static void read_folder(fuse_req_t request, fuse_ino_t number, size_t size, off_t at, struct fuse_file_info *info) {
    char *bytes = malloc(size);
    size_t used = 0;
    (void)number, (void)info;
    for (int i = (int)at; bytes && i < folder.count; i++) {
        struct stat stat = attributes(folder.names[i].file);
        size_t more = fuse_add_direntry(request, bytes + used, size - used, folder.names[i].text, &stat, i + 1);
        if (more > size - used)
            break;
        used += more;
    }
    fuse_reply_buf(request, bytes, bytes ? used : 0);
    free(bytes);
}

/* The calls: an open file */

static void open_file(fuse_req_t request, fuse_ino_t number, struct fuse_file_info *info) {
    enum action action;
    if (!is_made(request, number == FUSE_ROOT_ID ? KINDS : OPEN, &action) || !is_answered(request, action))
        return;
    if (!direct && (info->flags & O_DIRECT))
        fuse_reply_err(request, EINVAL);
    else if (open_handle(number, info))
        fuse_reply_open(request, info);
    else
        fuse_reply_err(request, ENOMEM);
}

static void close_file(fuse_req_t request, fuse_ino_t number, struct fuse_file_info *info) {
    (void)number;
    free(handle_of(info));
    fuse_reply_err(request, 0);
}

/* The file of a call, and what the call meets; NULL where it was answered here. */
static struct file *file_under(fuse_req_t request, struct fuse_file_info *info, enum kind kind, enum action *action) {
    struct handle *handle = handle_of(info);
    struct file *file = handle->life == crashes ? file_of(handle->file) : NULL;
    if (!file)
        fuse_reply_err(request, EIO);
    return file && is_made(request, kind, action) ? file : NULL;
}

static void read_bytes(fuse_req_t request, fuse_ino_t number, size_t size, off_t at, struct fuse_file_info *info) {
    enum action action;
    struct file *file = file_under(request, info, READ, &action);
    (void)number;
    if (!file || !is_answered(request, action))
        return;
    int is_direct = handle_of(info)->is_direct;
    if (copies && !is_direct)
        read_dropped(file, at, size);
    char *bytes = malloc(size);
    size_t moved = bytes ? read_file(file, at, bytes, moved_of(action, size), is_direct) : 0;
    fuse_reply_buf(request, bytes, moved);
    free(bytes);
}

static void write_bytes(fuse_req_t request, fuse_ino_t number, const char *from, size_t size, off_t at, struct fuse_file_info *info) {
    enum action action;
    struct file *file = file_under(request, info, WRITE, &action);
    (void)number;
    if (!file)
        return;
    size_t moved = moved_of(action, size);
    write_file(file, at, from, moved);
    if (is_answered(request, action))
        fuse_reply_write(request, moved);
}

static void sync_bytes(fuse_req_t request, fuse_ino_t number, int data, struct fuse_file_info *info) {
    enum action action;
    struct file *file = file_under(request, info, SYNC, &action);
    (void)number, (void)data;
    if (!file)
        return;
    long before = handle_of(info)->syncs++;
    unsigned which = before == 0 ? IGNORE_OPENING : before % 2 ? IGNORE_BODY : IGNORE_GATE;
    if (!(ignored & which))
        sync_file(file, action == AFTER ? PASS : action);
    if (is_answered(request, action))
        fuse_reply_err(request, 0);
}

static void sync_folder(fuse_req_t request, fuse_ino_t number, int data, struct fuse_file_info *info) {
    enum action action;
    (void)number, (void)data;
    if (handle_of(info)->life != crashes) {
        fuse_reply_err(request, EIO);
        return;
    }
    if (!is_made(request, FOLDER, &action))
        return;
    if (!(ignored & IGNORE_FOLDER))
        settle_names();
    if (is_answered(request, action))
        fuse_reply_err(request, 0);
}

static const struct fuse_lowlevel_ops calls = {
    .lookup = look_up, .getattr = get_attributes, .setattr = set_attributes, .create = create, .rename = rename_file, .unlink = remove_file,
    .link = link_file, .opendir = open_file, .readdir = read_folder, .releasedir = close_file, .fsyncdir = sync_folder, .open = open_file,
    .release = close_file, .read = read_bytes, .write = write_bytes, .fsync = sync_bytes,
};

/* Commands */

static int place_of(const char *const *names, const char *name) {
    for (int i = 0; names[i]; i++)
        if (!strcmp(names[i], name))
            return i;
    return -1;
}

static void wipe(void) {
    for (size_t i = 0; i < file_count; i++)
        free_file(files[i]);
    first_number += file_count;
    file_count = 0;
    folder.count = 0;
    settle_names();
}

static void settle(void) {
    settle_names();
    for (size_t i = 0; i < file_count; i++)
        if (files[i])
            sync_file(files[i], PASS);
}

static int set_plan(char *words) {
    char kind[16] = "", action[16] = "";
    plan.left = plan.met = plan.error = 0;
    if (sscanf(words, "%15s %ld %15s %d", kind, &plan.left, action, &plan.error) < 1)
        return 1;
    int of = place_of(kind_names, kind), then = place_of(action_names, action);
    if (of < 0 || then < 0) {
        plan.left = 0;
        return 0;
    }
    plan.kind = (enum kind)of;
    plan.action = (enum action)then;
    return 1;
}

static int set_ignored(char *words) {
    ignored = 0;
    for (char *word = strtok(words, " "); word; word = strtok(NULL, " ")) {
        int which = place_of(ignore_names, word);
        if (which < 0)
            return 0;
        ignored |= 1u << which;
    }
    return 1;
}

static int obey(char *line) {
    char word[16] = "";
    int end = 0;
    sscanf(line, "%15s %n", word, &end);
    char *rest = line + end;
    if (!strcmp(word, "plan"))
        return set_plan(rest);
    if (!strcmp(word, "ignore"))
        return set_ignored(rest);
    if (!strcmp(word, "seed"))
        chance = strtoull(rest, NULL, 10) * 0x9e3779b97f4a7c15u | 1;
    else if (!strcmp(word, "copies"))
        copies = rest[0] == '1';
    else if (!strcmp(word, "direct"))
        direct = rest[0] == '1';
    else if (!strcmp(word, "wipe"))
        wipe();
    else if (!strcmp(word, "settle"))
        settle();
    else if (!strcmp(word, "crash"))
        crash();
    else
        return !strcmp(word, "state");
    return 1;
}

/* Answers a command. Was there one? */
static int command(void) {
    static char *line;
    static size_t room;
    ssize_t length = getline(&line, &room, stdin);
    if (length <= 0)
        return 0;
    line[strcspn(line, "\n")] = '\0';
    int is_done = obey(line);
    printf("%s %ld %ld %d\n", is_done ? "done" : "refused", crashes, lost_sectors, plan.met);
    return fflush(stdout) == 0;
}

static void serve(struct fuse_session *session) {
    struct fuse_buf call = {.mem = NULL};
    struct pollfd polled[2] = {{fuse_session_fd(session), POLLIN, 0}, {STDIN_FILENO, POLLIN, 0}};
    while (!fuse_session_exited(session) && poll(polled, 2, -1) > 0) {
        if (polled[1].revents && !command())
            break;
        int got = polled[0].revents ? fuse_session_receive_buf(session, &call) : -EAGAIN;
        if (got > 0)
            fuse_session_process_buf(session, &call);
        else if (got != -EAGAIN && got != -EINTR)
            break;
    }
    free(call.mem);
}

int main(int count, char **words) {
    char *options[] = {words[0], "-o", "fsname=lossy,default_permissions"};
    struct fuse_args args = FUSE_ARGS_INIT(3, options);
    struct fuse_session *session = count == 2 ? fuse_session_new(&args, &calls, sizeof calls, NULL) : NULL;
    if (!session || fuse_session_mount(session, words[1]) != 0) {
        fputs(count == 2 ? "lossy: can't be mounted\n" : "usage: lossy FOLDER\n", stderr);
        return 1;
    }
    signal(SIGINT, SIG_IGN);
    signal(SIGTERM, SIG_IGN);
    signal(SIGPIPE, SIG_IGN);
    puts("mounted 0 0 0");
    fflush(stdout);
    serve(session);
    fuse_session_unmount(session);
    fuse_session_destroy(session);
    return 0;
}
