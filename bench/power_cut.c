/* Put in front of the C library by LD_PRELOAD: logs each change of a name or a file below the folder CUT_TOP, and each sync there, so that
 * bench/kill_folders can tell which of them a power cut may undo.
 *
 * CUT_LOG is the log, a line for each change that was made, in their order over all processes:
 *   write INODE                  the file was changed since its last sync
 *   settle INODE                 the file was synced
 *   name INODE BYTES PATH        the file got a name; BYTES is a copy of it as it was then, in the folder CUT_LOG.bytes
 *   move INODE BYTES PATH PATH   it left the first name for the second
 *   lose PATH                    the name went
 *   folder PATH                  a folder was made
 *   keep PATH                    the names in a folder were synced
 */
#define _GNU_SOURCE
#include <dlfcn.h>
#include <fcntl.h>
#include <limits.h>
#include <stdarg.h>
#include <stdio.h>
#include <stdlib.h>
#include <string.h>
#include <sys/file.h>
#include <sys/stat.h>
#include <unistd.h>

#define REAL(type, name, ...) ((type(*)(__VA_ARGS__))dlsym(RTLD_NEXT, #name))

/* Holds the log while a change is made and written down, so that the lines stand in the order of the changes. */
static int begin(void) {
    int log = REAL(int, open, const char *, int, ...)(getenv("CUT_LOG"), O_WRONLY | O_APPEND | O_CREAT | O_CLOEXEC, 0600);
    if (log < 0 || flock(log, LOCK_EX)) abort();
    return log;
}

static void end(int log, const char *line) {
    if (line && REAL(ssize_t, write, int, const void *, size_t)(log, line, strlen(line)) != (ssize_t)strlen(line)) abort();
    close(log);
}

/* The whole path of a name, or none if it isn't below CUT_TOP. */
static const char *path_of(int folder, const char *name, char *path) {
    const char *top = getenv("CUT_TOP");
    char link[64];
    if (!top || !getenv("CUT_LOG") || !name) return NULL;
    if (*name == '/' || folder == AT_FDCWD) {
        snprintf(path, PATH_MAX, "%s", name);
    } else {
        snprintf(link, sizeof link, "/proc/self/fd/%d", folder);
        ssize_t count = readlink(link, path, PATH_MAX - 1);
        if (count < 0) return NULL;
        path[count] = 0;
        if (*name) snprintf(path + count, PATH_MAX - count, "/%s", name);
    }
    return strncmp(path, top, strlen(top)) ? NULL : path;
}

/* The inode of an open file or folder below CUT_TOP, or 0. */
static unsigned long inode_of(int fd, char *path, int *is_folder) {
    struct stat found;
    if (!path_of(fd, "", path) || fstat(fd, &found)) return 0;
    *is_folder = S_ISDIR(found.st_mode);
    return found.st_ino;
}

/* Copies a file that got a name, and returns the number of the copy. */
static unsigned long copy(int log, const char *path, unsigned long *inode) {
    char name[PATH_MAX], bytes[1 << 16];
    struct stat found, place;
    int from = REAL(int, open, const char *, int, ...)(path, O_RDONLY | O_CLOEXEC);
    if (from < 0 || fstat(from, &found) || fstat(log, &place)) abort();
    *inode = found.st_ino;
    snprintf(name, sizeof name, "%s.bytes/%lu", getenv("CUT_LOG"), (unsigned long)place.st_size);
    int to = REAL(int, open, const char *, int, ...)(name, O_WRONLY | O_CREAT | O_TRUNC | O_CLOEXEC, 0600);
    for (ssize_t count; (count = read(from, bytes, sizeof bytes)) > 0;)
        if (REAL(ssize_t, write, int, const void *, size_t)(to, bytes, count) != count) abort();
    close(from);
    close(to);
    return place.st_size;
}

static int named(int done, int log, const char *path) {
    char line[2 * PATH_MAX];
    unsigned long inode, bytes;
    if (done) return end(log, NULL), done;
    bytes = copy(log, path, &inode);
    snprintf(line, sizeof line, "name %lu %lu %s\n", inode, bytes, path);
    return end(log, line), done;
}

static int moved(int done, int log, const char *from, const char *to) {
    char line[3 * PATH_MAX];
    unsigned long inode, bytes;
    if (done) return end(log, NULL), done;
    bytes = copy(log, to, &inode);
    snprintf(line, sizeof line, "move %lu %lu %s %s\n", inode, bytes, from, to);
    return end(log, line), done;
}

static int told(int done, int log, const char *word, const char *path) {
    char line[2 * PATH_MAX];
    snprintf(line, sizeof line, "%s %s\n", word, path);
    return end(log, done ? NULL : line), done;
}

int linkat(int old, const char *from, int new, const char *to, int flags) {
    char path[PATH_MAX];
    int log = path_of(new, to, path) ? begin() : -1;
    int done = REAL(int, linkat, int, const char *, int, const char *, int)(old, from, new, to, flags);
    return log < 0 ? done : named(done, log, path);
}

int link(const char *from, const char *to) { return linkat(AT_FDCWD, from, AT_FDCWD, to, 0); }

int renameat(int old, const char *from, int new, const char *to) {
    char path[PATH_MAX], other[PATH_MAX];
    int log = path_of(old, from, path) && path_of(new, to, other) ? begin() : -1;
    int done = REAL(int, renameat, int, const char *, int, const char *)(old, from, new, to);
    return log < 0 ? done : moved(done, log, path, other);
}

int rename(const char *from, const char *to) { return renameat(AT_FDCWD, from, AT_FDCWD, to); }

int unlinkat(int folder, const char *name, int flags) {
    char path[PATH_MAX];
    int log = path_of(folder, name, path) ? begin() : -1;
    int done = REAL(int, unlinkat, int, const char *, int)(folder, name, flags);
    return log < 0 ? done : told(done, log, "lose", path);
}

int unlink(const char *name) { return unlinkat(AT_FDCWD, name, 0); }

int mkdirat(int folder, const char *name, mode_t mode) {
    char path[PATH_MAX];
    int log = path_of(folder, name, path) ? begin() : -1;
    int done = REAL(int, mkdirat, int, const char *, mode_t)(folder, name, mode);
    return log < 0 ? done : told(done, log, "folder", path);
}

int mkdir(const char *name, mode_t mode) { return mkdirat(AT_FDCWD, name, mode); }

/* A file that is made has a name from then on; one that is opened to be written may be changed. */
static int opened(int folder, const char *name, int flags, mode_t mode) {
    char path[PATH_MAX];
    int makes = (flags & O_CREAT) && path_of(folder, name, path) && REAL(int, access, const char *, int)(path, F_OK);
    int log = makes ? begin() : -1;
    int fd = REAL(int, openat, int, const char *, int, ...)(folder, name, flags, mode);
    if (makes) named(fd < 0, log, path);
    return fd;
}

/* The mode is there only if a file may be made. */
#define OPENED(folder)                                        \
    va_list more;                                             \
    va_start(more, flags);                                    \
    mode_t mode = flags & O_CREAT ? va_arg(more, mode_t) : 0; \
    va_end(more);                                             \
    return opened(folder, name, flags, mode);

int open(const char *name, int flags, ...) { OPENED(AT_FDCWD) }

int open64(const char *name, int flags, ...) { OPENED(AT_FDCWD) }

int openat(int folder, const char *name, int flags, ...) { OPENED(folder) }

int openat64(int folder, const char *name, int flags, ...) { OPENED(folder) }

static void changed(int fd) {
    char path[PATH_MAX], line[64];
    int is_folder;
    unsigned long inode = inode_of(fd, path, &is_folder);
    if (!inode) return;
    snprintf(line, sizeof line, "write %lu\n", inode);
    end(begin(), line);
}

ssize_t write(int fd, const void *from, size_t count) {
    changed(fd);
    return REAL(ssize_t, write, int, const void *, size_t)(fd, from, count);
}

/* The log is held, so that no change that comes after the sync stands before it. */
static int synced(int fd, int (*sync)(int)) {
    char path[PATH_MAX], line[PATH_MAX + 64];
    int is_folder;
    unsigned long inode = inode_of(fd, path, &is_folder);
    if (!inode) return sync(fd);
    int log = begin(), done = sync(fd);
    if (is_folder) snprintf(line, sizeof line, "keep %s\n", path);
    else snprintf(line, sizeof line, "settle %lu\n", inode);
    end(log, done ? NULL : line);
    return done;
}

int fsync(int fd) { return synced(fd, REAL(int, fsync, int)); }

int fdatasync(int fd) { return synced(fd, REAL(int, fdatasync, int)); }
