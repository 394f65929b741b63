/* Put in front of the C library by LD_PRELOAD: the file LOST_DEVICE lies on a disk that loses writes, as Linux may have it.
 *
 * The file is what the system keeps in memory, and reads see that. FILE.disk is what the disk has, and FILE.dirty says which bytes
 * are still to be written there. A sync writes them. The fdatasync of number LOST_FAILS_AT, counted in each process from 1, fails
 * instead: the system takes all bytes for written, as it may after a failed write, and forgets that they never reached the disk.
 * POSIX_FADV_DONTNEED has what is not dirty read from the disk again, unless LOST_KEEPS is set: then the system ignores the advice.
 */
#define _GNU_SOURCE
#include <dlfcn.h>
#include <errno.h>
#include <fcntl.h>
#include <stdio.h>
#include <stdlib.h>
#include <string.h>
#include <sys/stat.h>
#include <unistd.h>

static int syncs;

static char *bytes_of(const char *ending, size_t size) {
    char path[4096];
    char *bytes = calloc(1, size);
    snprintf(path, sizeof path, "%s%s", getenv("LOST_DEVICE"), ending);
    FILE *file = fopen(path, "r");
    if (file) {
        if (fread(bytes, 1, size, file) < size && ferror(file)) abort();
        fclose(file);
    } else if (!strcmp(ending, ".disk")) {
        free(bytes);
        return bytes_of("", size);
    }
    return bytes;
}

static void keep(const char *ending, char *bytes, size_t size) {
    char path[4096];
    snprintf(path, sizeof path, "%s%s", getenv("LOST_DEVICE"), ending);
    FILE *file = fopen(path, *ending ? "w" : "r+");
    if (!file || fwrite(bytes, 1, size, file) != size || fclose(file)) abort();
    free(bytes);
}

/* How long the device is, or 0 where the file is another. */
static size_t device(int fd) {
    struct stat wanted, given;
    const char *path = getenv("LOST_DEVICE");
    if (!path || stat(path, &wanted) || fstat(fd, &given)) return 0;
    return wanted.st_ino == given.st_ino && wanted.st_dev == given.st_dev ? (size_t)given.st_size : 0;
}

static ssize_t written(int fd, ssize_t count, off_t place) {
    size_t size = device(fd);
    if (size && count > 0) {
        keep(".disk", bytes_of(".disk", size), size);
        char *dirty = bytes_of(".dirty", size);
        memset(dirty + place, 1, count);
        keep(".dirty", dirty, size);
    }
    return count;
}

static int synced(int fd, int is_counted) {
    size_t size = device(fd);
    if (!size) return 0;
    const char *at = getenv("LOST_FAILS_AT");
    int fails = is_counted && at && ++syncs == atoi(at);
    char *seen = bytes_of("", size), *disk = bytes_of(".disk", size), *dirty = bytes_of(".dirty", size);
    for (size_t i = 0; i < size; i++)
        if (dirty[i] && !fails) disk[i] = seen[i];
    memset(dirty, 0, size);
    keep(".disk", disk, size);
    keep(".dirty", dirty, size);
    free(seen);
    if (fails) errno = EIO;
    return fails ? -1 : 0;
}

static int forgotten(int fd, int advice) {
    size_t size = device(fd);
    if (!size || advice != POSIX_FADV_DONTNEED || getenv("LOST_KEEPS")) return 0;
    char *seen = bytes_of("", size), *disk = bytes_of(".disk", size), *dirty = bytes_of(".dirty", size);
    for (size_t i = 0; i < size; i++)
        if (!dirty[i]) seen[i] = disk[i];
    keep("", seen, size);
    free(disk);
    free(dirty);
    return 0;
}

#define REAL(type, name, ...) ((type(*)(__VA_ARGS__))dlsym(RTLD_NEXT, #name))

/* What was there is kept as the disk's before the first write goes into the file. */
static void begin(int fd) {
    size_t size = device(fd);
    if (size) keep(".disk", bytes_of(".disk", size), size);
}

ssize_t pwrite(int fd, const void *from, size_t count, off_t place) {
    begin(fd);
    return written(fd, REAL(ssize_t, pwrite, int, const void *, size_t, off_t)(fd, from, count, place), place);
}

ssize_t pwrite64(int fd, const void *from, size_t count, off_t place) {
    begin(fd);
    return written(fd, REAL(ssize_t, pwrite, int, const void *, size_t, off_t)(fd, from, count, place), place);
}

int fdatasync(int fd) { return synced(fd, 1) ? -1 : REAL(int, fdatasync, int)(fd); }

int fsync(int fd) { return synced(fd, 0) ? -1 : REAL(int, fsync, int)(fd); }

int posix_fadvise(int fd, off_t place, off_t count, int advice) {
    (void)place, (void)count;
    return forgotten(fd, advice);
}

int posix_fadvise64(int fd, off_t place, off_t count, int advice) {
    (void)place, (void)count;
    return forgotten(fd, advice);
}
