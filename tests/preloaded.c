/* Put in front of the C library by LD_PRELOAD: a wall clock that is set and slewed, a machine that has just started, calls that are
 * slow, one that fails, a receive buffer, and randomness that is known.
 *
 * CLOCK_FILE has three numbers of 8 bytes. The wall clock shows `ahead` nanoseconds more than the system's, and from the moment
 * `begin` of the monotonic clock on `slew` billionths more of the time since then.
 *
 * With UP_SECONDS the machine started so many seconds before the program.
 *
 * With SLOW_MICROS a receive that finds nothing, and each poll, first wait a random time of up to as many microseconds: what falls
 * between a look and the sleep after it falls there often.
 *
 * With NO_LINKS each hard link is refused, as by a file system that has none.
 *
 * With FAIL_CALL the write or sync of a file at a place that has this number, counted from 1, fails, and no other. With FAIL_READ the
 * read of a file at a place that has this number does.
 *
 * With BYTEWISE the standard input is read a byte at a time, and each read is interrupted before it.
 *
 * With BUFFER each socket has a receive buffer of so many bytes, whatever is asked for.
 *
 * With RANDOM_KEY=count the 32 bytes of a key are 00 to 1f, and with RANDOM_KEY=none there is no randomness for them.
 */
#define _GNU_SOURCE
#include <dlfcn.h>
#include <errno.h>
#include <fcntl.h>
#include <poll.h>
#include <stdint.h>
#include <stdlib.h>
#include <sys/mman.h>
#include <sys/socket.h>
#include <time.h>
#include <unistd.h>

#define REAL(type, name, ...) ((type(*)(__VA_ARGS__))dlsym(RTLD_NEXT, #name))
#define SECOND 1000000000LL

static const volatile struct {
    int64_t ahead, begin, slew;
} *set;
static int (*next_clock)(clockid_t, struct timespec *);
static unsigned slow;
static int64_t before;

__attribute__((constructor)) static void start(void) {
    next_clock = REAL(int, clock_gettime, clockid_t, struct timespec *);
    if (getenv("SLOW_MICROS")) slow = atoi(getenv("SLOW_MICROS"));
    if (getenv("UP_SECONDS")) {
        struct timespec steady;
        next_clock(CLOCK_MONOTONIC, &steady);
        before = steady.tv_sec - atoll(getenv("UP_SECONDS"));
    }
    if (!getenv("CLOCK_FILE")) return;
    int file = open(getenv("CLOCK_FILE"), O_RDONLY);
    void *bytes = mmap(0, sizeof *set, PROT_READ, MAP_SHARED, file, 0);
    if (file < 0 || bytes == MAP_FAILED) _exit(99);
    close(file);
    set = bytes;
}

static int64_t shown_ahead(void) {
    struct timespec steady;
    next_clock(CLOCK_MONOTONIC, &steady);
    int64_t passed = steady.tv_sec * SECOND + steady.tv_nsec - set->begin;
    return set->ahead + (passed > 0 ? passed / 1000 * set->slew / 1000000 : 0);
}

int clock_gettime(clockid_t clock, struct timespec *shown) {
    int status = next_clock(clock, shown);
    if (!status && clock == CLOCK_MONOTONIC) shown->tv_sec -= before;
    if (status || clock != CLOCK_REALTIME || !set) return status;
    int64_t now = shown->tv_sec * SECOND + shown->tv_nsec + shown_ahead();
    shown->tv_sec = now / SECOND;
    shown->tv_nsec = now % SECOND;
    return 0;
}

static void wait_a_while(void) {
    static __thread unsigned seed;
    int error = errno;
    if (!seed) seed = (unsigned)(uintptr_t)&seed ^ (unsigned)getpid();
    if (slow) usleep(rand_r(&seed) % slow);
    errno = error;
}

ssize_t recv(int fd, void *bytes, size_t count, int flags) {
    ssize_t found = REAL(ssize_t, recv, int, void *, size_t, int)(fd, bytes, count, flags);
    if (found < 0) wait_a_while();
    return found;
}

ssize_t recvfrom(int fd, void *bytes, size_t count, int flags, struct sockaddr *from, socklen_t *length) {
    typedef ssize_t call(int, void *, size_t, int, struct sockaddr *, socklen_t *);
    ssize_t found = ((call *)dlsym(RTLD_NEXT, "recvfrom"))(fd, bytes, count, flags, from, length);
    if (found < 0) wait_a_while();
    return found;
}

int poll(struct pollfd *ends, nfds_t count, int timeout) {
    wait_a_while();
    return REAL(int, poll, struct pollfd *, nfds_t, int)(ends, count, timeout);
}

int linkat(int from_folder, const char *from, int to_folder, const char *to, int flags) {
    if (!getenv("NO_LINKS")) return REAL(int, linkat, int, const char *, int, const char *, int)(from_folder, from, to_folder, to, flags);
    errno = EPERM;
    return -1;
}

int link(const char *from, const char *to) {
    return linkat(AT_FDCWD, from, AT_FDCWD, to, 0);
}

static long calls, reads;

static int fails(const char *name, long *counted) {
    const char *number = getenv(name);
    if (!number || __atomic_add_fetch(counted, 1, __ATOMIC_SEQ_CST) != atol(number)) return 0;
    errno = EIO;
    return 1;
}

static int fails_call(void) { return fails("FAIL_CALL", &calls); }

ssize_t pwrite(int fd, const void *bytes, size_t count, off_t place) {
    return fails_call() ? -1 : REAL(ssize_t, pwrite, int, const void *, size_t, off_t)(fd, bytes, count, place);
}

int fdatasync(int fd) { return fails_call() ? -1 : REAL(int, fdatasync, int)(fd); }

int fsync(int fd) { return fails_call() ? -1 : REAL(int, fsync, int)(fd); }

ssize_t pread(int fd, void *bytes, size_t count, off_t place) {
    return fails("FAIL_READ", &reads) ? -1 : REAL(ssize_t, pread, int, void *, size_t, off_t)(fd, bytes, count, place);
}

ssize_t read(int fd, void *bytes, size_t count) {
    static int is_interrupted;
    ssize_t (*next)(int, void *, size_t) = REAL(ssize_t, read, int, void *, size_t);
    if (fd != 0 || !count || !getenv("BYTEWISE")) return next(fd, bytes, count);
    is_interrupted = !is_interrupted;
    errno = EINTR;
    return is_interrupted ? -1 : next(fd, bytes, 1);
}

int getsockopt(int fd, int level, int name, void *value, socklen_t *length) {
    const char *bytes = getenv("BUFFER");
    int status = REAL(int, getsockopt, int, int, int, void *, socklen_t *)(fd, level, name, value, length);
    // The system counts each byte twice.
    if (!status && bytes && level == SOL_SOCKET && name == SO_RCVBUF) *(int *)value = 2 * atoi(bytes);
    return status;
}

int getentropy(void *bytes, size_t count) {
    const char *kind = getenv("RANDOM_KEY");
    if (!kind || count != 32) return REAL(int, getentropy, void *, size_t)(bytes, count);
    for (size_t place = 0; place < count; place++) ((char *)bytes)[place] = place;
    errno = EIO;
    return *kind == 'c' ? 0 : -1;
}
