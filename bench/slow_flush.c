/* Put in front of the C library by LD_PRELOAD: each fdatasync and fsync takes SLOW_FLUSH microseconds longer, as on a slower disk. */
#define _GNU_SOURCE
#include <dlfcn.h>
#include <errno.h>
#include <stdlib.h>
#include <time.h>

static int slowly(const char *name, int fd) {
    int (*flush)(int) = (int (*)(int))dlsym(RTLD_NEXT, name);
    int answer = flush(fd), error = errno;
    const char *text = getenv("SLOW_FLUSH");
    long longer = text ? atol(text) : 0;
    struct timespec left = {longer / 1000000, longer % 1000000 * 1000};
    while (longer > 0 && nanosleep(&left, &left) && errno == EINTR) {}
    errno = error;
    return answer;
}

int fdatasync(int fd) { return slowly("fdatasync", fd); }

int fsync(int fd) { return slowly("fsync", fd); }
