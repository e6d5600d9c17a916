// Preloaded under a program, this fails each of its calls of clock_gettime by EINVAL where
// REFUSE_CLOCK is set.
#define _GNU_SOURCE
#include <dlfcn.h>
#include <errno.h>
#include <stdlib.h>
#include <time.h>

int clock_gettime(clockid_t clock, struct timespec *moment) {
    int (*next)(clockid_t, struct timespec *) = dlsym(RTLD_NEXT, "clock_gettime");
    if (!getenv("REFUSE_CLOCK"))
        return next(clock, moment);
    errno = EINVAL;
    return -1;
}
