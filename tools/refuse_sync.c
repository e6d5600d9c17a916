// Preloaded under a program, this fails one of its calls of fsync and fdatasync by EIO: the
// REFUSE_SYNC-th of the process, counted from 1. With REFUSE_SYNC 0 or none, none fails.
#define _GNU_SOURCE
#include <dlfcn.h>
#include <errno.h>
#include <stdatomic.h>
#include <stdlib.h>

static atomic_long calls;

static int is_refused(void) {
    const char *chosen = getenv("REFUSE_SYNC");
    long call = atomic_fetch_add(&calls, 1) + 1;
    if (!chosen || call != atol(chosen))
        return 0;
    errno = EIO;
    return 1;
}

int fsync(int file) {
    int (*next)(int) = dlsym(RTLD_NEXT, "fsync");
    return is_refused() ? -1 : next(file);
}

int fdatasync(int file) {
    int (*next)(int) = dlsym(RTLD_NEXT, "fdatasync");
    return is_refused() ? -1 : next(file);
}
