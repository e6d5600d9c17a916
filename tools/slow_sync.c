// Preloaded under a program, this has each fsync and fdatasync take SYNC_MICROSECONDS longer, as on a
// device that takes so long to make stable what it keeps. The device does that once at a time: calls
// that come meanwhile wait until it is done, and share the next time.
#define _GNU_SOURCE
#include <dlfcn.h>
#include <pthread.h>
#include <stdint.h>
#include <stdlib.h>
#include <sys/prctl.h>
#include <time.h>

static pthread_mutex_t lock = PTHREAD_MUTEX_INITIALIZER;
static pthread_cond_t ended = PTHREAD_COND_INITIALIZER;
static uint64_t asked, done; // how many calls have come, and how many of these are made stable
static int is_busy;

// The threads that a program makes have what its first one has.
__attribute__((constructor)) static void sleep_exactly(void) {
    prctl(PR_SET_TIMERSLACK, 1);
}

static void pause_once(void) {
    const char *words = getenv("SYNC_MICROSECONDS");
    long microseconds = words ? atol(words) : 0;
    struct timespec time = {microseconds / 1000000, microseconds % 1000000 * 1000};
    nanosleep(&time, NULL);
}

static void flush(void) {
    pthread_mutex_lock(&lock);
    uint64_t own = ++asked;
    while (done < own) {
        if (is_busy) {
            pthread_cond_wait(&ended, &lock);
            continue;
        }
        uint64_t covered = asked;
        is_busy = 1;
        pthread_mutex_unlock(&lock);
        pause_once();
        pthread_mutex_lock(&lock);
        is_busy = 0;
        done = covered;
        pthread_cond_broadcast(&ended);
    }
    pthread_mutex_unlock(&lock);
}

static int slow(const char *name, int file) {
    int (*next)(int) = dlsym(RTLD_NEXT, name);
    int status = next(file);
    if (status == 0)
        flush();
    return status;
}

// A program may load libraries that look for functions in their own libraries first.
void *dlopen(const char *path, int flags) {
    void *(*next)(const char *, int) = dlsym(RTLD_NEXT, "dlopen");
    return next(path, flags & ~RTLD_DEEPBIND);
}

int fsync(int file) {
    return slow("fsync", file);
}

int fdatasync(int file) {
    return slow("fdatasync", file);
}
