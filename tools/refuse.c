// Preloaded under a program, this refuses one request for memory or for a thread: the REFUSE-th of the process, counted
// from 1.
// At the end it writes "REQUESTS REFUSED" (the number of requests, and 1 where one was refused) to the file that
// REFUSE_REPORT names. With REFUSE 0 or none nothing is refused, and the requests are counted.
#define _GNU_SOURCE
#include <dlfcn.h>
#include <errno.h>
#include <fcntl.h>
#include <pthread.h>
#include <stdatomic.h>
#include <stddef.h>
#include <stdio.h>
#include <stdlib.h>
#include <string.h>
#include <sys/syscall.h>
#include <unistd.h>

static atomic_long requests;
static atomic_int refused;
static long refused_request = -1; // not read yet

static void *(*next_malloc)(size_t);
static void *(*next_calloc)(size_t, size_t);
static void *(*next_realloc)(void *, size_t);
static void *(*next_aligned_alloc)(size_t, size_t);
static int (*next_posix_memalign)(void **, size_t, size_t);
static int (*next_pthread_create)(pthread_t *, const pthread_attr_t *, void *(*)(void *), void *);

// What dlsym itself asks for, before the C library's functions are found. It is never given back.
static char early[4096];
static size_t early_used;

__attribute__((constructor)) static void start(void) {
    next_malloc = dlsym(RTLD_NEXT, "malloc");
    next_calloc = dlsym(RTLD_NEXT, "calloc");
    next_realloc = dlsym(RTLD_NEXT, "realloc");
    next_aligned_alloc = dlsym(RTLD_NEXT, "aligned_alloc");
    next_posix_memalign = dlsym(RTLD_NEXT, "posix_memalign");
    next_pthread_create = dlsym(RTLD_NEXT, "pthread_create");
    const char *chosen = getenv("REFUSE");
    atomic_store(&requests, 0);
    refused_request = chosen ? atol(chosen) : 0;
}

__attribute__((destructor)) static void report(void) {
    const char *path = getenv("REFUSE_REPORT");
    if (!path)
        return;
    int file = open(path, O_WRONLY | O_CREAT | O_TRUNC, 0644);
    if (file < 0)
        return;
    char text[64];
    int length = snprintf(text, sizeof text, "%ld %d\n", atomic_load(&requests), atomic_load(&refused));
    if (write(file, text, (size_t)length) != length)
        unlink(path);
    close(file);
}

// A program that may start threads ends by this, which runs no destructor.
void _exit(int status) {
    report();
    for (;;)
        syscall(SYS_exit_group, status);
}

// Whether this request is the one to refuse.
static int is_refused(void) {
    if (refused_request < 0)
        return 0;
    if (atomic_fetch_add(&requests, 1) + 1 != refused_request)
        return 0;
    atomic_store(&refused, 1);
    errno = ENOMEM;
    return 1;
}

void *malloc(size_t size) {
    if (!next_malloc)
        start();
    return is_refused() ? NULL : next_malloc(size);
}

void *calloc(size_t count, size_t size) {
    if (!next_calloc) {
        size_t bytes = (count * size + 15) & ~(size_t)15;
        if (bytes > sizeof early - early_used)
            return NULL;
        void *block = early + early_used;
        early_used += bytes;
        return memset(block, 0, bytes);
    }
    return is_refused() ? NULL : next_calloc(count, size);
}

void *realloc(void *block, size_t size) {
    if (!next_realloc)
        start();
    return is_refused() ? NULL : next_realloc(block, size);
}

void *aligned_alloc(size_t alignment, size_t size) {
    if (!next_aligned_alloc)
        start();
    return is_refused() ? NULL : next_aligned_alloc(alignment, size);
}

int posix_memalign(void **block, size_t alignment, size_t size) {
    if (!next_posix_memalign)
        start();
    return is_refused() ? ENOMEM : next_posix_memalign(block, alignment, size);
}

int pthread_create(pthread_t *thread, const pthread_attr_t *attributes, void *(*work)(void *), void *given) {
    if (!next_pthread_create)
        start();
    return is_refused() ? EAGAIN : next_pthread_create(thread, attributes, work, given);
}
