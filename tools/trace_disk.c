// Preloaded under a program, this appends to the file TRACE what the program does to the file DISK: each
// write (its offset and bytes) before it is made, and each sync once it has succeeded, with the number of
// records that were there when it began.
//
// With KEEP_OLD a write is noted with the bytes that it replaces, so that it can be taken back.
//
// With FAIL_SYNC=N the process's N-th sync of DISK fails by EIO. It is not made, and is noted as failed.
// With FAIL_SYNC=N:F-L only those syncs count that come after a write of a block from F to L.
#define _GNU_SOURCE
#include <dlfcn.h>
#include <errno.h>
#include <fcntl.h>
#include <limits.h>
#include <pthread.h>
#include <stdint.h>
#include <stdio.h>
#include <stdlib.h>
#include <string.h>
#include <sys/stat.h>
#include <sys/uio.h>
#include <unistd.h>

struct record {
    uint32_t kind; // 1 a write, 2 a sync, 5 a sync that failed; others are the tool's own
    uint32_t size; // of the bytes that follow
    uint64_t at;   // a write: its offset; a sync: how many writes had begun before it
};

// Which sync fails. A range that is not there has each block.
struct choice {
    long number; // counted from 1; 0 where none fails
    unsigned long first, last;
};

static const size_t BLOCK = 4096;
static pthread_mutex_t lock = PTHREAD_MUTEX_INITIALIZER;
static uint64_t writes;
static long syncs;       // that count
static int is_in_range;  // a block of the range was written since the last sync

static int trace_file(void) {
    static int file = -2;
    if (file == -2) {
        const char *path = getenv("TRACE");
        file = path ? open(path, O_WRONLY | O_APPEND | O_CREAT | O_CLOEXEC, 0600) : -1;
    }
    return file;
}

static int is_disk(int file) {
    struct stat of_file, of_disk;
    const char *path = getenv("DISK");
    return path && !fstat(file, &of_file) && !stat(path, &of_disk) &&
           of_file.st_ino == of_disk.st_ino && of_file.st_dev == of_disk.st_dev;
}

// One record in one write, so that those of several processes do not mix.
static void append(struct record head, const void *bytes) {
    struct iovec parts[2] = {{&head, sizeof head}, {(void *)bytes, head.size}};
    if (writev(trace_file(), parts, 2) != (ssize_t)(sizeof head + head.size))
        abort();
}

// Notes a write with the bytes that stand in its place. Where the file has none, they are zeros.
static void append_old(struct record head, int file) {
    char *bytes = calloc(1, head.size);
    if (bytes == NULL || pread(file, bytes, head.size, head.at) < 0)
        abort();
    append(head, bytes);
    free(bytes);
}

static struct choice chosen(void) {
    struct choice of = {0, 0, ULONG_MAX};
    const char *words = getenv("FAIL_SYNC");
    if (words)
        sscanf(words, "%ld:%lu-%lu", &of.number, &of.first, &of.last);
    return of;
}

// Notes which blocks are written. The lock is held.
static void count_write(off_t at, size_t size) {
    struct choice of = chosen();
    unsigned long first = at / BLOCK, last = (at + size - 1) / BLOCK;
    is_in_range |= of.first <= last && first <= of.last;
    writes++;
}

// Whether the sync that begins is the one that fails. The lock is held.
static int is_refused(void) {
    struct choice of = chosen();
    int counts = is_in_range || of.last == ULONG_MAX;
    is_in_range = 0;
    return counts && ++syncs == of.number;
}

static ssize_t traced_write(ssize_t (*next)(int, const void *, size_t, off_t), int file,
                            const void *bytes, size_t size, off_t at) {
    if (!is_disk(file))
        return next(file, bytes, size, at);
    struct record head = {1, size, at};
    pthread_mutex_lock(&lock);
    if (getenv("KEEP_OLD"))
        append_old(head, file);
    else
        append(head, bytes);
    count_write(at, size);
    ssize_t done = next(file, bytes, size, at);
    pthread_mutex_unlock(&lock);
    return done;
}

ssize_t pwrite(int file, const void *bytes, size_t size, off_t at) {
    return traced_write(dlsym(RTLD_NEXT, "pwrite"), file, bytes, size, at);
}

ssize_t pwrite64(int file, const void *bytes, size_t size, off_t at) {
    return traced_write(dlsym(RTLD_NEXT, "pwrite64"), file, bytes, size, at);
}

static int traced_sync(int (*next)(int), int file) {
    if (!is_disk(file))
        return next(file);
    pthread_mutex_lock(&lock);
    uint64_t begun = writes;
    int refused = is_refused();
    if (refused)
        append((struct record){5, 0, begun}, "");
    pthread_mutex_unlock(&lock);
    if (refused) {
        errno = EIO;
        return -1;
    }
    int failed = next(file);
    if (!failed) {
        pthread_mutex_lock(&lock);
        append((struct record){2, 0, begun}, "");
        pthread_mutex_unlock(&lock);
    }
    return failed;
}

int fsync(int file) {
    return traced_sync(dlsym(RTLD_NEXT, "fsync"), file);
}

int fdatasync(int file) {
    return traced_sync(dlsym(RTLD_NEXT, "fdatasync"), file);
}
