/* bench ENGINE THREADS durable|lazy SECONDS FOLDER [wide]: small transactions on one engine, in one
 * loop for all engines. There are 512 objects of 128 bytes; each transaction overwrites two, at
 * random, in blocks of 32 that differ. durable: each commit is answered once it is stable. lazy:
 * none waits, and one flush at the end is inside the time. wide: there are 30000 objects of 4096
 * bytes.
 *
 * First it measures how often a second the device makes one block of 4096 bytes stable: its limit
 * for transactions that share no barrier. It takes a second, or LIMIT_SECONDS of them. Then it
 * counts the barriers of the engine while the loop runs, or those of a service. See barriers.h.
 *
 * It prints: engine threads mode commits/s, barriers/s, limit/s, microseconds of processor time a
 * commit, switches of a thread a commit. Where each waits, then how many microseconds the median
 * commit took, that of 100, of 1000, of 10000, and the longest; and of two seconds or more the
 * commits of each. */
#define _GNU_SOURCE
#include "barriers.h"
#include "engines.h"
#include <fcntl.h>
#include <pthread.h>
#include <stdatomic.h>
#include <stdio.h>
#include <stdlib.h>
#include <string.h>
#include <sys/resource.h>
#include <sys/stat.h>
#include <time.h>
#include <unistd.h>

enum { MOST_THREADS = 64, LIMIT_BLOCKS = 512, BLOCK = 4096, MOST_TIMES = 1 << 22 };

struct load load = {0, 512, 128};
static const struct engine *engine;
static int threads, durable;
static atomic_int stopped;
static pthread_barrier_t all_begin;

/* ---- the loop */

void fail(const char *what, const char *why)
{
    fprintf(stderr, "%s: %s\n", what, why);
    exit(1);
}

static double now(void)
{
    struct timespec t;
    clock_gettime(CLOCK_MONOTONIC, &t);
    return (double)t.tv_sec + (double)t.tv_nsec / 1e9;
}

static double processor_seconds(void)
{
    struct rusage u;
    getrusage(RUSAGE_SELF, &u);
    return (double)(u.ru_utime.tv_sec + u.ru_stime.tv_sec)
        + (double)(u.ru_utime.tv_usec + u.ru_stime.tv_usec) / 1e6;
}

static uint32_t pick(uint64_t *seed)
{
    *seed ^= *seed << 13;
    *seed ^= *seed >> 7;
    *seed ^= *seed << 17;
    return (uint32_t)(*seed % load.objects);
}

static double limit_of(const char *folder, double seconds)
{
    static char block[BLOCK];
    char path[600];
    unsigned long times = 0;
    snprintf(path, sizeof path, "%s/limit", folder);
    int fd = open(path, O_RDWR | O_CREAT | O_TRUNC, 0600);
    if (fd < 0) fail(path, "cannot be made");
    for (int i = 0; i < LIMIT_BLOCKS; i++) {
        if (pwrite(fd, block, BLOCK, (off_t)i * BLOCK) != BLOCK) fail(path, "cannot be written");
    }
    fsync(fd);
    double begin = now();
    for (; now() - begin < seconds; times++) {
        off_t at = (off_t)(times % LIMIT_BLOCKS) * BLOCK;
        if (pwrite(fd, block, BLOCK, at) != BLOCK || fdatasync(fd)) fail(path, "cannot be written");
    }
    double rate = (double)times / (now() - begin);
    close(fd);
    unlink(path);
    return rate;
}

struct work {
    pthread_t thread;
    uint64_t seed;
    atomic_ulong commits;
    /* How long each commit took, where each waits. */
    float *microseconds;
};

static struct work works[MOST_THREADS];

static void commit_one(struct work *w, void *session, unsigned long number)
{
    char value[MOST_BYTES];
    uint32_t keys[2] = {pick(&w->seed), pick(&w->seed)};
    while (keys[1] / 32 == keys[0] / 32) keys[1] = pick(&w->seed);
    memset(value, (int)(number & 255), load.bytes);
    double begin = durable ? now() : 0;
    engine->commit(session, keys, value);
    if (durable && number < MOST_TIMES) w->microseconds[number] = (float)((now() - begin) * 1e6);
}

static void *work(void *at)
{
    struct work *w = at;
    void *session = engine->session ? engine->session() : NULL;
    pthread_barrier_wait(&all_begin);
    for (unsigned long number = 0; !stopped;) {
        commit_one(w, session, number);
        w->commits = ++number;
    }
    if (engine->finish) engine->finish(session);
    return NULL;
}

static unsigned long count_commits(void)
{
    unsigned long commits = 0;
    for (int i = 0; i < threads; i++) commits += works[i].commits;
    return commits;
}

/* Sleeps so long, and says of each whole second how many commits came. */
static void sleep_and_count(double seconds)
{
    unsigned long before = 0;
    if (seconds < 2) {
        usleep((useconds_t)(seconds * 1e6));
        return;
    }
    printf("by second:");
    for (int i = 0; i < (int)seconds; i++) {
        usleep(1000000);
        unsigned long commits = count_commits();
        printf(" %lu", commits - before);
        before = commits;
    }
    printf("\n");
}

static int compare_times(const void *one, const void *other)
{
    float a = *(const float *)one, b = *(const float *)other;
    return (a > b) - (a < b);
}

/* What share of the commits took no longer than which time. */
static void print_times(unsigned long commits)
{
    static const double shares[] = {0.5, 0.99, 0.999, 0.9999, 1};
    static const char *const names[] = {"p50", "p99", "p99.9", "p99.99", "longest"};
    float *all = malloc((commits + 1) * sizeof *all);
    size_t count = 0;
    if (!all) fail("the times", "no memory");
    for (int i = 0; i < threads; i++) {
        size_t own = works[i].commits < MOST_TIMES ? works[i].commits : MOST_TIMES;
        memcpy(all + count, works[i].microseconds, own * sizeof *all);
        count += own;
    }
    qsort(all, count, sizeof *all, compare_times);
    for (int i = 0; i < 5; i++) {
        size_t at = (size_t)(shares[i] * (double)count);
        float took = count ? all[at < count ? at : count - 1] : 0;
        printf("%s %s %.0f", i ? "," : ";", names[i], (double)took);
    }
    printf(" us");
    free(all);
}

static unsigned long count_switches(void)
{
    struct rusage u;
    getrusage(RUSAGE_SELF, &u);
    return (unsigned long)(u.ru_nvcsw + u.ru_nivcsw);
}

static void begin_works(void)
{
    pthread_barrier_init(&all_begin, NULL, (unsigned)threads + 1);
    for (int i = 0; i < threads; i++) {
        works[i].seed = 88172645463325252ull + 7919ull * (uint64_t)i;
        works[i].microseconds = durable ? calloc(MOST_TIMES, sizeof(float)) : NULL;
        if (durable && !works[i].microseconds) fail("the times", "no memory");
        if (pthread_create(&works[i].thread, NULL, work, &works[i])) fail("a thread", "refused");
    }
    pthread_barrier_wait(&all_begin);
}

static void run(double seconds, double limit)
{
    begin_works();
    unsigned long before = count_barriers(), switches = count_switches();
    double begin = now(), processor = processor_seconds();
    sleep_and_count(seconds);
    stopped = 1;
    for (int i = 0; i < threads; i++) pthread_join(works[i].thread, NULL);
    if (!durable) engine->flush();
    double took = now() - begin, commits = (double)count_commits();
    printf("%-8s %2d %-7s %9.0f commits/s %7.0f barriers/s, limit %6.0f/s, ", engine->name, threads,
           durable ? "durable" : "lazy", commits / took,
           (double)(count_barriers() - before) / took, limit);
    printf("%6.2f us of processor, %5.2f switches",
           (processor_seconds() - processor) * 1e6 / commits,
           (double)(count_switches() - switches) / commits);
    if (durable) print_times((unsigned long)commits);
    printf("\n");
    fflush(stdout);
}

int main(int argc, char **argv)
{
    char path[512];
    int is_wide = argc == 7 && !strcmp(argv[6], "wide");
    if (argc != 6 && !is_wide) {
        fprintf(stderr, "usage: bench ENGINE THREADS durable|lazy SECONDS FOLDER [wide]\n");
        return 2;
    }
    if (is_wide) load = (struct load){1, MOST_OBJECTS, MOST_BYTES};
    for (engine = engines; engine->name && strcmp(engine->name, argv[1]); engine++) {}
    threads = atoi(argv[2]);
    durable = !strcmp(argv[3], "durable");
    if (!engine->name || threads < 1 || threads > MOST_THREADS) {
        return fprintf(stderr, "bench: no engine %s, or no %s threads\n", argv[1], argv[2]), 2;
    }
    const char *seconds = getenv("LIMIT_SECONDS");
    double limit = durable ? limit_of(argv[5], seconds ? atof(seconds) : 1) : 0;
    snprintf(path, sizeof path, "%s/%s", argv[5], engine->name);
    if (mkdir(path, 0700)) fail(path, "is there");
    engine->open(path, durable);
    run(atof(argv[4]), limit);
    /* What the engine would do to end well is no part of this. */
    _exit(0);
}
