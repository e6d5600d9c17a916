/* Tests of what version 2 of the protocol has: test_version2 SOCKET FAULTY_SOCKET [OLD_SOCKET]. The
 * sockets are of a port, of clients/tests/faulty_port.py, and of a port of version 1. It prints
 * `ok`, or the first thing that is wrong. */
#include "../jnl.h"
#include <stdio.h>
#include <stdlib.h>
#include <string.h>
#include <time.h>

enum { BITS = 514, RESTARTS = 34, FIRST = 24576, SOME = 64, ALL = 32768 };

static void want(long found, long wanted, const char *what)
{
    if (found == wanted) return;
    printf("%s: %ld, not %ld\n", what, found, wanted);
    exit(1);
}

static int put(jnl *j, uint32_t bit, int value, unsigned flags)
{
    uint8_t byte = (uint8_t)value;
    jnl_txn *t;
    want(jnl_begin(j, &t), JNL_OK, "begin");
    want(jnl_write(t, (jnl_addr){BITS, bit}, &byte, 1), JNL_OK, "write");
    return jnl_commit(t, flags, NULL);
}

/* ---- restarts */

/* Has the port end the connection, and be another opening from then on. */
static void restart(jnl *j)
{
    struct timespec pause = {0, 100000000};
    uint8_t byte;
    jnl_txn *t;
    want(jnl_begin(j, &t), JNL_OK, "begin");
    want(jnl_read(t, (jnl_addr){BITS, RESTARTS}, &byte, 1), JNL_OK, "a read");
    jnl_abort(t);
    nanosleep(&pause, NULL);
}

static uint64_t commits(jnl *j)
{
    jnl_counts counts = {0, 0};
    want(jnl_stat(j, &counts), JNL_OK, "stat");
    return counts.commits;
}

static int put_one(jnl_txn *t, void *tries)
{
    ++*(int *)tries;
    return jnl_write(t, (jnl_addr){BITS, 204}, "\1", 1);
}

static void lazy_commits_may_be_gone(jnl *j)
{
    jnl_disk before, after;
    int tries = 0;
    jnl_describe(j, &before);
    want(put(j, 200, 1, 0), JNL_OK, "a commit");
    restart(j);
    want(jnl_flush(j, NULL), JNL_RESTARTED, "a flush");
    want(jnl_flush(j, NULL), JNL_OK, "the next flush");
    jnl_describe(j, &after);
    want(before.opening != after.opening, 1, "the opening is another");
    want(put(j, 200, 1, 0), JNL_OK, "a commit");
    restart(j);
    want(jnl_stat(j, &(jnl_counts){0, 0}), JNL_RESTARTED, "a stat");
    restart(j);
    want(jnl_flush(j, NULL), JNL_OK, "a flush after one more restart");
    uint64_t all = commits(j);
    want(put(j, 200, 1, 0), JNL_OK, "a commit");
    restart(j);
    want(put(j, 201, 1, 0), JNL_RESTARTED, "a commit after it");
    want(jnl_run(j, put_one, &tries, 0, NULL), JNL_OK, "a run");
    want((long)(commits(j) - all), 2, "commits: nothing was sent");
    want(put(j, 200, 1, 0), JNL_OK, "a commit");
    restart(j);
    tries = 0;
    want(jnl_run(j, put_one, &tries, 0, NULL), JNL_RESTARTED, "a run after it");
    want(tries, 1, "tries");
}

static void stable_commits_are_there(jnl *j)
{
    for (int how = 0; how < 3; how++) {
        want(put(j, 200, 1, 0), JNL_OK, "a commit");
        if (how == 0) want(jnl_flush(j, NULL), JNL_OK, "flush");
        if (how == 1) commits(j);
        if (how == 2) want(put(j, 203, 1, JNL_WAIT), JNL_OK, "a commit that waits");
        restart(j);
        want(jnl_flush(j, NULL), JNL_OK, "a flush after a restart that lost nothing");
    }
}

static int submit(jnl *j, uint32_t bit, uint64_t tag)
{
    jnl_txn *t;
    want(jnl_begin(j, &t), JNL_OK, "begin");
    want(jnl_write(t, (jnl_addr){BITS, bit}, "\1", 1), JNL_OK, "write");
    return jnl_submit(t, 0, tag);
}

static void take(jnl *j, uint64_t wanted, int wanted_status)
{
    uint64_t tag;
    int status;
    want(jnl_next(j, &tag, &status, NULL), JNL_OK, "next");
    want((long)tag, (long)wanted, "the tag");
    want(status, wanted_status, "the status");
}

static void commits_in_flight(jnl *j, const char *faulty)
{
    jnl *other;
    want(submit(j, 200, 1), JNL_OK, "submit");
    take(j, 1, JNL_OK);
    restart(j);
    want(submit(j, 200, 2), JNL_RESTARTED, "a submit after it");
    want((long)jnl_in_flight(j), 0, "in flight");
    want(submit(j, 200, 3), JNL_OK, "submit");
    take(j, 3, JNL_OK);
    want(jnl_open(faulty, &other), JNL_OK, "open");
    restart(other);
    jnl_close(other);
    want(submit(j, 1, 4), JNL_OK, "a submit that is lost");
    take(j, 4, JNL_LOST);
    want(jnl_flush(j, NULL), JNL_RESTARTED, "a flush after it");
    want(jnl_flush(j, NULL), JNL_OK, "the next flush");
    want(put(j, 8, 1, JNL_WAIT), JNL_UNSURE, "a commit that is not sure");
    restart(j);
    want(jnl_stat(j, &(jnl_counts){0, 0}), JNL_RESTARTED, "a stat after it");
}

/* ---- scans and pools */

static void clear(jnl *j)
{
    jnl_txn *t;
    want(jnl_begin(j, &t), JNL_OK, "begin");
    for (uint32_t i = 0; i < SOME; i++) {
        want(jnl_write(t, (jnl_addr){BITS, FIRST + i}, "", 1), JNL_OK, "write");
    }
    want(jnl_commit(t, 0, NULL), JNL_OK, "commit");
}

static void scans(jnl *j)
{
    static uint32_t bits[ALL];
    size_t n, more;
    clear(j);
    want(put(j, FIRST + 2, 1, 0), JNL_OK, "a commit");
    want(jnl_scan(j, (jnl_scan_of){BITS, FIRST, 0}, bits, 3, &n), JNL_OK, "a scan");
    want(n == 3 && bits[0] == FIRST && bits[1] == FIRST + 1 && bits[2] == FIRST + 3, 1, "clear bits");
    want(jnl_scan(j, (jnl_scan_of){BITS, FIRST, 1}, bits, 1, &n), JNL_OK, "a scan");
    want(n == 1 && bits[0] == FIRST + 2, 1, "a bit that is set");
    want(jnl_scan(j, (jnl_scan_of){BITS, 0, 0}, bits, ALL, &n), JNL_OK, "a scan of all");
    want(jnl_scan(j, (jnl_scan_of){BITS, 0, 1}, bits, ALL, &more), JNL_OK, "a scan of all");
    want((long)(n + more), ALL, "all bits");
    want(jnl_scan(j, (jnl_scan_of){BITS, 0, 1}, NULL, 0, &n), JNL_OK, "a scan of none");
    want(jnl_scan(j, (jnl_scan_of){BITS, ALL, 0}, bits, 1, &n), JNL_BAD_ADDRESS, "a scan past the end");
    want(jnl_scan(j, (jnl_scan_of){BITS + 1, 0, 0}, bits, 1, &n), JNL_BAD_ADDRESS, "a scan of records");
}

struct taking {
    jnl_pool *pool;
    uint32_t bits[2];
    int count;
};

static int take_some(jnl_txn *t, void *context)
{
    struct taking *all = context;
    int s = JNL_OK;
    for (int i = 0; !s && i < all->count; i++) s = jnl_pool_take(all->pool, t, &all->bits[i]);
    return s;
}

static int give_first(jnl_txn *t, void *context)
{
    struct taking *all = context;
    return jnl_pool_give(all->pool, t, all->bits[0]);
}

static void pools(jnl *j)
{
    struct taking all = {NULL, {0, 0}, 2};
    uint8_t is_taken[SOME] = {0};
    clear(j);
    want(jnl_pool_open(j, BITS, FIRST, FIRST, &all.pool), JNL_BAD_ADDRESS, "a pool of none");
    want(jnl_pool_open(j, BITS, FIRST, FIRST + SOME, &all.pool), JNL_OK, "a pool");
    for (int i = 0; i < SOME / 2; i++) {
        want(jnl_run(j, take_some, &all, 0, NULL), JNL_OK, "a take of two");
        for (int k = 0; k < 2; k++) is_taken[all.bits[k] - FIRST]++;
    }
    for (int i = 0; i < SOME; i++) want(is_taken[i], 1, "times that a record was taken");
    want(jnl_run(j, take_some, &all, 0, NULL), JNL_NO_FREE, "a take of none");
    want(jnl_run(j, give_first, &all, 0, NULL), JNL_OK, "a give");
    want(jnl_run(j, give_first, &all, 0, NULL), JNL_BAD_ADDRESS, "a give of a free record");
    want(jnl_refused(j).bit, all.bits[0], "which record is free");
    all.count = 1;
    want(jnl_run(j, take_some, &all, 0, NULL), JNL_OK, "a take of what was given");
    jnl_pool_close(all.pool);
}

/* Two programs find the one free record. */
static void a_pool_of_one(jnl *j, const char *path)
{
    jnl *other;
    jnl_txn *t;
    struct taking mine = {NULL, {0, 0}, 1}, theirs = {NULL, {0, 0}, 1};
    clear(j);
    want(jnl_open(path, &other), JNL_OK, "open");
    want(jnl_pool_open(j, BITS, FIRST, FIRST + 1, &mine.pool), JNL_OK, "a pool");
    want(jnl_pool_open(other, BITS, FIRST, FIRST + 1, &theirs.pool), JNL_OK, "a pool");
    want(jnl_begin(j, &t), JNL_OK, "begin");
    want(take_some(t, &mine), JNL_OK, "a take");
    want(jnl_run(other, take_some, &theirs, 0, NULL), JNL_OK, "the other's take");
    want(jnl_commit(t, 0, NULL), JNL_CONFLICT, "a commit of the same record");
    want(jnl_run(j, take_some, &mine, 0, NULL), JNL_NO_FREE, "a take of none");
    jnl_pool_close(mine.pool);
    jnl_pool_close(theirs.pool);
    jnl_close(other);
}

static void expectations(jnl *j)
{
    jnl_txn *t;
    clear(j);
    want(jnl_begin(j, &t), JNL_OK, "begin");
    want(jnl_expect(t, (jnl_addr){BITS, FIRST}, "\1", 1), JNL_OK, "expect");
    want(jnl_expect(t, (jnl_addr){BITS, FIRST}, "", 1), JNL_CONFLICT, "another expectation");
    want(jnl_expect(t, (jnl_addr){BITS, ALL}, "", 1), JNL_BAD_ADDRESS, "an address");
    want(jnl_commit(t, 0, NULL), JNL_CONFLICT, "a commit");
}

static void counters(jnl *j)
{
    jnl_counter found[256], one;
    size_t n, same;
    want(jnl_counters(j, found, 256, &n), JNL_OK, "counters");
    for (size_t i = 1; i < n; i++) want(found[i - 1].name < found[i].name, 1, "names ascend");
    want(n > 1 && found[0].name == 1 && found[0].value >= found[1].value, 1, "commits");
    want(jnl_counters(j, &one, 1, &same), JNL_OK, "counters with little room");
    want(same == n && one.name == 1, 1, "the first counter");
}

static void an_old_port(const char *path)
{
    jnl_disk d;
    jnl *j;
    size_t n;
    want(jnl_open(path, &j), JNL_OK, "open");
    jnl_describe(j, &d);
    want(d.version == 1 && d.blocks > 531 && !d.region_count, 1, "what version 1 tells");
    want(put(j, FIRST, 1, 0), JNL_OK, "a commit");
    want(put(j, ALL, 1, 0), JNL_BAD_ADDRESS, "an address");
    want((long)jnl_refused(j).block, 0, "the object, which a port of version 1 does not tell");
    want(jnl_counters(j, NULL, 0, &n), JNL_OTHER_VERSION, "counters");
    want(jnl_scan(j, (jnl_scan_of){BITS, 0, 0}, NULL, 0, &n), JNL_OTHER_VERSION, "a scan");
    want(jnl_flush(j, NULL), JNL_OK, "flush");
    jnl_close(j);
}

int main(int argc, char **argv)
{
    jnl *j, *faulty;
    if (argc < 3) return fprintf(stderr, "usage: test_version2 SOCKET FAULTY_SOCKET [OLD_SOCKET]\n"), 2;
    want(jnl_open(argv[1], &j), JNL_OK, "open");
    want(jnl_open(argv[2], &faulty), JNL_OK, "open");
    lazy_commits_may_be_gone(faulty);
    stable_commits_are_there(faulty);
    commits_in_flight(faulty, argv[2]);
    scans(j);
    pools(j);
    a_pool_of_one(j, argv[1]);
    expectations(j);
    counters(j);
    jnl_close(j);
    jnl_close(faulty);
    if (argc > 3) an_old_port(argv[3]);
    puts("ok");
    return 0;
}
