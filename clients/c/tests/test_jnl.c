/* Tests of the client against a running port: test_jnl SOCKET [TCP_PORT]. Four threads move
 * money between accounts, while the sum is read; then what is refused; then a TCP port, where one
 * is named. It prints `ok`, or the first thing that is wrong. */
#include "../jnl.h"
#include <errno.h>
#include <pthread.h>
#include <stdio.h>
#include <stdlib.h>
#include <string.h>
#include <time.h>

enum { ACCOUNTS = 8, THREADS = 4, TRANSFERS = 200, SUMS = 200, SIZE = 128, BLOCK = 4096 };
enum { MOST_READS = 256, MOST_PARTS = 4096 };

static const char *path;

static void want(int found, int wanted, const char *what)
{
    if (found == wanted) return;
    printf("%s: %d (%s), not %d\n", what, found, jnl_strerror(found), wanted);
    exit(1);
}

static jnl_addr account(unsigned i)
{
    return (jnl_addr){520, 1024 * i};
}

static int get(jnl_txn *t, unsigned i, int64_t *money)
{
    unsigned char value[SIZE];
    int s = jnl_read(t, account(i), value, SIZE);
    memcpy(money, value, sizeof *money);
    return s;
}

static int put(jnl_txn *t, unsigned i, int64_t money)
{
    unsigned char value[SIZE] = {0};
    memcpy(value, &money, sizeof money);
    return jnl_write(t, account(i), value, SIZE);
}

static int begin_all(jnl_txn *t, void *context)
{
    (void)context;
    for (unsigned i = 0; i < ACCOUNTS; i++) {
        int s = put(t, i, 100);
        if (s) return s;
    }
    return JNL_OK;
}

static int move(jnl_txn *t, void *context)
{
    const unsigned *pair = context;
    int64_t from, to;
    int s = get(t, pair[0], &from);
    if (!s) s = get(t, pair[1], &to);
    if (!s) s = put(t, pair[0], from - 1);
    if (!s) s = put(t, pair[1], to + 1);
    return s;
}

static int sum(jnl_txn *t, void *context)
{
    int64_t *all = context, money;
    *all = 0;
    for (unsigned i = 0; i < ACCOUNTS; i++) {
        int s = get(t, i, &money);
        if (s) return s;
        *all += money;
    }
    return JNL_OK;
}

static void *transfers(void *context)
{
    unsigned seed = *(unsigned *)context;
    jnl *j;
    want(jnl_open(path, &j), JNL_OK, "open in a thread");
    for (unsigned i = 0; i < TRANSFERS; i++) {
        unsigned pair[2] = {(seed + i) % ACCOUNTS, (seed + i + 1 + i % 7) % ACCOUNTS};
        want(jnl_run(j, move, pair, i % 50 ? 0 : JNL_WAIT, NULL), JNL_OK, "a transfer");
    }
    jnl_close(j);
    return NULL;
}

/* The sum at one place of the history. */
static int64_t sum_at_once(jnl *j)
{
    unsigned char values[ACCOUNTS][SIZE];
    jnl_object all[ACCOUNTS];
    jnl_txn *t;
    int64_t money, sum = 0;
    for (unsigned i = 0; i < ACCOUNTS; i++) all[i] = (jnl_object){account(i), values[i], SIZE};
    want(jnl_begin(j, &t), JNL_OK, "begin");
    want(jnl_read_many(t, all, ACCOUNTS), JNL_OK, "a read of all");
    jnl_abort(t);
    for (unsigned i = 0; i < ACCOUNTS; i++) {
        memcpy(&money, values[i], sizeof money);
        sum += money;
    }
    return sum;
}

static void run_transfers(jnl *j)
{
    pthread_t threads[THREADS];
    unsigned seeds[THREADS];
    for (unsigned i = 0; i < THREADS; i++) {
        seeds[i] = 2 * i;
        want(pthread_create(&threads[i], NULL, transfers, &seeds[i]), 0, "a thread");
    }
    for (unsigned i = 0; i < SUMS; i++) want((int)sum_at_once(j), 100 * ACCOUNTS, "a sum");
    for (unsigned i = 0; i < THREADS; i++) want(pthread_join(threads[i], NULL), 0, "a join");
}

static void refuse(jnl *j, jnl_addr a, size_t size, int wanted, const char *what)
{
    unsigned char value[BLOCK] = {2};
    jnl_txn *t;
    want(jnl_begin(j, &t), JNL_OK, "begin");
    want(jnl_write(t, a, value, size), wanted, what);
    want(jnl_commit(t, 0, NULL), JNL_OK, "commit");
}

static void refusals(jnl *j)
{
    unsigned char value[BLOCK] = {0};
    jnl_txn *first, *second;
    refuse(j, (jnl_addr){3, 0}, BLOCK, JNL_BAD_ADDRESS, "a block of the log");
    refuse(j, (jnl_addr){514, 0}, 1, JNL_BAD_SIZE, "a bit of 2");
    refuse(j, (jnl_addr){515, 0}, SIZE - 1, JNL_BAD_SIZE, "127 bytes");
    want(jnl_begin(j, &first), JNL_OK, "begin");
    want(jnl_begin(j, &second), JNL_OK, "begin");
    want(jnl_read(first, (jnl_addr){531, 0}, value, BLOCK), JNL_OK, "read");
    value[0]++;
    want(jnl_write(second, (jnl_addr){531, 0}, value, BLOCK), JNL_OK, "write");
    want(jnl_commit(second, 0, NULL), JNL_OK, "the second");
    want(jnl_commit(first, 0, NULL), JNL_CONFLICT, "the first");
    want(jnl_read(NULL, (jnl_addr){531, 0}, value, BLOCK), JNL_MISUSE, "no transaction");
}

static void want_refused(jnl *j, jnl_addr wanted)
{
    jnl_addr found = jnl_refused(j);
    want(found.block == wanted.block && found.bit == wanted.bit, 1, "the object that is refused");
}

static void reads_of_many(jnl *j)
{
    static unsigned char block[BLOCK], small[SIZE], again[SIZE], bit;
    jnl_object many[] = {{{532, 0}, block, BLOCK}, {{521, 0}, small, SIZE}, {{514, 9}, &bit, 1},
                         {{521, 0}, again, SIZE}};
    jnl_object too_many[MOST_READS + 1] = {{{0, 0}, NULL, 0}};
    jnl_txn *t, *other;
    want(jnl_begin(j, &t), JNL_OK, "begin");
    want(jnl_write(t, (jnl_addr){514, 9}, "\1", 1), JNL_OK, "write");
    want(jnl_read_many(t, NULL, 0), JNL_OK, "no objects");
    want(jnl_read_many(t, too_many, MOST_READS + 1), JNL_TOO_LARGE, "too many objects");
    want(jnl_read_many(t, too_many, 1), JNL_MISUSE, "a place that is null");
    block[0] = small[0] = 9;
    many[2].size = 2;
    want(jnl_read_many(t, many, 4), JNL_BAD_SIZE, "a size of its own");
    want_refused(j, many[2].addr);
    many[2].size = 1;
    many[3].size = SIZE - 1;
    want(jnl_read_many(t, many, 4), JNL_BAD_SIZE, "a size");
    want_refused(j, many[3].addr);
    many[3] = (jnl_object){{3, 0}, again, SIZE};
    want(jnl_read_many(t, many, 4), JNL_BAD_ADDRESS, "an address");
    want_refused(j, many[3].addr);
    want(block[0] + small[0] + bit, 18, "what refused reads leave");
    many[3] = (jnl_object){{521, 0}, again, SIZE};
    want(jnl_read_many(t, many, 4), JNL_OK, "many");
    want(bit, 1, "what the transaction wrote");
    small[0]++;
    want(jnl_begin(j, &other), JNL_OK, "begin");
    want(jnl_write(other, (jnl_addr){521, 0}, small, SIZE), JNL_OK, "write");
    want(jnl_commit(other, 0, NULL), JNL_OK, "the other");
    want(jnl_read_many(t, many, 2), JNL_OK, "many again");
    want(small[0], again[0], "what was read before");
    want(jnl_commit(t, 0, NULL), JNL_CONFLICT, "a commit that read many");
}

/* Writes n objects of this size, as far as they are taken, and answers the first refusal. */
static int write_many(jnl *j, jnl_addr first, unsigned n, size_t size, int by_block)
{
    static const unsigned char value[BLOCK + 1];
    int s = JNL_OK;
    jnl_txn *t;
    want(jnl_begin(j, &t), JNL_OK, "begin");
    for (unsigned i = 0; !s && i < n; i++) {
        s = jnl_write(t, first, value, size);
        if (by_block) first.block++;
        else first.bit++;
    }
    jnl_abort(t);
    return s;
}

static void what_no_record_holds(jnl *j)
{
    jnl_addr bits = {514, 8192}, blocks = {531, 0};
    want(write_many(j, bits, MOST_PARTS, 1, 0), JNL_OK, "as many parts as may be");
    want(write_many(j, bits, MOST_PARTS + 1, 1, 0), JNL_TOO_LARGE, "one part more");
    if (jnl_blocks(j) > 531 + 512) {
        want(write_many(j, blocks, 512, BLOCK, 1), JNL_TOO_LARGE, "2 MiB");
    }
    want(write_many(j, blocks, 1, BLOCK + 1, 1), JNL_BAD_SIZE, "a value of 4097 bytes");
    want_refused(j, blocks);
}

static jnl_addr bit_of(unsigned i)
{
    return (jnl_addr){514, 16384 + i};
}

static double milliseconds(void)
{
    struct timespec t;
    clock_gettime(CLOCK_PROCESS_CPUTIME_ID, &t);
    return 1e3 * (double)t.tv_sec + (double)t.tv_nsec / 1e6;
}

/* As many writes as may be, each made twice. A search of all parts would take longer. */
static void as_many_parts_as_may_be(jnl *j)
{
    unsigned char value, bits[MOST_READS];
    jnl_object objects[MOST_READS];
    jnl_txn *t;
    double begin = milliseconds();
    want(jnl_begin(j, &t), JNL_OK, "begin");
    for (unsigned i = 0; i < 2 * MOST_PARTS; i++) {
        value = i < MOST_PARTS || i % 3 == 0;
        want(jnl_write(t, bit_of(i % MOST_PARTS), &value, 1), JNL_OK, "one of many writes");
    }
    want(milliseconds() - begin < 40, 1, "the time of many writes");
    for (unsigned i = 0; i < MOST_PARTS; i++) {
        want(jnl_read(t, bit_of(i), &value, 1), JNL_OK, "what was written");
        want(value, (MOST_PARTS + i) % 3 == 0, "what was written last");
    }
    want(jnl_commit(t, 0, NULL), JNL_OK, "a commit of many");
    want(jnl_begin(j, &t), JNL_OK, "begin");
    for (unsigned i = 0; i < MOST_READS; i++) {
        objects[i] = (jnl_object){bit_of(16 * i), &bits[i], 1};
    }
    want(jnl_read_many(t, objects, MOST_READS), JNL_OK, "a read of many");
    for (unsigned i = 0; i < MOST_READS; i++) {
        want(bits[i], (MOST_PARTS + 16 * i) % 3 == 0, "one of many");
        want(jnl_read(t, bit_of(16 * i), &value, 1), JNL_OK, "what was read");
        want(value, bits[i], "what was read");
    }
    jnl_abort(t);
}

/* Two objects whose sum is 100 at every moment. */
static const jnl_addr sum_of[2] = {{521, 2048}, {521, 3072}};
static int is_over;

enum { RUNS = 5000, SECONDS_OF_RUNS = 30, WRONG_SUM = 1000, GIVES_UP };

static int move_some(jnl_txn *t, void *context)
{
    unsigned char values[2][SIZE] = {{0}};
    unsigned *seed = context;
    jnl_object both[2] = {{sum_of[0], values[0], SIZE}, {sum_of[1], values[1], SIZE}};
    int s = jnl_read_many(t, both, 2);
    *seed = *seed * 1103515245u + 12345u;
    values[0][0] = (unsigned char)((*seed >> 16) % 101);
    values[1][0] = (unsigned char)(100 - values[0][0]);
    if (!s) s = jnl_write(t, sum_of[0], values[0], SIZE);
    return s ? s : jnl_write(t, sum_of[1], values[1], SIZE);
}

static void *movers(void *context)
{
    jnl *j;
    want(jnl_open(path, &j), JNL_OK, "open in a mover");
    do {
        want(jnl_run(j, move_some, context, 0, NULL), JNL_OK, "a move");
        nanosleep(&(struct timespec){0, 500000}, NULL);
    } while (!__atomic_load_n(&is_over, __ATOMIC_RELAXED));
    jnl_close(j);
    return NULL;
}

/* Reads one by one, and fails where it sees two moments. */
static int want_sum(jnl_txn *t, void *context)
{
    unsigned char values[2][SIZE];
    int s = jnl_read(t, sum_of[0], values[0], SIZE);
    (void)context;
    if (!s) s = jnl_read(t, sum_of[1], values[1], SIZE);
    return s || values[0][0] + values[1][0] == 100 ? s : WRONG_SUM;
}

/* Reads one by one, writes and fails. */
static int give_up(jnl_txn *t, void *context)
{
    static const unsigned char value[SIZE] = {99};
    int s = want_sum(t, context);
    if (!s) s = jnl_write(t, sum_of[0], value, SIZE);
    return s ? s : GIVES_UP;
}

static void errors_of_two_moments(jnl *j)
{
    pthread_t threads[2];
    unsigned seeds[2] = {1, 2};
    time_t ends = time(NULL) + SECONDS_OF_RUNS;
    want(jnl_run(j, move_some, &seeds[0], 0, NULL), JNL_OK, "the first move");
    want(jnl_run(j, give_up, NULL, 0, NULL), GIVES_UP, "work that gives up");
    want(jnl_run(j, want_sum, NULL, 0, NULL), JNL_OK, "what it leaves");
    for (int i = 0; i < 2; i++) {
        want(pthread_create(&threads[i], NULL, movers, &seeds[i]), 0, "a thread");
    }
    for (int i = 0; i < RUNS && time(NULL) < ends; i++) {
        want(jnl_run(j, want_sum, NULL, 0, NULL), JNL_OK, "work that reads one by one");
    }
    __atomic_store_n(&is_over, 1, __ATOMIC_RELAXED);
    for (int i = 0; i < 2; i++) want(pthread_join(threads[i], NULL), 0, "a join");
}

static void over_tcp(uint16_t port)
{
    jnl *j;
    int64_t all;
    want(jnl_open_tcp(port, &j), JNL_OK, "open by TCP");
    want(jnl_run(j, sum, &all, JNL_WAIT, NULL), JNL_OK, "the sum by TCP");
    want((int)all, 100 * ACCOUNTS, "the sum by TCP");
    want(jnl_stop(j), JNL_FORBIDDEN, "a stop by TCP");
    jnl_close(j);
}

int main(int argc, char **argv)
{
    jnl *j;
    jnl_counts counts;
    jnl_receipt receipt = {0, 0};
    uint64_t stable;
    int64_t all;
    if (argc < 2) return fprintf(stderr, "usage: test_jnl SOCKET [TCP_PORT]\n"), 2;
    path = argv[1];
    want(jnl_open("/nowhere/at/all", &j), JNL_NO_PORT, "no socket");
    want(errno, ENOENT, "why");
    want(jnl_open_tcp(0, &j), JNL_NO_PORT, "no TCP port");
    want(jnl_open(path, &j), JNL_OK, "open");
    want(jnl_run(j, begin_all, NULL, JNL_WAIT, &receipt), JNL_OK, "the first transaction");
    want(jnl_stat(j, &counts), JNL_OK, "stat");
    want(receipt.commits > 0 && receipt.commits <= counts.stable, 1, "the receipt of a run");
    run_transfers(j);
    want(jnl_run(j, sum, &all, 0, NULL), JNL_OK, "the sum");
    want((int)all, 100 * ACCOUNTS, "the sum");
    refusals(j);
    reads_of_many(j);
    what_no_record_holds(j);
    as_many_parts_as_may_be(j);
    errors_of_two_moments(j);
    if (argc > 2) over_tcp((uint16_t)atoi(argv[2]));
    want(jnl_flush(j, &stable), JNL_OK, "flush");
    want(jnl_stat(j, &counts), JNL_OK, "stat");
    want(counts.stable >= stable && counts.commits >= counts.stable, 1, "counts");
    jnl_close(j);
    puts("ok");
    return 0;
}
