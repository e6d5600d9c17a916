/* Tests of the client against a port with faults: test_faults SOCKET. The port is
 * clients/tests/faulty_port.py, which lists the faults. It prints `ok`, or the first thing that is
 * wrong. */
#include "../jnl.h"
#include <errno.h>
#include <stdio.h>
#include <stdlib.h>
#include <time.h>

/* The most seconds that a call with a limit may take where the machine has other work. */
#define PATIENCE 20

static jnl *j;
static unsigned tries;

static void want(uint64_t found, uint64_t wanted, const char *what, uint32_t bit)
{
    if (found == wanted) return;
    printf("%s, bit %u: %lu, not %lu\n", what, bit, (unsigned long)found, (unsigned long)wanted);
    exit(1);
}

static uint64_t commits(uint32_t bit)
{
    jnl_counts counts = {0, 0};
    want((unsigned)jnl_stat(j, &counts), JNL_OK, "the next call", bit);
    return counts.commits;
}

static int commit(uint32_t bit, jnl_receipt *receipt)
{
    jnl_txn *t;
    want((unsigned)jnl_begin(j, &t), JNL_OK, "begin", bit);
    want((unsigned)jnl_write(t, (jnl_addr){514, bit}, "\1", 1), JNL_OK, "write", bit);
    int s = jnl_commit(t, 0, receipt);
    struct timespec pause = {0, 200000000};
    /* The port ends the connection behind its answer. */
    if (bit == 0 || bit == 13) nanosleep(&pause, NULL);
    return s;
}

static void a_commit(uint32_t bit, int wanted, uint64_t more)
{
    uint64_t before = commits(bit);
    want((unsigned)commit(bit, NULL), (unsigned)wanted, "a commit", bit);
    want(commits(bit), before + more, "commits", bit);
}

static int set_bit(jnl_txn *t, void *bit)
{
    tries++;
    return jnl_write(t, (jnl_addr){514, *(uint32_t *)bit}, "\1", 1);
}

static void a_run(uint32_t bit, int wanted, unsigned times)
{
    uint64_t before = commits(bit);
    tries = 0;
    want((unsigned)jnl_run(j, set_bit, &bit, JNL_WAIT, NULL), (unsigned)wanted, "a run", bit);
    want(tries, times, "tries", bit);
    want(commits(bit), before + 1, "commits of a run", bit);
}

static void a_read(uint32_t bit)
{
    jnl_txn *t;
    unsigned char value = 9;
    want((unsigned)commit(bit, NULL), JNL_OK, "a commit", bit);
    want((unsigned)jnl_begin(j, &t), JNL_OK, "begin", bit);
    want((unsigned)jnl_read(t, (jnl_addr){514, bit}, &value, 1), JNL_PROTOCOL, "a read", bit);
    want(value, 9, "what a read that is refused leaves", bit);
    want((unsigned)jnl_read(t, (jnl_addr){514, bit}, &value, 1), JNL_OK, "the next read", bit);
    want(value, 1, "the value", bit);
    jnl_abort(t);
}

static void a_read_of_many(uint32_t bit)
{
    jnl_txn *t;
    unsigned char values[2] = {9, 9};
    jnl_object both[2] = {{{514, bit}, &values[0], 1}, {{514, 100}, &values[1], 1}};
    want((unsigned)commit(bit, NULL), JNL_OK, "a commit", bit);
    want((unsigned)jnl_begin(j, &t), JNL_OK, "begin", bit);
    want((unsigned)jnl_read_many(t, both, 2), JNL_PROTOCOL, "a read of two", bit);
    want(values[0] + values[1], 18, "what a read that is refused leaves", bit);
    want((unsigned)jnl_read_many(t, both, 2), JNL_OK, "the next read of two", bit);
    want(10 * values[0] + values[1], 10, "the values", bit);
    jnl_abort(t);
}

/* Work that reads some bits, one by one or all at once, waits and fails; or it reads or writes the
 * first block of the log, which has no object. */
struct failing {
    uint32_t bits[3];
    unsigned count;
    int at_once, reads_log, writes_log;
};

enum { FAILURE = 1000, MOST_BITS = 3 };

static int fail(jnl_txn *t, void *context)
{
    const struct failing *f = context;
    unsigned char values[MOST_BITS], block[4096];
    jnl_object objects[MOST_BITS];
    struct timespec pause = {0, 200000000};
    int s = JNL_OK;
    tries++;
    for (unsigned i = 0; i < f->count; i++) {
        objects[i] = (jnl_object){{514, f->bits[i]}, &values[i], 1};
        if (!s && !f->at_once) s = jnl_read_many(t, &objects[i], 1);
        if (f->bits[i] == 32) nanosleep(&pause, NULL); /* the port ends the connection */
    }
    if (f->at_once) s = jnl_read_many(t, objects, f->count);
    if (!s && f->reads_log) s = jnl_read(t, (jnl_addr){0, 0}, block, sizeof block);
    if (!s && f->writes_log) return jnl_write(t, (jnl_addr){0, 0}, &values[0], 1);
    return s ? s : FAILURE;
}

static void a_failure(struct failing f, int wanted, unsigned times)
{
    tries = 0;
    want((unsigned)jnl_run(j, fail, &f, 0, NULL), (unsigned)wanted, "work that fails", f.bits[1]);
    want(tries, times, "tries of work that fails", f.bits[1]);
}

static void failures(void)
{
    uint64_t before = commits(30);
    a_failure((struct failing){{100, 30, 0}, 2, 0, 0, 0}, FAILURE, 3);
    want(commits(30), before + 1, "commits that compare", 30);
    a_failure((struct failing){{100, 30, 0}, 2, 0, 1, 0}, JNL_BAD_ADDRESS, 3);
    a_failure((struct failing){{100, 30, 0}, 2, 0, 0, 1}, JNL_BAD_ADDRESS, 3);
    a_failure((struct failing){{100, 31, 0}, 2, 1, 0, 1}, JNL_BAD_ADDRESS, 1);
    a_failure((struct failing){{100, 31, 0}, 2, 0, 0, 0}, JNL_LOST, 1);
    a_failure((struct failing){{100, 31, 0}, 2, 1, 0, 0}, FAILURE, 1);
    a_failure((struct failing){{100, 31, 0}, 1, 0, 0, 0}, FAILURE, 1);
    a_failure((struct failing){{100, 32, 0}, 2, 0, 0, 0}, JNL_NO_PORT, 1);
    a_failure((struct failing){{100, 33, 0}, 2, 0, 0, 0}, JNL_FENCED, 1);
    want((unsigned)commit(20, NULL), JNL_OK, "a commit", 20);
    a_failure((struct failing){{100, 31, 20}, 3, 0, 0, 0}, JNL_PROTOCOL, 1);
    want(commits(30), before + 4, "commits of all", 30);
}

static void unsure(void)
{
    jnl_receipt receipt = {0, 0};
    uint64_t before = commits(8);
    want((unsigned)commit(8, &receipt), JNL_UNSURE, "a commit", 8);
    want(receipt.commits, before + 1, "the receipt", 8);
}

static double seconds(void)
{
    struct timespec t;
    clock_gettime(CLOCK_MONOTONIC, &t);
    return (double)t.tv_sec + (double)t.tv_nsec / 1e9;
}

#define LONG_PATH "/a/path/of/more/bytes/than/the/name/of/a/socket/has"

static void no_port(const char *nowhere, int why)
{
    jnl *none;
    want((unsigned)jnl_open(nowhere, &none), JNL_NO_PORT, nowhere, 0);
    want((unsigned)errno, (unsigned)why, nowhere, 0);
}

/* A port that does not answer, and one that has no room for a connection. */
static void no_port_in_time(const char *path, const char *kind)
{
    char nowhere[200];
    jnl *none;
    double begin = seconds();
    snprintf(nowhere, sizeof nowhere, "%s.%s", path, kind);
    want((unsigned)jnl_open_within(nowhere, 200, &none), JNL_NO_PORT, kind, 0);
    want((unsigned)errno, ETIMEDOUT, kind, 0);
    want(seconds() - begin >= 0.2 && seconds() - begin < PATIENCE, 1, kind, 0);
}

/* An answer that comes by a byte each fifth of a second. */
static void a_limit_is_of_the_whole_call(void)
{
    double begin = seconds();
    jnl_set_timeout(j, 500);
    want((unsigned)commit(15, NULL), JNL_LOST, "a commit", 15);
    want((unsigned)errno, ETIMEDOUT, "why", 15);
    want(seconds() - begin < PATIENCE, 1, "seconds", 15);
}

int main(int argc, char **argv)
{
    if (argc != 2) return fprintf(stderr, "usage: test_faults SOCKET\n"), 2;
    want((unsigned)jnl_open(argv[1], &j), JNL_OK, "open", 0);
    jnl_set_timeout(j, 30000);
    a_commit(0, JNL_OK, 1);
    a_commit(1, JNL_LOST, 1);
    a_commit(2, JNL_LOST, 0);
    a_commit(3, JNL_LOST, 1);
    a_commit(4, JNL_PROTOCOL, 1);
    a_commit(5, JNL_PROTOCOL, 1);
    a_commit(6, JNL_PROTOCOL, 1);
    a_commit(7, JNL_FENCED, 0);
    a_commit(9, JNL_PROTOCOL, 1);
    a_commit(11, JNL_OK, 1);
    a_commit(12, JNL_OK, 1);
    unsure();
    a_run(1, JNL_LOST, 1);
    a_run(10, JNL_OK, 4);
    for (uint32_t bit = 20; bit < 23; bit++) a_read(bit), a_read_of_many(bit);
    failures();
    want((unsigned)commit(13, NULL), JNL_OK, "a commit", 13);
    want((unsigned)jnl_flush(j, NULL), JNL_OTHER_VERSION, "another version", 13);
    commits(13);
    jnl_set_timeout(j, 200);
    a_commit(14, JNL_LOST, 1);
    no_port("/nowhere/at/all", ENOENT);
    no_port("/dev/null", ECONNREFUSED);
    no_port(LONG_PATH LONG_PATH LONG_PATH, ENAMETOOLONG);
    no_port_in_time(argv[1], "silent");
    no_port_in_time(argv[1], "full");
    a_limit_is_of_the_whole_call();
    jnl_close(j);
    puts("ok");
    return 0;
}
