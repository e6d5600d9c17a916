/* Tests of many commits in flight: test_flights SOCKET [FAULTY_SOCKET]. The second one is of
 * clients/tests/faulty_port.py, which lists the faults. It prints `ok`, or the first thing that is
 * wrong. */
#include "../jnl.h"
#include <errno.h>
#include <stdio.h>
#include <stdlib.h>
#include <string.h>
#include <time.h>
#include <unistd.h>

enum { SIZE = 128, MANY = 10000, MOST = 16384, BEFORE = 20, AFTER = 30, SECONDS = 120 };
enum { FREE_BIT = 200, COMMITTED = 0, NOT_ANSWERED = 1, HALF_ANSWERED = 3, ENDS_SESSION = 7 };

static jnl *j;

static void want(uint64_t found, uint64_t wanted, const char *what, uint64_t which)
{
    if (found == wanted) return;
    printf("%s, %lu: %lu, not %lu\n", what, (unsigned long)which, (unsigned long)found,
           (unsigned long)wanted);
    exit(1);
}

static void want_status(int found, int wanted, const char *what, uint64_t which)
{
    want((unsigned)found, (unsigned)wanted, what, which);
}

static jnl_txn *begun(void)
{
    jnl_txn *t;
    want_status(jnl_begin(j, &t), JNL_OK, "begin", 0);
    return t;
}

static uint64_t commits(void)
{
    jnl_counts counts = {0, 0};
    want_status(jnl_stat(j, &counts), JNL_OK, "stat", 0);
    return counts.commits;
}

static int submit_record(unsigned char byte, unsigned flags, uint64_t tag)
{
    unsigned char value[SIZE] = {byte};
    jnl_txn *t = begun();
    want_status(jnl_write(t, (jnl_addr){525, 0}, value, SIZE), JNL_OK, "write", tag);
    return jnl_submit(t, flags, tag);
}

static void put_record(unsigned char byte, unsigned flags, uint64_t tag)
{
    want_status(submit_record(byte, flags, tag), JNL_OK, "submit", tag);
}

/* Takes an answer, and wants it to be this one's. */
static jnl_receipt take(uint64_t tag, int status)
{
    jnl_receipt receipt = {0, 0};
    uint64_t found = ~tag;
    int s = 1000;
    want_status(jnl_next(j, &found, &s, &receipt), JNL_OK, "an answer", tag);
    want(found, tag, "its tag", tag);
    want_status(s, status, "its status", tag);
    return receipt;
}

static void take_none(void)
{
    uint64_t tag = 7;
    int status = 7;
    want(jnl_in_flight(j), 0, "in flight", 0);
    want_status(jnl_next(j, &tag, &status, NULL), JNL_NONE, "one answer more", 0);
    want(tag + (unsigned)status, 14, "what no answer sets", 0);
}

/* ---- a port that does well */

/* One in seven compares a byte that the object does not have. */
static int submit_one_of_many(uint64_t i)
{
    unsigned char value[SIZE] = {(unsigned char)i};
    jnl_txn *t = begun();
    unsigned char found[SIZE];
    int differs = i % 7 == 3;
    if (differs) want_status(jnl_read(t, (jnl_addr){526, 1024}, found, SIZE), JNL_OK, "read", i);
    if (differs) put_record((unsigned char)i, 0, 1000 + i);
    want_status(jnl_write(t, (jnl_addr){526, 1024}, value, SIZE), JNL_OK, "write", i);
    return jnl_submit(t, i % 50 ? 0 : JNL_WAIT, i);
}

/* Answers come in the order of their commits, each once, and each with what its commit did. */
static void order(void)
{
    uint64_t first = commits(), done = 0;
    for (uint64_t i = 0; i < MANY; i++) put_record(1, 0, 3 * i);
    want(jnl_in_flight(j), MANY, "in flight", 0);
    for (uint64_t i = 0; i < MANY; i++) {
        want(take(3 * i, JNL_OK).commits, first + i + 1, "commits up to it", i);
    }
    take_none();
    for (uint64_t i = 0; i < 70; i++) want_status(submit_one_of_many(i), JNL_OK, "submit", i);
    for (uint64_t i = 0; i < 70; i++, done++) {
        if (i % 7 == 3) take(1000 + i, JNL_OK), done++;
        want(take(i, JNL_OK).commits, first + MANY + done + 1, "commits up to it", i);
    }
    take_none();
}

/* A commit that meets a conflict is refused alone. */
static void conflicts(void)
{
    unsigned char found[SIZE], other = 0;
    jnl_txn *late[10];
    uint64_t before = commits();
    for (uint64_t i = 0; i < 10; i++) {
        jnl_addr a = {525, 1024 * (uint32_t)(i % 2)};
        late[i] = begun();
        want_status(jnl_read(late[i], a, found, SIZE), JNL_OK, "read", i);
        if (i == 0) other = (unsigned char)(found[0] + 1);
        found[0] = (unsigned char)(found[0] + 1 + i);
        want_status(jnl_write(late[i], (jnl_addr){525, 2048}, found, SIZE), JNL_OK, "write", i);
    }
    put_record(other, 0, 100);
    for (uint64_t i = 0; i < 10; i++) want_status(jnl_submit(late[i], 0, i), JNL_OK, "submit", i);
    take(100, JNL_OK);
    for (uint64_t i = 0; i < 10; i++) take(i, i % 2 ? JNL_OK : JNL_CONFLICT);
    want(commits(), before + 6, "commits", 0);
}

static void refusals(void)
{
    static const unsigned char block[4096];
    jnl_txn *t = begun();
    for (uint64_t i = 0; i <= 128; i++) {
        want_status(jnl_write(t, (jnl_addr){531 + i, 0}, block, sizeof block), JNL_OK, "write", i);
    }
    put_record(1, 0, 1);
    want_status(jnl_submit(t, 0, 2), JNL_OK, "too many blocks", 2);
    put_record(2, JNL_WAIT, 3);
    take(1, JNL_OK), take(2, JNL_TOO_LARGE), take(3, JNL_OK);
    want_status(jnl_submit(NULL, 0, 0), JNL_MISUSE, "no transaction", 0);
    want_status(jnl_next(j, NULL, NULL, NULL), JNL_MISUSE, "no place for an answer", 0);
    want_status(jnl_push(NULL), JNL_MISUSE, "nothing to push", 0);
}

/* Other calls are answered after what is in flight, and keep its answers. */
static void other_calls(void)
{
    unsigned char found[SIZE];
    uint64_t before = commits();
    for (uint64_t i = 0; i < 40; i++) {
        put_record((unsigned char)(i + 1), 0, i);
        if (i % 8) continue;
        jnl_txn *t = begun();
        want_status(jnl_read(t, (jnl_addr){525, 0}, found, SIZE), JNL_OK, "a read between", i);
        want(found[0], i + 1, "what it reads", i);
        jnl_abort(t);
        want(commits(), before + i + 1, "commits between", i);
        want_status(jnl_flush(j, NULL), JNL_OK, "a flush between", i);
    }
    want(jnl_in_flight(j), 40, "in flight", 0);
    for (uint64_t i = 0; i < 40; i++) {
        want(take(i, JNL_OK).commits, before + i + 1, "commits up to it", i);
    }
    take_none();
}

/* Records of two MiB and of a few bytes, more than the socket takes. */
static void long_records(void)
{
    static unsigned char block[4096];
    for (uint64_t i = 0; i < 40; i++) {
        jnl_txn *t = begun();
        for (uint64_t b = 0; b < (i % 3 ? 1 : 100); b++) {
            jnl_addr a = {540 + b, 0};
            block[0] = (unsigned char)(i + b + 1);
            want_status(jnl_write(t, a, block, sizeof block), JNL_OK, "write", i);
        }
        want_status(jnl_submit(t, 0, i), JNL_OK, "a long record", i);
    }
    for (uint64_t i = 0; i < 40; i++) take(i, JNL_OK);
    jnl_txn *t = begun();
    want_status(jnl_read(t, (jnl_addr){639, 0}, block, sizeof block), JNL_OK, "read", 0);
    want(block[0], (39 + 99 + 1) & 255, "the last block of the last long record", 0);
    jnl_abort(t);
}

static void as_many_as_may_be(void)
{
    for (uint64_t i = 0; i < MOST; i++) put_record(1, 0, i);
    jnl_txn *t = begun();
    want_status(jnl_write(t, (jnl_addr){514, FREE_BIT}, "\1", 1), JNL_OK, "write", 0);
    want_status(jnl_submit(t, 0, MOST), JNL_FULL, "one too many", MOST);
    take(0, JNL_OK);
    want_status(jnl_submit(t, 0, MOST), JNL_OK, "the same once there is room", MOST);
    for (uint64_t i = 1; i <= MOST; i++) take(i, JNL_OK);
    take_none();
}

/* What is held back is sent by jnl_push. */
static void push(const char *path)
{
    jnl *mine = j, *other;
    want_status(jnl_open(path, &other), JNL_OK, "open", 0);
    j = other;
    uint64_t before = commits();
    j = mine;
    put_record(9, 0, 1);
    want_status(jnl_push(j), JNL_OK, "push", 1);
    j = other;
    for (int i = 0; i < 10000 && commits() == before; i++) {
        nanosleep(&(struct timespec){0, 1000000}, NULL);
    }
    want(commits(), before + 1, "commits after a push", 0);
    j = mine;
    take(1, JNL_OK);
    jnl_close(other);
}

/* ---- a port with faults */

static void submit_bit(uint32_t bit, uint64_t tag)
{
    jnl_txn *t = begun();
    want_status(jnl_write(t, (jnl_addr){514, bit}, "\1", 1), JNL_OK, "write", tag);
    want_status(jnl_submit(t, 0, tag), JNL_OK, "submit", tag);
}

/* The commits once a connection that this client has closed has none under way any more. */
static uint64_t commits_at_rest(void)
{
    uint64_t last = commits();
    for (int same = 0; same < 3;) {
        nanosleep(&(struct timespec){0, 20000000}, NULL);
        uint64_t now = commits();
        same = now == last ? same + 1 : 0;
        last = now;
    }
    return last;
}

/* While answers of a lost connection are not taken. */
static void nothing_is_sent(void)
{
    want_status(submit_record(1, 0, 0), JNL_LOST, "a commit after a loss", 0);
    want_status(jnl_flush(j, NULL), JNL_LOST, "a flush after a loss", 0);
}

/* Commits before one that meets a fault, that one, and commits after it. So many are done at least
 * and at most, and those are answered so that the fault meets and that come later. */
static void a_fault(uint32_t bit, int status, int later, uint64_t least, uint64_t most)
{
    uint64_t before = commits();
    for (uint64_t i = 0; i < BEFORE; i++) submit_bit(FREE_BIT, i);
    submit_bit(bit, BEFORE);
    for (uint64_t i = 0; i < AFTER; i++) submit_bit(FREE_BIT, BEFORE + 1 + i);
    for (uint64_t i = 0; i < BEFORE; i++) take(i, JNL_OK);
    take(BEFORE, status);
    for (uint64_t i = 1; i <= AFTER; i++) {
        take(BEFORE + i, later);
        if (later == JNL_LOST && i < AFTER) nothing_is_sent();
    }
    take_none();
    uint64_t done = (status == JNL_PROTOCOL ? commits_at_rest() : commits()) - before;
    want(done >= least && done <= most, 1, "the commits with a fault are a beginning", bit);
}

static void faults(void)
{
    a_fault(NOT_ANSWERED, JNL_LOST, JNL_LOST, BEFORE + 1, BEFORE + 1);
    a_fault(2, JNL_LOST, JNL_LOST, BEFORE, BEFORE);
    a_fault(HALF_ANSWERED, JNL_LOST, JNL_LOST, BEFORE + 1, BEFORE + 1);
    a_fault(COMMITTED, JNL_OK, JNL_LOST, BEFORE + 1, BEFORE + 1);
    a_fault(4, JNL_PROTOCOL, JNL_LOST, BEFORE + 1, BEFORE + 1 + AFTER);
    a_fault(5, JNL_PROTOCOL, JNL_LOST, BEFORE + 1, BEFORE + 1 + AFTER);
    a_fault(6, JNL_PROTOCOL, JNL_LOST, BEFORE + 1, BEFORE + 1 + AFTER);
    a_fault(9, JNL_PROTOCOL, JNL_LOST, BEFORE + 1, BEFORE + 1 + AFTER);
    a_fault(ENDS_SESSION, JNL_FENCED, JNL_FENCED, BEFORE, BEFORE);
    a_fault(8, JNL_UNSURE, JNL_OK, BEFORE + 1 + AFTER, BEFORE + 1 + AFTER);
    a_fault(11, JNL_OK, JNL_OK, BEFORE + 1 + AFTER, BEFORE + 1 + AFTER);
}

/* The connection is lost while more is submitted than the socket takes. */
static void loss_while_sending(void)
{
    uint64_t before = commits(), submitted = 0;
    submit_bit(FREE_BIT, submitted++);
    submit_bit(NOT_ANSWERED, submitted++);
    int s = JNL_OK;
    while (s == JNL_OK && submitted < MANY) {
        s = submit_record(1, 0, submitted);
        submitted += s == JNL_OK;
    }
    want_status(s, JNL_LOST, "submit after a loss", submitted);
    want(jnl_in_flight(j), submitted, "in flight", 0);
    take(0, JNL_OK);
    for (uint64_t i = 1; i < submitted; i++) take(i, JNL_LOST);
    take_none();
    want(commits(), before + 2, "commits", 0);
}

/* A call that is not answered after some in flight that are, whose answers stay. */
static void loss_of_another_call(void)
{
    jnl_counts counts;
    for (uint64_t i = 0; i < BEFORE; i++) submit_bit(i == BEFORE - 1 ? 0 : FREE_BIT, i);
    want_status(jnl_stat(j, &counts), JNL_LOST, "a call without an answer", 0);
    commits(); /* none in flight was lost, so the next call goes on */
    for (uint64_t i = 0; i < BEFORE; i++) take(i, JNL_OK);
    take_none();
    commits();
}

/* A call whose answer comes after one that comes in pieces. */
static void a_call_after_pieces(void)
{
    uint64_t before = commits();
    submit_bit(11, 1);
    want(commits(), before + 1, "commits after an answer in pieces", 11);
    take(1, JNL_OK);
}

static void a_limit_of_time(void)
{
    jnl_set_timeout(j, 3000);
    uint64_t before = commits();
    submit_bit(FREE_BIT, 0);
    submit_bit(14, 1);
    submit_bit(14, 2);
    take(0, JNL_OK);
    take(1, JNL_LOST);
    want((unsigned)errno, ETIMEDOUT, "why", 1);
    errno = 0;
    take(2, JNL_LOST);
    want((unsigned)errno, ETIMEDOUT, "why", 2);
    want(commits(), before + 3, "commits", 0);
}

int main(int argc, char **argv)
{
    if (argc != 2 && argc != 3) {
        return fprintf(stderr, "usage: test_flights SOCKET [FAULTY_SOCKET]\n"), 2;
    }
    alarm(SECONDS); /* where port and client wait for each other */
    want_status(jnl_open(argv[1], &j), JNL_OK, "open", 0);
    take_none();
    order(), conflicts(), refusals(), other_calls(), long_records(), as_many_as_may_be();
    push(argv[1]);
    jnl_close(j);
    if (argc == 3) {
        want_status(jnl_open(argv[2], &j), JNL_OK, "open", 0);
        faults(), loss_while_sending(), loss_of_another_call(), a_call_after_pieces();
        a_limit_of_time();
        jnl_close(j);
    }
    puts("ok");
    return 0;
}
