/* Tests of the carrier in the process: test_inside DISK OTHER, two disks. It prints `ok`, or the
 * first thing that is wrong. */
#include "../jnl.h"
#include <errno.h>
#include <stdio.h>
#include <stdlib.h>
#include <string.h>
#include <sys/wait.h>
#include <time.h>
#include <unistd.h>

enum { SIZE = 128, MOST = 64 };

static void want(int found, int wanted, const char *what)
{
    if (found == wanted) return;
    printf("%s: %d (%s), not %d; %s\n", what, found, jnl_strerror(found), wanted, jnl_reason());
    exit(1);
}

static int add_one(jnl_txn *t, void *count)
{
    unsigned char value[SIZE];
    int s = jnl_read(t, (jnl_addr){515, 0}, value, SIZE);
    if (s) return s;
    value[0]++;
    *(int *)count = value[0];
    return jnl_write(t, (jnl_addr){515, 0}, value, SIZE);
}

static void count_to(jnl *j, int wanted, const char *what)
{
    int count;
    want(jnl_run(j, add_one, &count, JNL_WAIT, NULL), JNL_OK, what);
    want(count, wanted, what);
}

static void use_in_child(jnl *j, const char *disk)
{
    jnl *other;
    jnl_counts counts;
    int status;
    pid_t child = fork();
    if (!child) {
        want(jnl_stat(j, &counts), JNL_FORKED, "a call in a fork");
        want(jnl_open(disk, &other), JNL_FORKED, "an open in a fork");
        jnl_close(j);
        _exit(0);
    }
    waitpid(child, &status, 0);
    want(status, 0, "the fork");
}

static void as_many_as_can_be(jnl *first, const char *disk)
{
    jnl *all[MOST], *more;
    for (int i = 1; i < MOST; i++) want(jnl_open(disk, &all[i]), JNL_OK, "one more");
    want(jnl_open(disk, &more), JNL_NO_PORT, "one too many");
    want(errno, EMFILE, "why it is one too many");
    for (int i = 1; i < MOST; i++) count_to(all[i], 2 + i, "one of many");
    for (int i = 1; i < MOST; i++) jnl_close(all[i]);
    count_to(first, 2 + MOST, "the first again");
}

static void stop_and_open_again(jnl *first, const char *disk)
{
    jnl *second, *again;
    jnl_counts counts;
    want(jnl_open(disk, &second), JNL_OK, "a second");
    want(jnl_stop(first), JNL_OK, "stop");
    /* The answer comes before the end does. */
    int s = JNL_OK;
    for (int i = 0; i < 10000 && (s == JNL_OK || s == JNL_LOST); i++) {
        s = jnl_stat(second, &counts);
        nanosleep(&(struct timespec){0, 1000000}, NULL);
    }
    want(s, JNL_NO_PORT, "a call behind the stop");
    want(jnl_stat(first, &counts), JNL_NO_PORT, "a call of the first");
    jnl_close(first);
    jnl_close(second);
    want(jnl_open(disk, &again), JNL_OK, "opened again");
    count_to(again, 3 + MOST, "counted again");
    jnl_close(again);
}

int main(int argc, char **argv)
{
    jnl *j, *other;
    if (argc != 3) return fprintf(stderr, "usage: test_inside DISK OTHER\n"), 2;
    want(jnl_open("/nowhere/at/all", &j), JNL_NO_PORT, "no file");
    want(errno, ENOENT, "why there is no file");
    want(jnl_open("/dev/null", &j), JNL_NO_PORT, "no disk");
    want(errno, EIO, "that the reason is said");
    want(strlen(jnl_reason()) > 0, 1, "why there is no disk");
    want(jnl_open(argv[1], &j), JNL_OK, "open");
    count_to(j, 1, "the first");
    want(jnl_open(argv[2], &other), JNL_SECOND_DISK, "a second disk");
    use_in_child(j, argv[1]);
    count_to(j, 2, "behind the fork");
    as_many_as_can_be(j, argv[1]);
    stop_and_open_again(j, argv[1]);
    want(jnl_open(argv[2], &j), JNL_OK, "the other disk, once the first is closed");
    count_to(j, 1, "the other's first");
    jnl_close(j);
    puts("ok");
    return 0;
}
