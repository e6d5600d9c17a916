/* restarts PATH NUMBER: does what the lines of its input say, over one connection, and prints a line
 * for each: `lazy` and `stable` count up an object of this number, by a commit that does not wait or
 * waits, and print `ok COUNT`. `flush` and `stat` print `ok`. A call that tells that the service was
 * started again prints `restarted`, and another that is refused `status` and its number. */
#include "../jnl.h"
#include <stdio.h>
#include <stdlib.h>
#include <string.h>

enum { SIZE = 128 };

static uint64_t count;

static int count_up(jnl *j, jnl_addr a, unsigned flags)
{
    unsigned char value[SIZE] = {0};
    uint64_t next = count + 1;
    jnl_txn *t;
    int s = jnl_begin(j, &t);
    if (s) return s;
    memcpy(value, &next, sizeof next);
    s = jnl_write(t, a, value, SIZE);
    if (s) {
        jnl_abort(t);
        return s;
    }
    s = jnl_commit(t, flags, NULL);
    if (!s) count = next;
    return s;
}

static void tell(int s, int counts)
{
    if (s == JNL_RESTARTED) puts("restarted");
    else if (s) printf("status %d\n", s);
    else if (counts) printf("ok %llu\n", (unsigned long long)count);
    else puts("ok");
    fflush(stdout);
}

int main(int argc, char **argv)
{
    char line[16];
    jnl *j;
    jnl_counts counts;
    if (argc < 3) return fprintf(stderr, "usage: restarts PATH NUMBER\n"), 2;
    jnl_addr a = {527, 1024 * (uint32_t)atoi(argv[2])};
    int s = jnl_open(argv[1], &j);
    if (s) return printf("status %d\n", s), 1;
    while (fgets(line, sizeof line, stdin)) {
        if (!strcmp(line, "lazy\n")) tell(count_up(j, a, 0), 1);
        else if (!strcmp(line, "stable\n")) tell(count_up(j, a, JNL_WAIT), 1);
        else if (!strcmp(line, "stat\n")) tell(jnl_stat(j, &counts), 0);
        else tell(jnl_flush(j, NULL), 0);
    }
    jnl_close(j);
    return 0;
}
