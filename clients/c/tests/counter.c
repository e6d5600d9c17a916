/* counter PATH NUMBER [COUNT]: adds one to three counters, two of its own number and one of all, in
 * one transaction that waits, for ever or COUNT times. It prints its own count once each is
 * answered. Where a call is refused it prints the status and ends. What it has told is to be there
 * after whatever ends it or the port. */
#include "../jnl.h"
#include <stdio.h>
#include <stdlib.h>
#include <string.h>

enum { SIZE = 128 };

static const jnl_addr of_all = {530, 0};
static uint64_t own;

static int add_one(jnl_txn *t, jnl_addr a, uint64_t *count)
{
    unsigned char value[SIZE];
    int s = jnl_read(t, a, value, SIZE);
    if (s) return s;
    memcpy(count, value, sizeof *count);
    (*count)++;
    memcpy(value, count, sizeof *count);
    return jnl_write(t, a, value, SIZE);
}

static int add_to_each(jnl_txn *t, void *number)
{
    uint32_t bit = 1024 * *(uint32_t *)number;
    uint64_t other;
    int s = add_one(t, (jnl_addr){528, bit}, &own);
    if (!s) s = add_one(t, (jnl_addr){529, bit}, &other);
    if (!s && own != other) {
        printf("the counters are %lu and %lu\n", (unsigned long)own, (unsigned long)other);
        exit(3);
    }
    return s ? s : add_one(t, of_all, &other);
}

int main(int argc, char **argv)
{
    jnl *j;
    if (argc < 3) return fprintf(stderr, "usage: counter PATH NUMBER [COUNT]\n"), 2;
    uint32_t number = (uint32_t)atoi(argv[2]);
    long left = argc > 3 ? atol(argv[3]) : -1;
    int s = jnl_open(argv[1], &j);
    while (!s && left--) {
        s = jnl_run(j, add_to_each, &number, JNL_WAIT, NULL);
        if (!s) printf("%llu\n", (unsigned long long)own), fflush(stdout);
    }
    if (s) printf("status %d\n", s), fflush(stdout);
    jnl_close(j);
    return s != 0;
}
