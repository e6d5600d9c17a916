/* refused_memory PATH [inside]: each call of the client, where a request for memory may be refused.
 * A call that is refused is made again, and must then do well. With the journal in this process a
 * call may also lose its line, or find no journal. It prints how many calls were refused, or the
 * first thing that is wrong. */
#include "../jnl.h"
#include <stdio.h>
#include <stdlib.h>
#include <string.h>

enum { BLOCK = 4096, BLOCKS = 20, FLIGHTS = 100 };

static unsigned refused;
static int is_inside;

static int is_refused(int status, const char *what)
{
    if (status == JNL_OK) return 0;
    int is_lost = is_inside && (status == JNL_LOST || status == JNL_NO_PORT);
    if ((status == JNL_NO_MEMORY || is_lost) && refused < 1) {
        refused++;
        return 1;
    }
    printf("%s: %d (%s)\n", what, status, jnl_strerror(status));
    exit(1);
}

/* Makes a call, and again where it is refused. */
#define MAKE(call) while (is_refused((call), #call))

static int write_all(jnl_txn *t, void *byte)
{
    unsigned char found[BLOCK], value[BLOCK];
    memset(value, *(int *)byte, BLOCK);
    for (uint64_t b = 540; b < 540 + BLOCKS; b++) {
        MAKE(jnl_read(t, (jnl_addr){b, 0}, found, BLOCK));
        MAKE(jnl_write(t, (jnl_addr){b, 0}, value, BLOCK));
    }
    return JNL_OK;
}

static void look(jnl *j, int byte)
{
    jnl_txn *t;
    unsigned char found[BLOCK];
    MAKE(jnl_begin(j, &t));
    for (uint64_t b = 540; b < 540 + BLOCKS; b++) {
        MAKE(jnl_read(t, (jnl_addr){b, 0}, found, BLOCK));
        if (found[0] != byte || found[BLOCK - 1] != byte) {
            printf("block %d: %d, not %d\n", (int)b, found[0], byte);
            exit(1);
        }
    }
    jnl_abort(t);
}

static int submit(jnl *j)
{
    jnl_txn *t;
    int s = jnl_begin(j, &t);
    if (s) return s;
    s = jnl_write(t, (jnl_addr){514, 9}, "\1", 1);
    if (!s) return jnl_submit(t, 0, 9);
    jnl_abort(t);
    return s;
}

/* A commit that is refused is not in flight. */
static void fly(jnl *j)
{
    uint64_t tag;
    int status;
    for (size_t i = 0; i < FLIGHTS; i++) {
        MAKE(submit(j));
        if (jnl_in_flight(j) == i + 1) continue;
        printf("in flight: %u\n", (unsigned)jnl_in_flight(j));
        exit(1);
    }
    for (int i = 0; i < FLIGHTS; i++) {
        MAKE(jnl_next(j, &tag, &status, NULL));
        if (is_refused(status, "a commit in flight")) exit(1);
    }
}

int main(int argc, char **argv)
{
    jnl *j;
    uint64_t stable;
    jnl_counts counts;
    if (argc < 2) return fprintf(stderr, "usage: refused_memory PATH [inside]\n"), 2;
    is_inside = argc == 3;
    MAKE(jnl_open(argv[1], &j));
    for (int byte = 1; byte < 4; byte++) {
        MAKE(jnl_run(j, write_all, &byte, byte == 3 ? JNL_WAIT : 0, NULL));
        look(j, byte);
    }
    /* In this process the port's memory is refused too, and with it commits in flight. */
    if (!is_inside) fly(j);
    MAKE(jnl_flush(j, &stable));
    MAKE(jnl_stat(j, &counts));
    jnl_close(j);
    printf("refused %u\n", refused);
    return 0;
}
