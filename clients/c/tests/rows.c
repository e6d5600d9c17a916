/* rows SOCKET BLOCK ROW: writes rows from this number on, each into one of 128 records from a block
 * on, with 64 commits in flight that wait, until the service is gone. It prints the last row that
 * it was told to be stable, or one less than the first, and the last one that was submitted; or the
 * first thing that is wrong. */
#include "../jnl.h"
#include <stdio.h>
#include <stdlib.h>
#include <string.h>

enum { RECORDS = 128, IN_A_BLOCK = 32, IN_FLIGHT = 64, SIZE = 128 };

static uint64_t block, stable, submitted;
static int is_lost;

static void want(int is_so, const char *what, uint64_t row)
{
    if (is_so) return;
    printf("%s, row %lu\n", what, (unsigned long)row);
    exit(1);
}

/* Takes the answer of the oldest row in flight. After the first one that is lost all are. */
static void take(jnl *j)
{
    uint64_t row;
    int status;
    static uint64_t last;
    want(jnl_next(j, &row, &status, NULL) == JNL_OK, "no answer", 0);
    want(!last || row == last + 1, "another row", row);
    last = row;
    want(status == JNL_LOST || (status == JNL_OK && !is_lost), jnl_strerror(status), row);
    if (status == JNL_OK) stable = row;
    is_lost = status == JNL_LOST;
}

static int submit(jnl *j, uint64_t row)
{
    unsigned char value[SIZE] = {0};
    uint64_t place = row % RECORDS;
    jnl_addr a = {block + place / IN_A_BLOCK, 1024 * (uint32_t)(place % IN_A_BLOCK)};
    jnl_txn *t;
    for (int i = 0; i < 8; i++) value[i] = (unsigned char)(row >> (8 * i));
    int s = jnl_begin(j, &t);
    if (!s) s = jnl_write(t, a, value, SIZE);
    return s ? s : jnl_submit(t, JNL_WAIT, row);
}

int main(int argc, char **argv)
{
    jnl *j;
    if (argc != 4) return fprintf(stderr, "usage: rows SOCKET BLOCK ROW\n"), 2;
    block = strtoull(argv[2], NULL, 10);
    uint64_t first = strtoull(argv[3], NULL, 10);
    stable = submitted = first - 1;
    /* The service may be gone before. */
    is_lost = jnl_open(argv[1], &j) != JNL_OK;
    for (uint64_t row = first; !is_lost; row++) {
        if (jnl_in_flight(j) == IN_FLIGHT) take(j);
        int s = is_lost ? JNL_LOST : submit(j, row);
        want(s == JNL_OK || s == JNL_LOST || s == JNL_NO_PORT, jnl_strerror(s), row);
        if (s) break;
        submitted = row;
    }
    while (jnl_in_flight(j)) take(j);
    printf("%lu %lu\n", (unsigned long)stable, (unsigned long)submitted);
    jnl_close(j);
    return 0;
}
