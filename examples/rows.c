/* Writes 1000 rows by one thread, with up to 64 commits in flight, and prints how many are stable.
 *
 *     make -C clients/c
 *     cc -Iclients/c examples/rows.c clients/c/out/libjnl.a -o rows
 *     ./rows
 *
 * It uses the service of bank.disk at bank.sock, as docs/EMBEDDING.md begins one. */
#include <jnl.h>
#include <stdio.h>

enum { ROWS = 1000, IN_FLIGHT = 64 };

static unsigned stable;

/* Takes the answer of the row that was submitted first: 0, where none is in flight. */
static int take(jnl *j)
{
    uint64_t row;
    int status;
    if (jnl_next(j, &row, &status, NULL)) return 0;
    if (status) printf("row %u: %s\n", (unsigned)row, jnl_strerror(status));
    stable += !status;
    return 1;
}

static int submit(jnl *j, uint64_t row)
{
    unsigned char value[128] = {(unsigned char)row};
    jnl_txn *t;
    int s = jnl_begin(j, &t);
    if (s) return s;
    s = jnl_write(t, (jnl_addr){520 + row % 10, 0}, value, sizeof value);
    if (!s) return jnl_submit(t, JNL_WAIT, row);
    jnl_abort(t);
    return s;
}

int main(void)
{
    jnl *j;
    int s = jnl_open("bank.sock", &j);
    for (uint64_t row = 0; !s && row < ROWS; row++) {
        if (jnl_in_flight(j) == IN_FLIGHT) take(j);
        s = submit(j, row);
    }
    while (take(j)) {}
    printf("%u rows\n", stable);
    jnl_close(j);
    return s != 0;
}
