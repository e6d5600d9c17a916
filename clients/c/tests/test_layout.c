/* A test of the client against a running port of a disk with a layout of its own: test_layout
 * SOCKET. Its regions are 513:block, 514:bit and 515:record64. It prints `ok`, or the first thing
 * that is wrong. */
#include "../jnl.h"
#include <stdio.h>
#include <stdlib.h>
#include <string.h>

enum { RECORD = 64, RECORD_BITS = 8 * RECORD, BLOCK = 4096 };

static void want(int found, int wanted, const char *what)
{
    if (found == wanted) return;
    printf("%s: %d (%s), not %d\n", what, found, jnl_strerror(found), wanted);
    exit(1);
}

/* The first of the last block's records is left, and the last one is written. */
static int write_each_kind(jnl_txn *t, void *context)
{
    const uint64_t *last = context;
    static unsigned char head[BLOCK] = "TEST 513:block 514:bit 515:record64", record[RECORD] = {7};
    int s = jnl_write(t, (jnl_addr){513, 0}, head, BLOCK);
    if (!s) s = jnl_write(t, (jnl_addr){514, 32766}, "\1", 1);
    if (!s) s = jnl_write(t, (jnl_addr){*last, 62 * RECORD_BITS}, record, RECORD);
    return s;
}

static int read_each_kind(jnl_txn *t, void *context)
{
    const uint64_t *last = context;
    static unsigned char head[BLOCK], record[RECORD], other[RECORD], bit;
    const jnl_object all[] = {{{513, 0}, head, BLOCK},
                              {{514, 32766}, &bit, 1},
                              {{*last, 62 * RECORD_BITS}, record, RECORD},
                              {{*last, RECORD_BITS}, other, RECORD}};
    int s = jnl_read_many(t, all, sizeof all / sizeof *all);
    if (s) return s;
    want(memcmp(head, "TEST 513", 8), 0, "the head");
    want(bit, 1, "the bit");
    want(record[0], 7, "the record");
    want(other[0], 0, "a record that was never written");
    return JNL_OK;
}

static void refuse(jnl *j, jnl_addr at, size_t size, int wanted, const char *what)
{
    static const unsigned char value[BLOCK];
    jnl_txn *t;
    want(jnl_begin(j, &t), JNL_OK, "begin");
    want(jnl_write(t, at, value, size), wanted, what);
    want(jnl_commit(t, 0, NULL), JNL_OK, "commit");
}

int main(int argc, char **argv)
{
    jnl *j;
    if (argc < 2) return fprintf(stderr, "usage: test_layout SOCKET\n"), 2;
    want(jnl_open(argv[1], &j), JNL_OK, "open");
    uint64_t last = jnl_blocks(j) - 1;
    want(jnl_run(j, write_each_kind, &last, JNL_WAIT, NULL), JNL_OK, "writes");
    want(jnl_run(j, read_each_kind, &last, 0, NULL), JNL_OK, "reads");
    refuse(j, (jnl_addr){last + 1, 0}, RECORD, JNL_BAD_ADDRESS, "a block that the disk has not");
    refuse(j, (jnl_addr){515, RECORD_BITS / 2}, RECORD, JNL_BAD_ADDRESS, "half a record's bits");
    refuse(j, (jnl_addr){515, 0}, 2 * RECORD, JNL_BAD_SIZE, "two records");
    refuse(j, (jnl_addr){531, 0}, BLOCK, JNL_BAD_SIZE, "a block where records are");
    jnl_close(j);
    puts("ok");
    return 0;
}
