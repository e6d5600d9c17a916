/* A table over a service of jnl: rows by their keys, with values of 0 to 1800 bytes. It does what
 * examples/table.py does, over the same disk, in the same words:
 *
 *     make -C clients/c
 *     cc -O2 -Iclients/c examples/table.c clients/c/out/libjnl.a -o table
 *     ./table table.sock
 *
 * The status is 1 where a call of the journal fails, after a line that says how. */
#include <jnl.h>
#include <stdio.h>
#include <stdlib.h>
#include <string.h>

enum { BITS = 514, FIRST = 515, RECORD = 2048, RECORDS_OF_BLOCK = 2, BLOCK_BITS = 32768 };
enum { MOST_KEY = 200, MOST_VALUE = 1800, MOST_LINE = 4096 };

/* The rows of a disk. keys has the key of each record that is in use, or NULL. A table with many
 * keys would look them up by a hash. */
struct table {
    jnl *j;
    jnl_pool *pool;
    uint32_t count;
    char *keys[BLOCK_BITS];
};

/* A change of a row: of which record, if it has one, and what is written there. */
struct change {
    struct table *table;
    int has_record;
    uint32_t record;
    unsigned char row[RECORD];
};

static void must(int s, const char *what)
{
    if (!s) return;
    printf("%s: %s\n", what, jnl_strerror(s));
    exit(1);
}

static jnl_addr place(uint32_t record)
{
    return (jnl_addr){FIRST + record / RECORDS_OF_BLOCK, record % RECORDS_OF_BLOCK * 8 * RECORD};
}

/* Bytes behind their length; answers what is behind them. */
static unsigned char *put_text(unsigned char *p, const char *text)
{
    size_t n = strlen(text);
    p[0] = (unsigned char)(n >> 8), p[1] = (unsigned char)n;
    memcpy(p + 2, text, n);
    return p + 2 + n;
}

static const unsigned char *get_text(const unsigned char *p, char *text)
{
    size_t n = (size_t)p[0] << 8 | p[1];
    memcpy(text, p + 2, n);
    text[n] = 0;
    return p + 2 + n;
}

static void read_row(struct table *all, uint32_t record, char *key, char *value)
{
    unsigned char row[RECORD];
    jnl_txn *t;
    must(jnl_begin(all->j, &t), "begin");
    must(jnl_read(t, place(record), row, RECORD), "read");
    jnl_abort(t);
    get_text(get_text(row, key), value);
}

static char *copy(const char *text)
{
    char *made = malloc(strlen(text) + 1);
    must(made ? JNL_OK : JNL_NO_MEMORY, "a key");
    return strcpy(made, text);
}

/* Finds the records that are in use, and keeps their keys. */
static void load(struct table *all)
{
    static uint32_t used[BLOCK_BITS];
    char key[MOST_KEY + 1], value[MOST_VALUE + 1];
    size_t n;
    must(jnl_scan(all->j, (jnl_scan_of){BITS, 0, 1}, used, BLOCK_BITS, &n), "scan");
    for (size_t i = 0; i < n; i++) {
        read_row(all, used[i], key, value);
        all->keys[used[i]] = copy(key);
    }
}

/* The record of a key, or how many there are. */
static uint32_t find(struct table *all, const char *key)
{
    uint32_t record = 0;
    while (record < all->count && (!all->keys[record] || strcmp(all->keys[record], key))) record++;
    return record;
}

/* Writes a row, into a record of its own if it has none. Both are done at once, or neither. */
static int write_row(jnl_txn *t, void *context)
{
    struct change *c = context;
    int s = c->has_record ? JNL_OK : jnl_pool_take(c->table->pool, t, &c->record);
    return s ? s : jnl_write(t, place(c->record), c->row, RECORD);
}

static int drop_row(jnl_txn *t, void *context)
{
    struct change *c = context;
    return jnl_pool_give(c->table->pool, t, c->record);
}

static void put(struct table *all, const char *key, const char *value)
{
    struct change c = {all, 0, find(all, key), {0}};
    c.has_record = c.record < all->count;
    put_text(put_text(c.row, key), value);
    must(jnl_run(all->j, write_row, &c, JNL_WAIT, NULL), "put");
    if (!c.has_record) all->keys[c.record] = copy(key);
}

static void drop(struct table *all, const char *key)
{
    struct change c = {all, 1, find(all, key), {0}};
    if (c.record == all->count) return;
    must(jnl_run(all->j, drop_row, &c, JNL_WAIT, NULL), "delete");
    free(all->keys[c.record]);
    all->keys[c.record] = NULL;
}

static void show(struct table *all, uint32_t record)
{
    char key[MOST_KEY + 1], value[MOST_VALUE + 1];
    read_row(all, record, key, value);
    printf("%s %s\n", key, value);
}

/* Does a line. Answers what is printed last. */
static const char *do_line(struct table *all, char *line)
{
    char *word = strtok(line, " \n"), *key = strtok(NULL, " \n"), *value = strtok(NULL, " \n");
    if (!word) return "none";
    if (!strcmp(word, "list")) {
        for (uint32_t i = 0; i < all->count; i++) {
            if (all->keys[i]) show(all, i);
        }
        return "ok";
    }
    if (!key || strlen(key) > MOST_KEY || (value && strlen(value) > MOST_VALUE)) return "none";
    if (!strcmp(word, "put")) return put(all, key, value ? value : ""), "ok";
    if (!strcmp(word, "delete")) return drop(all, key), "ok";
    uint32_t record = find(all, key);
    if (record == all->count) return "none";
    return show(all, record), "ok";
}

int main(int argc, char **argv)
{
    static struct table all;
    static char line[MOST_LINE];
    if (argc != 2) {
        fprintf(stderr, "usage: table SOCKET, with lines of input as put KEY VALUE\n");
        return 2;
    }
    must(jnl_open(argv[1], &all.j), "open");
    uint64_t records = (jnl_blocks(all.j) - FIRST) * RECORDS_OF_BLOCK;
    all.count = records < BLOCK_BITS ? (uint32_t)records : BLOCK_BITS;
    must(jnl_pool_open(all.j, BITS, 0, all.count, &all.pool), "pool");
    load(&all);
    while (fgets(line, sizeof line, stdin)) puts(do_line(&all, line)), fflush(stdout);
    jnl_pool_close(all.pool);
    jnl_close(all.j);
    return 0;
}
