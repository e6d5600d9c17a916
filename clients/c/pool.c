/* Free records by the bits of a block. See jnl.h. */
#define _POSIX_C_SOURCE 200809L
#include "transaction.h"
#include <stdlib.h>
#include <time.h>
#include <unistd.h>

/* The bits from `first` to before `end` say which records are in use. Those that a scan has found
 * free and that were not handed out since are the first `left` ones of `free`. */
struct jnl_pool {
    jnl *j;
    uint64_t block;
    uint32_t first, end;
    uint32_t *free;
    size_t left;
    uint64_t random;
};

enum { BLOCK_BITS = 32768 };

/* Not the same in two processes, so that they take different records. */
static uint64_t seed(const struct jnl_pool *p)
{
    struct timespec t;
    clock_gettime(CLOCK_MONOTONIC, &t);
    return ((uint64_t)getpid() << 32 ^ (uint64_t)t.tv_nsec ^ (uint64_t)(uintptr_t)p) | 1;
}

static uint64_t next_random(struct jnl_pool *p)
{
    p->random ^= p->random << 13;
    p->random ^= p->random >> 7;
    p->random ^= p->random << 17;
    return p->random;
}

int jnl_pool_open(jnl *j, uint64_t block, uint32_t first, uint32_t end, jnl_pool **out)
{
    if (!j || !out) return JNL_MISUSE;
    *out = NULL;
    if (first >= end || end > BLOCK_BITS) return JNL_BAD_ADDRESS;
    jnl_pool *p = calloc(1, sizeof *p);
    if (!p) return JNL_NO_MEMORY;
    *p = (jnl_pool){j, block, first, end, malloc((end - first) * sizeof *p->free), 0, 0};
    if (!p->free) {
        free(p);
        return JNL_NO_MEMORY;
    }
    p->random = seed(p);
    *out = p;
    return JNL_OK;
}

void jnl_pool_close(jnl_pool *p)
{
    if (!p) return;
    free(p->free);
    free(p);
}

/* Looks which records are free. */
static int fill(jnl_pool *p)
{
    size_t found;
    jnl_scan_of free_ones = {p->block, p->first, 0};
    int s = jnl_scan(p->j, free_ones, p->free, p->end - p->first, &found);
    if (s) return s;
    while (found && p->free[found - 1] >= p->end) found--;
    p->left = found;
    return JNL_OK;
}

/* Hands out one of those that were found free, each once, by chance. */
static uint32_t draw(jnl_pool *p)
{
    size_t i = next_random(p) % p->left;
    uint32_t bit = p->free[i];
    p->free[i] = p->free[--p->left];
    return bit;
}

/* Takes one of those that were found free, but for those of the transaction. */
static int take_found(jnl_pool *p, jnl_txn *t, uint32_t *bit)
{
    static const uint8_t is_free = 0, is_used = 1;
    while (p->left) {
        jnl_addr a = {p->block, draw(p)};
        if (jnl_has(t, a)) continue;
        int s = jnl_expect(t, a, &is_free, 1);
        if (!s) s = jnl_write(t, a, &is_used, 1);
        *bit = a.bit;
        return s;
    }
    return JNL_NO_FREE;
}

int jnl_pool_take(jnl_pool *p, jnl_txn *t, uint32_t *bit)
{
    if (!p || !t || !bit) return JNL_MISUSE;
    int s = take_found(p, t, bit);
    if (s != JNL_NO_FREE) return s;
    s = fill(p);
    return s ? s : take_found(p, t, bit);
}

int jnl_pool_give(jnl_pool *p, jnl_txn *t, uint32_t bit)
{
    static const uint8_t is_free = 0;
    uint8_t is_used;
    if (!p || !t) return JNL_MISUSE;
    jnl_addr a = {p->block, bit};
    if (bit < p->first || bit >= p->end) return jnl_refuse(t, a, JNL_BAD_ADDRESS);
    int s = jnl_read(t, a, &is_used, 1);
    if (s) return s;
    return is_used ? jnl_write(t, a, &is_free, 1) : jnl_refuse(t, a, JNL_BAD_ADDRESS);
}
