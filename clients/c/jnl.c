/* See jnl.h. */
#define _POSIX_C_SOURCE 200809L
#include "connection.h"
#include "transaction.h"
#include <errno.h>
#include <stdlib.h>
#include <string.h>
#include <time.h>
#include <unistd.h>

enum { MAX_VALUE = 4096, MAX_PARTS = 4096, MAX_READS = 256, MAX_TRIES = 100 };
enum { COMPARE, WRITE };
/* A transaction: its length, its operation, whether it waits, how many parts; then the parts. A
 * part: its action and its address, which are its key, its value's length; then the value. */
enum { TRANSACTION_HEAD = 16, PART_HEAD = 20, KEY = 16 };
/* The parts are looked up by a table of their hashes, where there are more than a few. It has a
 * power of two of places, twice as many as there may be parts. */
enum { FEW_PARTS = 16, HASH_BITS = 13, TABLE = 1 << HASH_BITS };
/* A read: its length, its operation, how many addresses; then the addresses. What it is answered:
 * the status, the operation, how many values; then the values, each behind its length. */
enum { READ_HEAD = 12, ADDRESS = 12, VALUE_HEAD = 4 };
/* A scan. What it is answered, and counters are: the status, the operation, how many there are;
 * then they. */
enum { SCAN_RECORD = 28, LIST_HEAD = 12, BIT = 4, COUNTER = 12, MOST_COUNTERS = 256 };
enum { BLOCK_BITS = 32768 };
/* A transaction whose record has more room than this is not kept for the next one. */
enum { SPARE_ROOM = 8192 };

struct jnl {
    struct connection connection;
    jnl_txn *spare;   /* one that has ended, for the next one, or NULL */
    jnl_addr refused; /* as jnl_refused says */
};

/* The transaction's record, as far as it is spelled. */
struct jnl_txn {
    jnl *j;
    uint8_t *record;
    size_t used, room;
    uint32_t parts;
    uint32_t *table; /* where each part begins, or 0 for none; NULL while there are few */
    unsigned reads; /* how many requests have read */
    int failed;     /* how the port, or the memory, has failed a call last; or JNL_OK */
};

/* ---- bytes */

static uint8_t *put_addr(uint8_t *p, jnl_addr a)
{
    return put32(put64(p, a.block), a.bit);
}

static size_t padded(size_t size)
{
    return (size + 3) / 4 * 4;
}

/* errno says why a call was lost or found no port, whatever is released after it. */
static void discard(void *memory)
{
    int why = errno;
    free(memory);
    errno = why;
}

/* ---- the connection */

/* Answers a status, and keeps of which object it is said, where it refuses one. */
static int refuse(jnl *j, jnl_addr a, int status)
{
    if (status == JNL_BAD_ADDRESS || status == JNL_BAD_SIZE) j->refused = a;
    return status;
}

static int ask(jnl *j, uint32_t operation, uint8_t *record, size_t n, uint8_t *answer,
               size_t room, size_t wanted, size_t *size)
{
    int s = jnl_ask(&j->connection, operation, record, n, answer, room, wanted, size);
    return refuse(j, (jnl_addr){0, 0}, s);
}

static int open_at(const char *path, uint16_t number, unsigned milliseconds, jnl **out)
{
    *out = NULL;
    jnl *j = calloc(1, sizeof *j);
    if (!j) return JNL_NO_MEMORY;
    j->connection.timeout = milliseconds;
    int s = jnl_connection_open(&j->connection, path, number);
    if (s) {
        jnl_close(j);
        return s;
    }
    *out = j;
    return JNL_OK;
}

int jnl_open_within(const char *path, unsigned milliseconds, jnl **out)
{
    return path && out ? open_at(path, 0, milliseconds, out) : JNL_MISUSE;
}

int jnl_open(const char *path, jnl **out)
{
    return jnl_open_within(path, 0, out);
}

int jnl_open_tcp_within(uint16_t port, unsigned milliseconds, jnl **out)
{
    return out ? open_at(NULL, port, milliseconds, out) : JNL_MISUSE;
}

int jnl_open_tcp(uint16_t port, jnl **out)
{
    return jnl_open_tcp_within(port, 0, out);
}

static void discard_transaction(jnl_txn *t)
{
    if (!t) return;
    discard(t->record);
    discard(t);
}

void jnl_close(jnl *j)
{
    if (!j) return;
    jnl_connection_close(&j->connection);
    discard_transaction(j->spare);
    discard(j);
}

void jnl_set_timeout(jnl *j, unsigned milliseconds)
{
    if (j) j->connection.timeout = milliseconds;
}

uint64_t jnl_blocks(const jnl *j)
{
    return j ? j->connection.disk.blocks : 0;
}

void jnl_describe(const jnl *j, jnl_disk *out)
{
    if (out) *out = j ? j->connection.disk : (jnl_disk){0};
}

jnl_addr jnl_refused(const jnl *j)
{
    return j ? j->refused : (jnl_addr){0, 0};
}

/* ---- addresses */

/* How many bits the objects of a block have, or 0 where it has none. */
static uint32_t bits_of(const jnl_disk *d, uint64_t block)
{
    uint32_t bits = 0;
    if (block >= d->blocks) return 0;
    for (unsigned i = 0; i < d->region_count; i++) {
        if (d->regions[i].first <= block) bits = d->regions[i].bits;
    }
    return bits;
}

/* Whether an address names an object that may have this value, by the regions that the port has
 * told. A port that has told none, or that may be another by now, is to say so itself. The value may
 * be NULL. */
static int check(jnl *j, jnl_addr a, const uint8_t *value, size_t size)
{
    const jnl_disk *d = &j->connection.disk;
    uint32_t bits = bits_of(d, a.block);
    int is_there = bits && a.bit < BLOCK_BITS && a.bit % bits == 0;
    int is_bit = bits == 1 && size == 1 && (!value || *value <= 1);
    if (is_there && (bits == 1 ? is_bit : size == bits / 8)) return JNL_OK;
    if (!d->region_count || !jnl_is_current(&j->connection)) return JNL_OK;
    return refuse(j, a, is_there ? JNL_BAD_SIZE : JNL_BAD_ADDRESS);
}

/* ---- transactions */

int jnl_begin(jnl *j, jnl_txn **out)
{
    if (!j || !out) return JNL_MISUSE;
    jnl_txn *t = j->spare ? j->spare : calloc(1, sizeof *t);
    *out = t;
    j->spare = NULL;
    if (!t) return JNL_NO_MEMORY;
    *t = (jnl_txn){.j = j, .record = t->record, .room = t->room, .used = TRANSACTION_HEAD};
    return JNL_OK;
}

void jnl_abort(jnl_txn *t)
{
    if (!t) return;
    discard(t->table);
    if (t->j->spare || t->room > SPARE_ROOM) {
        discard_transaction(t);
    } else {
        t->j->spare = t;
    }
}

static size_t size_of(const uint8_t *part)
{
    return get32(part + 16);
}

static size_t bytes_of(const uint8_t *part)
{
    return PART_HEAD + padded(size_of(part));
}

/* Mixes the bits of a key, so that the highest of them are as good as random. */
static uint32_t hash_of(const uint8_t *key)
{
    uint64_t x = get64(key) * 0x9e3779b97f4a7c15u ^ get64(key + 8);
    x = (x ^ x >> 32) * 0xd6e8feb86659fd93u;
    return (uint32_t)((x ^ x >> 32) * 0xd6e8feb86659fd93u >> (64 - HASH_BITS));
}

/* The place in the table of the part with a key: its own, or a free one. */
static uint32_t *place_of(jnl_txn *t, const uint8_t *key)
{
    uint32_t i = hash_of(key);
    while (t->table[i] && memcmp(t->record + t->table[i], key, KEY)) i = (i + 1) % TABLE;
    return &t->table[i];
}

static uint8_t *find_among_few(jnl_txn *t, const uint8_t *key)
{
    for (size_t at = TRANSACTION_HEAD; at < t->used; at += bytes_of(t->record + at)) {
        if (!memcmp(t->record + at, key, KEY)) return t->record + at;
    }
    return NULL;
}

/* The part of an action at an address, or NULL. */
static uint8_t *find(jnl_txn *t, uint32_t action, jnl_addr a)
{
    uint8_t key[KEY];
    put_addr(put32(key, action), a);
    if (!t->table) return find_among_few(t, key);
    uint32_t at = *place_of(t, key);
    return at ? t->record + at : NULL;
}

static int make_table(jnl_txn *t)
{
    t->table = calloc(TABLE, sizeof *t->table);
    if (!t->table) return JNL_NO_MEMORY;
    for (size_t at = TRANSACTION_HEAD; at < t->used; at += bytes_of(t->record + at)) {
        *place_of(t, t->record + at) = (uint32_t)at;
    }
    return JNL_OK;
}

static int make_room(jnl_txn *t, size_t parts, size_t more)
{
    if (t->parts + parts > MAX_PARTS || t->used + more > MAX_RECORD + 4) return JNL_TOO_LARGE;
    if (!t->record || t->used + more > t->room) {
        size_t room = 2 * t->room + more + 512;
        uint8_t *record = realloc(t->record, room);
        if (!record) return JNL_NO_MEMORY;
        t->record = record;
        t->room = room;
    }
    return t->table || t->parts + parts <= FEW_PARTS ? JNL_OK : make_table(t);
}

static int add(jnl_txn *t, uint32_t action, jnl_addr a, const void *bytes, size_t size)
{
    int s = make_room(t, 1, PART_HEAD + padded(size));
    if (s) return s;
    uint8_t *part = t->record + t->used;
    uint8_t *p = put32(put_addr(put32(part, action), a), (uint32_t)size);
    memcpy(p, bytes, size);
    memset(p + size, 0, padded(size) - size);
    if (t->table) *place_of(t, part) = (uint32_t)t->used;
    t->used += bytes_of(part);
    t->parts++;
    return JNL_OK;
}

/* Whether a call was refused for what it asked for, which may follow from reads of two moments. */
static int is_of_arguments(int s)
{
    return s == JNL_BAD_ADDRESS || s == JNL_BAD_SIZE || s == JNL_TOO_LARGE || s == JNL_MISUSE;
}

/* Keeps a status by which a call has failed for another reason. */
static int note(jnl_txn *t, int s)
{
    if (s && !is_of_arguments(s)) t->failed = s;
    return s;
}

/* ---- reads */

/* The objects of a read that the transaction does not have, by their numbers in it. */
struct missing {
    size_t count;
    uint16_t numbers[MAX_READS];
};

/* What the transaction has of an object: what it wrote there, else what it read; or NULL. */
static uint8_t *own_part(jnl_txn *t, jnl_addr a)
{
    uint8_t *own = find(t, WRITE, a);
    return own ? own : find(t, COMPARE, a);
}

static int find_missing(jnl_txn *t, const jnl_object *objects, size_t n, struct missing *m)
{
    m->count = 0;
    for (size_t i = 0; i < n; i++) {
        uint8_t *own = own_part(t, objects[i].addr);
        if (!objects[i].value) return JNL_MISUSE;
        if (own && size_of(own) != objects[i].size) {
            return refuse(t->j, objects[i].addr, JNL_BAD_SIZE);
        }
        int s = own ? JNL_OK : check(t->j, objects[i].addr, NULL, objects[i].size);
        if (s) return s;
        if (!own) m->numbers[m->count++] = (uint16_t)i;
    }
    return JNL_OK;
}

static const uint8_t *next_value(const uint8_t *value)
{
    return value + VALUE_HEAD + padded(get32(value));
}

static int has_values(const uint8_t *answer, size_t size, size_t count)
{
    static const uint8_t zeros[3];
    if (size < READ_HEAD || get32(answer + 8) != count) return 0;
    const uint8_t *value = answer + READ_HEAD;
    size_t left = size - READ_HEAD;
    for (; count; count--) {
        size_t n = left < VALUE_HEAD ? SIZE_MAX : get32(value);
        if (n > MAX_VALUE || left - VALUE_HEAD < padded(n)) return 0;
        if (memcmp(value + VALUE_HEAD + n, zeros, padded(n) - n)) return 0;
        left -= VALUE_HEAD + padded(n);
        value = next_value(value);
    }
    return !left;
}

/* Has the commit compare what was answered. An object that is named twice is compared once. */
static int keep(jnl_txn *t, const jnl_object *objects, const struct missing *m,
                const uint8_t *value)
{
    size_t bytes = 0;
    const uint8_t *at = value;
    for (size_t i = 0; i < m->count; i++, at = next_value(at)) {
        size_t size = objects[m->numbers[i]].size;
        if (get32(at) != size) return refuse(t->j, objects[m->numbers[i]].addr, JNL_BAD_SIZE);
        bytes += PART_HEAD + padded(size);
    }
    int s = make_room(t, m->count, bytes);
    if (s) return s;
    for (size_t i = 0; i < m->count; i++, value = next_value(value)) {
        jnl_addr a = objects[m->numbers[i]].addr;
        if (!find(t, COMPARE, a)) add(t, COMPARE, a, value + VALUE_HEAD, get32(value));
    }
    return JNL_OK;
}

/* Asks for what is missing; `record` has room for the request, and behind it for the answer. */
static int fetch(jnl_txn *t, const jnl_object *objects, const struct missing *m, uint8_t *record,
                 size_t request, size_t room)
{
    uint8_t *answer = record + request, *p = put32(record + 8, (uint32_t)m->count);
    size_t size;
    for (size_t i = 0; i < m->count; i++) p = put_addr(p, objects[m->numbers[i]].addr);
    int s = ask(t->j, READ, record, request, answer, room, SIZE_MAX, &size);
    if (s) return s;
    if (!has_values(answer, size, m->count)) return jnl_hang_up(&t->j->connection, JNL_PROTOCOL);
    s = keep(t, objects, m, answer + READ_HEAD);
    if (!s) t->reads++;
    return s;
}

static int fetch_missing(jnl_txn *t, const jnl_object *objects, const struct missing *m)
{
    size_t request = READ_HEAD + m->count * ADDRESS;
    size_t room = READ_HEAD + m->count * (VALUE_HEAD + MAX_VALUE);
    uint8_t *record = malloc(request + room);
    if (!record) return JNL_NO_MEMORY;
    int s = fetch(t, objects, m, record, request, room);
    discard(record);
    return s;
}

int jnl_read_many(jnl_txn *t, const jnl_object *objects, size_t n)
{
    struct missing m;
    if (!t || (n && !objects)) return JNL_MISUSE;
    if (n > MAX_READS) return JNL_TOO_LARGE;
    int s = find_missing(t, objects, n, &m);
    if (!s && m.count) s = note(t, fetch_missing(t, objects, &m));
    for (size_t i = 0; !s && i < n; i++) {
        memcpy(objects[i].value, own_part(t, objects[i].addr) + PART_HEAD, objects[i].size);
    }
    return s;
}

int jnl_read(jnl_txn *t, jnl_addr a, void *into, size_t size)
{
    return jnl_read_many(t, &(jnl_object){a, into, size}, 1);
}

/* ---- writes and commits */

int jnl_write(jnl_txn *t, jnl_addr a, const void *bytes, size_t size)
{
    if (!t || !bytes) return JNL_MISUSE;
    uint8_t *own = find(t, WRITE, a);
    if (size > MAX_VALUE || (own && size_of(own) != size)) return jnl_refuse(t, a, JNL_BAD_SIZE);
    if (own) return memcpy(own + PART_HEAD, bytes, size), JNL_OK;
    int s = check(t->j, a, bytes, size);
    return s ? s : note(t, add(t, WRITE, a, bytes, size));
}

int jnl_expect(jnl_txn *t, jnl_addr a, const void *bytes, size_t size)
{
    if (!t || !bytes) return JNL_MISUSE;
    uint8_t *own = find(t, COMPARE, a);
    if (size > MAX_VALUE || (own && size_of(own) != size)) return jnl_refuse(t, a, JNL_BAD_SIZE);
    if (own) return memcmp(own + PART_HEAD, bytes, size) ? JNL_CONFLICT : JNL_OK;
    int s = check(t->j, a, bytes, size);
    return s ? s : note(t, add(t, COMPARE, a, bytes, size));
}

int jnl_refuse(jnl_txn *t, jnl_addr a, int status)
{
    return refuse(t->j, a, status);
}

int jnl_has(jnl_txn *t, jnl_addr a)
{
    return own_part(t, a) != NULL;
}

/* The record of a commit, but for its length and its operation. One without parts has no room of
 * its own yet. */
static uint8_t *spelled(jnl_txn *t, unsigned flags, uint8_t empty[TRANSACTION_HEAD])
{
    uint8_t *record = t->record ? t->record : empty;
    put32(put32(record + 8, flags & JNL_WAIT), t->parts);
    return record;
}

static int commit(jnl_txn *t, unsigned flags, jnl_receipt *receipt)
{
    uint8_t empty[TRANSACTION_HEAD], *record = spelled(t, flags, empty);
    uint8_t answer[COMMIT_ANSWER];
    size_t size;
    int s = ask(t->j, COMMIT, record, t->used, answer, sizeof answer, 16, &size);
    const uint8_t *told = s == JNL_UNSURE ? answer + 4 : answer + 8;
    if (receipt && (s == JNL_OK || s == JNL_UNSURE)) {
        *receipt = (jnl_receipt){get64(told), get64(told + 8)};
    }
    return s;
}

int jnl_commit(jnl_txn *t, unsigned flags, jnl_receipt *receipt)
{
    if (!t) return JNL_MISUSE;
    int s = commit(t, flags, receipt);
    jnl_abort(t);
    return s;
}

/* ---- many in flight */

int jnl_submit(jnl_txn *t, unsigned flags, uint64_t tag)
{
    uint8_t empty[TRANSACTION_HEAD];
    if (!t) return JNL_MISUSE;
    int s = jnl_put_in_flight(&t->j->connection, spelled(t, flags, empty), t->used, tag);
    if (s != JNL_FULL) jnl_abort(t);
    return s;
}

int jnl_push(jnl *j)
{
    if (!j) return JNL_MISUSE;
    jnl_send_held(&j->connection);
    return JNL_OK;
}

int jnl_next(jnl *j, uint64_t *tag, int *status, jnl_receipt *receipt)
{
    struct flight f;
    if (!j || !tag || !status) return JNL_MISUSE;
    int s = jnl_take_answer(&j->connection, &f);
    if (s) return s;
    *tag = f.tag;
    *status = refuse(j, (jnl_addr){0, 0}, f.status);
    if (receipt) *receipt = f.receipt;
    return JNL_OK;
}

size_t jnl_in_flight(const jnl *j)
{
    return j ? j->connection.flights.count : 0;
}

/* ---- run */

/* Sleeps for a random time. Its most doubles with each attempt, up to 100 milliseconds. */
static void pause_before(unsigned attempt, unsigned *seed)
{
    long most = 500000L << (attempt < 8 ? attempt : 8);
    if (most > 100000000L) most = 100000000L;
    *seed = *seed * 1103515245u + 12345u;
    struct timespec t = {0, (long)((double)(*seed >> 8) / (1 << 24) * (double)most)};
    nanosleep(&t, NULL);
}

/* Leaves the parts alone that compare. */
static void drop_writes(jnl_txn *t)
{
    size_t end = t->used;
    discard(t->table);
    t->table = NULL;
    t->used = TRANSACTION_HEAD;
    t->parts = 0;
    for (size_t at = TRANSACTION_HEAD, size; at < end; at += size) {
        uint8_t *part = t->record + at;
        size = bytes_of(part);
        if (get32(part) != COMPARE) continue;
        memmove(t->record + t->used, part, size);
        t->used += size;
        t->parts++;
    }
}

/* What is answered of work that has failed, or whose commit was refused for what it asks for: that
 * failure, where all that the work read was so at one moment. */
static int look_at_failure(jnl_txn *t, int failure, int *is_conflict)
{
    if (t->reads < 2) return failure;
    drop_writes(t);
    int s = commit(t, 0, NULL);
    *is_conflict = s == JNL_CONFLICT;
    return s ? s : failure;
}

static int run_once(jnl *j, int (*work)(jnl_txn *, void *), void *context, unsigned flags,
                    jnl_receipt *receipt, int *is_conflict)
{
    jnl_txn *t;
    *is_conflict = 0;
    int s = jnl_begin(j, &t);
    if (s) return s;
    s = work(t, context);
    int is_of_work = s && s != t->failed;
    if (!s) {
        s = commit(t, flags, receipt);
        is_of_work = is_of_arguments(s);
        *is_conflict = s == JNL_CONFLICT;
    }
    if (is_of_work) s = look_at_failure(t, s, is_conflict);
    jnl_abort(t);
    return s;
}

int jnl_run(jnl *j, int (*work)(jnl_txn *, void *), void *context, unsigned flags,
            jnl_receipt *receipt)
{
    unsigned seed = (unsigned)getpid() ^ (unsigned)(uintptr_t)&j;
    if (!j || !work) return JNL_MISUSE;
    for (unsigned attempt = 1;; attempt++) {
        int is_conflict;
        int s = run_once(j, work, context, flags, receipt, &is_conflict);
        if (!is_conflict || attempt == MAX_TRIES) return s;
        pause_before(attempt, &seed);
    }
}

/* ---- the rest */

int jnl_flush(jnl *j, uint64_t *stable)
{
    uint8_t record[8], answer[16];
    size_t size;
    if (!j) return JNL_MISUSE;
    int s = ask(j, FLUSH, record, sizeof record, answer, sizeof answer, 8, &size);
    if (!s && stable) *stable = get64(answer + 8);
    return s;
}

int jnl_stat(jnl *j, jnl_counts *out)
{
    uint8_t record[8], answer[24];
    size_t size;
    if (!j || !out) return JNL_MISUSE;
    int s = ask(j, STAT, record, sizeof record, answer, sizeof answer, 16, &size);
    if (!s) *out = (jnl_counts){get64(answer + 8), get64(answer + 16)};
    return s;
}

/* Reads counters that were answered: those that have room, and how many there are. */
static int read_counters(const uint8_t *answer, size_t size, jnl_counter *into, size_t room,
                         size_t *count)
{
    size_t n = size < LIST_HEAD ? SIZE_MAX : get32(answer + 8);
    if (n > MOST_COUNTERS || size != LIST_HEAD + n * COUNTER) return JNL_PROTOCOL;
    const uint8_t *p = answer + LIST_HEAD;
    for (size_t i = 0; i < n && i < room; i++, p += COUNTER) {
        into[i] = (jnl_counter){get32(p), get64(p + 4)};
    }
    *count = n;
    return JNL_OK;
}

int jnl_counters(jnl *j, jnl_counter *into, size_t room, size_t *count)
{
    uint8_t record[8], answer[LIST_HEAD + MOST_COUNTERS * COUNTER];
    size_t size;
    if (!j || !count || (room && !into)) return JNL_MISUSE;
    int s = ask(j, COUNTERS, record, sizeof record, answer, sizeof answer, SIZE_MAX, &size);
    if (s) return s;
    s = read_counters(answer, size, into, room, count);
    return s ? jnl_hang_up(&j->connection, s) : s;
}

/* Reads bits that were answered: they ascend, are in the block, and are as many as may be. */
static int read_bits(const uint8_t *answer, size_t size, uint32_t first, uint32_t *bits,
                     size_t room, size_t *count)
{
    size_t n = size < LIST_HEAD ? SIZE_MAX : get32(answer + 8);
    if (n > room || size != LIST_HEAD + n * BIT) return JNL_PROTOCOL;
    for (size_t i = 0; i < n; i++) {
        bits[i] = get32(answer + LIST_HEAD + i * BIT);
        if (bits[i] < first || bits[i] >= BLOCK_BITS) return JNL_PROTOCOL;
        first = bits[i] + 1;
    }
    *count = n;
    return JNL_OK;
}

/* Asks for bits; `answer` has room for so many. */
static int find_bits(jnl *j, const jnl_scan_of *what, uint32_t *bits, size_t room, size_t *count,
                     uint8_t *answer)
{
    uint8_t record[SCAN_RECORD];
    size_t size;
    put32(put32(put32(put64(record + 8, what->block), what->first), what->value != 0),
          (uint32_t)room);
    int s = ask(j, SCAN, record, sizeof record, answer, LIST_HEAD + room * BIT, SIZE_MAX, &size);
    if (s) return s;
    s = read_bits(answer, size, what->first, bits, room, count);
    return s ? jnl_hang_up(&j->connection, s) : s;
}

int jnl_scan(jnl *j, jnl_scan_of what, uint32_t *bits, size_t room, size_t *count)
{
    if (!j || !count || (room && !bits)) return JNL_MISUSE;
    if (room > BLOCK_BITS) room = BLOCK_BITS;
    uint8_t *answer = malloc(LIST_HEAD + room * BIT);
    if (!answer) return JNL_NO_MEMORY;
    int s = find_bits(j, &what, bits, room, count, answer);
    discard(answer);
    return s;
}

int jnl_stop(jnl *j)
{
    uint8_t record[8], answer[8];
    size_t size;
    return j ? ask(j, STOP, record, sizeof record, answer, sizeof answer, 0, &size) : JNL_MISUSE;
}

const char *jnl_strerror(int status)
{
    switch (status) {
    case JNL_OK: return "done";
    case JNL_NO_MEMORY: return "memory was refused";
    case JNL_BAD_ADDRESS: return "an address names no object";
    case JNL_BAD_SIZE: return "a value's length is not its object's, or a bit's byte exceeds 1";
    case JNL_TOO_LARGE: return "too many blocks, parts or objects";
    case JNL_DEVICE_FAILED: return "the disk failed";
    case JNL_STALE:
    case JNL_STRANGER:
    case JNL_WORN:
    case JNL_FENCED: return "the session has ended";
    case JNL_CLOSED: return "the journal was stopped";
    case JNL_CONFLICT: return "a value that was read is another now";
    case JNL_UNSURE: return "the transaction is not known to be stable";
    case JNL_OTHER_VERSION: return "the version is not spoken";
    case JNL_FORBIDDEN: return "this connection may not end the service";
    case JNL_READ_ONLY: return "the service only reads the disk";
    case JNL_LOST: return "no answer came";
    case JNL_NO_PORT: return "no port answers";
    case JNL_PROTOCOL: return "the port answers what the protocol does not have";
    case JNL_MISUSE: return "a null pointer";
    case JNL_SECOND_DISK: return "another disk is open in this process";
    case JNL_FULL: return "as many commits are in flight as may be";
    case JNL_NONE: return "no commit is in flight";
    case JNL_FORKED: return "a fork of the process that opened the disk";
    case JNL_RESTARTED: return "the service was started again; commits that did not wait may be gone";
    case JNL_NO_FREE: return "no record is free";
    default: return "a status that is not known";
    }
}
