/* See connection.h. */
#define _POSIX_C_SOURCE 200809L
#include "connection.h"
#include <errno.h>
#include <stdlib.h>
#include <string.h>
#include <time.h>

enum { FIRST_VERSION = 1, VERSION = 2, FIRST_ROOM = 64 };
/* The answer to a hello: the status, the operation and the version; then the blocks alone, or an
 * opening with its regions. */
enum { GREETING_HEAD = 12, OPENING = 28, REGION = 12, MOST_REGIONS = 8 };

/* ---- commits in flight */

static size_t unanswered(const struct connection *c)
{
    return c->flights.count - c->flights.answered;
}

/* The flight with a number from the first one on. */
static struct flight *flight_at(struct flights *f, size_t i)
{
    return &f->ring[(f->first + i) & (f->room - 1)];
}

/* Makes room for one more flight: a power of two, so that an index wraps by a mask. */
static int grow(struct flights *f)
{
    size_t room = f->room ? 2 * f->room : FIRST_ROOM;
    struct flight *ring = malloc(room * sizeof *ring);
    if (!ring) return JNL_NO_MEMORY;
    for (size_t i = 0; i < f->count; i++) ring[i] = *flight_at(f, i);
    free(f->ring);
    *f = (struct flights){ring, room, 0, f->count, f->answered};
    return JNL_OK;
}

static void answer_flight(struct flights *f, int status, const uint8_t *receipt)
{
    struct flight *first = flight_at(f, f->answered++);
    first->status = status;
    if (receipt) first->receipt = (jnl_receipt){get64(receipt), get64(receipt + 8)};
}

/* Answers each flight that has no answer: none has one later. The first one has met the status. */
static void lose_flights(struct connection *c, int status)
{
    if (!unanswered(c)) return;
    c->has_lost = 1;
    c->why = errno;
    answer_flight(&c->flights, status, NULL);
    while (unanswered(c)) answer_flight(&c->flights, JNL_LOST, NULL);
}

/* ---- what is stable */

static void note_stable(struct connection *c, uint64_t stable)
{
    if (stable > c->stable) c->stable = stable;
}

/* Notes a commit that was told: with those up to it it is stable, or it may not be. */
static void note_commit(struct connection *c, int status, int waits, uint64_t commits)
{
    if (status == JNL_OK && waits) note_stable(c, commits);
    else if (commits > c->told) c->told = commits;
}

/* Notes what an answer that was done, or is not sure, says of commits. */
static void note_answer(struct connection *c, uint32_t operation, const uint8_t *record,
                        const uint8_t *answer, int status)
{
    if (operation == COMMIT) {
        const uint8_t *receipt = answer + (status == JNL_OK ? 8 : 4);
        note_commit(c, status, (int)get32(record + 8), get64(receipt + 8));
    }
    if (operation == FLUSH) note_stable(c, get64(answer + 8));
    if (operation == STAT) note_stable(c, get64(answer + 16));
    if (operation == STOP) note_stable(c, c->told);
}

/* ---- answers */

static int is_refusal(uint32_t status)
{
    switch (status) {
    case 1: case 2: case 3: case 4: case 6: case 9: case 10: case 11: case 13: case 14:
    case 64: case 66: case 67: case 68: case 69: case 70: case 71:
        return 1;
    default:
        return 0;
    }
}

static int ends_session(int status)
{
    return (status >= JNL_STALE && status <= JNL_WORN) || status == JNL_FENCED;
}

/* What an answer to an operation says, where it wants so many bytes after the operation, or any
 * number of them where `wanted` is SIZE_MAX. */
static int judge(uint32_t operation, const uint8_t *answer, size_t size, size_t wanted)
{
    uint32_t status = get32(answer);
    if (status == JNL_UNSURE && operation == COMMIT && size == 20) return JNL_UNSURE;
    if (is_refusal(status) && size == 4) return (int)status;
    if (status || size < 8 || get32(answer + 4) != operation) return JNL_PROTOCOL;
    return wanted != SIZE_MAX && size != 8 + wanted ? JNL_PROTOCOL : JNL_OK;
}

/* Closes the line. The flight that has no answer and is the first of them has met the status. */
static void close_line(struct connection *c, int status)
{
    int why = errno;
    lose_flights(c, status);
    if (c->line) jnl_line_close(c->line);
    c->line = NULL;
    c->is_over = 0;
    c->held_used = c->came_read = c->came_used = 0;
    errno = why;
}

int jnl_hang_up(struct connection *c, int status)
{
    close_line(c, JNL_LOST);
    return status;
}

/* How many bytes came and are not read yet. */
static size_t unread(const struct connection *c)
{
    return c->came_used - c->came_read;
}

/* Whether the first flight that has no answer is to wait. */
static int next_waits(struct flights *f)
{
    return flight_at(f, f->answered)->waits;
}

/* Reads one answer of a flight, where it is there whole: 1, or else 0; or -1, and the line is
 * closed. */
static int settle_one(struct connection *c)
{
    const uint8_t *at = c->came + c->came_read, *answer = at + LENGTH;
    size_t size = unread(c) < LENGTH ? 0 : get32(at);
    if (unread(c) < LENGTH || (size <= COMMIT_ANSWER && unread(c) < LENGTH + size)) return 0;
    int s = size < 4 || size > COMMIT_ANSWER ? JNL_PROTOCOL : judge(COMMIT, answer, size, 16);
    if (s == JNL_PROTOCOL) {
        close_line(c, s);
        return -1;
    }
    int has_receipt = s == JNL_OK || s == JNL_UNSURE, waits = next_waits(&c->flights);
    answer_flight(&c->flights, s, has_receipt ? answer + size - 16 : NULL);
    if (has_receipt) note_commit(c, s, waits, get64(answer + size - 8));
    c->is_over |= ends_session(s);
    c->came_read += LENGTH + size;
    return 1;
}

/* Reads the answers of flights that are there whole: 0; or -1, and the line is closed. */
static int settle(struct connection *c)
{
    int found = 1;
    while (found > 0 && unanswered(c)) found = settle_one(c);
    return found < 0 ? -1 : 0;
}

/* ---- bytes */

/* Receives bytes that have come: how many, or -1. */
static ssize_t receive_more(struct connection *c)
{
    if (c->came_read) {
        memmove(c->came, c->came + c->came_read, unread(c));
        c->came_used -= c->came_read;
        c->came_read = 0;
    }
    ssize_t k = jnl_line_receive(c->line, c->came + c->came_used, CAME_ROOM - c->came_used);
    if (k > 0) c->came_used += (size_t)k;
    return k;
}

/* Takes bytes that have come, and reads the answers of flights in them: 0; or -1, and the line is
 * closed. */
static int take_in(struct connection *c)
{
    if (receive_more(c) >= 0) return settle(c);
    jnl_hang_up(c, JNL_LOST);
    return -1;
}

/* Waits for bytes and takes them. */
static int await(struct connection *c)
{
    if (!jnl_line_await(c->line, JNL_GIVES)) return take_in(c);
    jnl_hang_up(c, JNL_LOST);
    return -1;
}

/* Closes a line that takes no more bytes, after reading the answers that came before its end. */
static int end_sending(struct connection *c)
{
    int why = errno;
    while (receive_more(c) > 0 && !settle(c)) {}
    errno = why;
    return jnl_hang_up(c, -1);
}

/* Sends n bytes: 0; or -1, and the line is closed. While the line takes none, answers are taken: a
 * port that cannot be rid of them takes no further request. */
static int send_all(struct connection *c, const uint8_t *p, size_t n)
{
    while (n) {
        ssize_t k = jnl_line_send(c->line, p, n);
        if (k < 0) return end_sending(c);
        p += k;
        n -= (size_t)k;
        int is_full = unread(c) == CAME_ROOM;
        int events = JNL_TAKES | (is_full ? 0 : JNL_GIVES);
        if (n && jnl_line_await(c->line, events)) return jnl_hang_up(c, -1);
        if (n && !is_full && take_in(c)) return -1;
    }
    return 0;
}

static int send_held(struct connection *c)
{
    size_t n = c->held_used;
    c->held_used = 0;
    return send_all(c, c->held, n);
}

/* Receives an answer that is not of a flight. */
static int receive_answer(struct connection *c, uint8_t *answer, size_t room, size_t *size)
{
    while (unread(c) < LENGTH) {
        if (await(c)) return JNL_LOST;
    }
    *size = get32(c->came + c->came_read);
    c->came_read += LENGTH;
    if (*size < 4 || *size > room) return JNL_PROTOCOL;
    size_t has = unread(c) < *size ? unread(c) : *size;
    memcpy(answer, c->came + c->came_read, has);
    c->came_read += has;
    while (has < *size) {
        ssize_t k = jnl_line_await(c->line, JNL_GIVES) ? -1 : 0;
        if (!k) k = jnl_line_receive(c->line, answer + has, *size - has);
        if (k < 0) return JNL_LOST;
        has += (size_t)k;
    }
    return JNL_OK;
}

/* ---- the connection */

/* When a call that begins now has waited enough; 0: never. */
static uint64_t end_of_call(const struct connection *c)
{
    struct timespec t;
    if (!c->timeout) return 0;
    clock_gettime(CLOCK_MONOTONIC, &t);
    return (uint64_t)t.tv_sec * 1000 + (uint64_t)t.tv_nsec / 1000000 + c->timeout;
}

/* Sends a record, its length among its n bytes, and receives its answer after those of the commits
 * in flight. */
static int exchange(struct connection *c, uint8_t *record, size_t n, uint8_t *answer, size_t room,
                    size_t *size)
{
    put32(record, (uint32_t)(n - LENGTH));
    if (send_held(c) || send_all(c, record, n)) return JNL_LOST;
    while (unanswered(c)) {
        if (await(c)) return JNL_LOST;
    }
    return receive_answer(c, answer, room, size);
}

static int ask_connected(struct connection *c, uint32_t operation, uint8_t *record, size_t n,
                         uint8_t *answer, size_t room, size_t wanted, size_t *size)
{
    put32(record + LENGTH, operation);
    int s = exchange(c, record, n, answer, room, size);
    if (!s) s = judge(operation, answer, *size, wanted);
    if (s == JNL_OK || s == JNL_UNSURE) note_answer(c, operation, record, answer, s);
    return s == JNL_LOST || s == JNL_PROTOCOL || ends_session(s) ? jnl_hang_up(c, s) : s;
}

/* Whether objects may have so many bits of their block. */
static int is_kind(uint32_t bits)
{
    return bits == 1 || (bits >= 64 && bits <= 32768 && !(bits & (bits - 1)));
}

/* Reads the regions of an opening, of so many bytes. */
static int read_regions(const uint8_t *p, size_t size, jnl_disk *d)
{
    d->region_count = get32(p);
    if (d->region_count > MOST_REGIONS || size != 4 + d->region_count * REGION) return JNL_PROTOCOL;
    p += 4;
    for (unsigned i = 0; i < d->region_count; i++, p += REGION) {
        d->regions[i] = (jnl_region){get64(p), get32(p + 8)};
        if (!is_kind(d->regions[i].bits)) return JNL_PROTOCOL;
    }
    return JNL_OK;
}

/* Reads the answer to a hello in a version. */
static int read_greeting(const uint8_t *answer, size_t size, uint32_t version, jnl_disk *d)
{
    const uint8_t *p = answer + GREETING_HEAD;
    *d = (jnl_disk){.version = version};
    if (size < GREETING_HEAD + 8) return JNL_PROTOCOL;
    if (get32(answer + 8) != version) return JNL_OTHER_VERSION;
    d->blocks = get64(p);
    if (version == FIRST_VERSION) return size == GREETING_HEAD + 8 ? JNL_OK : JNL_PROTOCOL;
    if (size < GREETING_HEAD + OPENING) return JNL_PROTOCOL;
    d->opening = get64(p + 8);
    d->slots = get32(p + 16);
    d->most_blocks = get32(p + 20);
    return read_regions(p + 24, size - GREETING_HEAD - 24, d);
}

/* Greets in a version. One that is not spoken leaves the line as it is. */
static int greet(struct connection *c, uint32_t version, jnl_disk *d)
{
    uint8_t record[12], answer[GREETING_HEAD + OPENING + MOST_REGIONS * REGION];
    size_t size;
    put32(record + 8, version);
    int s = ask_connected(c, HELLO, record, sizeof record, answer, sizeof answer, SIZE_MAX, &size);
    if (s) return s;
    s = read_greeting(answer, size, version, d);
    return s ? jnl_hang_up(c, s) : s;
}

/* Notes the disk that a greeting has told. JNL_RESTARTED, once: it is another opening, and commits
 * of the one before may be gone. Each start of a service of version 1 is taken for the same one,
 * since it does not tell which it is. */
static int meet(struct connection *c, const jnl_disk *d)
{
    int is_other = c->disk.version && (c->disk.version != d->version
                                       || c->disk.opening != d->opening);
    int may_be_gone = is_other && c->told > c->stable;
    if (is_other) c->told = c->stable = 0;
    c->disk = *d;
    return may_be_gone ? JNL_RESTARTED : JNL_OK;
}

/* Makes a line. One that is lost before its greeting was answered is none. */
static int dial(struct connection *c, uint64_t ends)
{
    jnl_disk d;
    int s = jnl_line_open(c->port, ends, &c->line);
    if (s) return s;
    s = greet(c, VERSION, &d);
    if (s == JNL_OTHER_VERSION && c->line) s = greet(c, FIRST_VERSION, &d);
    if (s) return jnl_hang_up(c, s == JNL_LOST ? JNL_NO_PORT : s);
    return meet(c, &d);
}

/* Whether a line that owes no answer can be asked. */
static int is_quiet(struct connection *c)
{
    return !c->is_over && !unread(c) && jnl_line_is_quiet(c->line);
}

int jnl_is_current(struct connection *c)
{
    return c->line && (unanswered(c) || is_quiet(c));
}

/* Begins a call that sends. A line that the port ended since the last call is made again first:
 * nothing was sent yet, so nothing is sent twice. After a loss nothing is sent until each commit
 * that was lost is taken, so that none is done after one that may be missing. */
static int begin_call(struct connection *c)
{
    uint64_t ends = end_of_call(c);
    if (c->has_lost) return errno = c->why, JNL_LOST;
    if (c->line && !unanswered(c) && !is_quiet(c)) jnl_hang_up(c, JNL_LOST);
    if (!c->line) return dial(c, ends);
    jnl_line_set_end(c->line, ends);
    return JNL_OK;
}

int jnl_ask(struct connection *c, uint32_t operation, uint8_t *record, size_t n, uint8_t *answer,
            size_t room, size_t wanted, size_t *size)
{
    int s = begin_call(c);
    if (!s && operation >= COUNTERS && c->disk.version < VERSION) return JNL_OTHER_VERSION;
    return s ? s : ask_connected(c, operation, record, n, answer, room, wanted, size);
}

int jnl_connection_open(struct connection *c, const char *path, uint16_t number)
{
    int s = path ? jnl_port_enter(path, &c->port) : jnl_port_enter_tcp(number, &c->port);
    return s ? s : dial(c, end_of_call(c));
}

void jnl_connection_close(struct connection *c)
{
    int why = errno;
    jnl_hang_up(c, JNL_OK);
    if (c->port) jnl_port_leave(c->port);
    free(c->flights.ring);
    free(c->held);
    errno = why;
}

/* ---- calls of what is in flight */

/* Room for one more commit in flight. */
static int make_room(struct connection *c)
{
    if (c->flights.count == MOST_IN_FLIGHT) return JNL_FULL;
    if (!c->held) c->held = malloc(HELD_ROOM);
    if (!c->held) return JNL_NO_MEMORY;
    return c->flights.count < c->flights.room ? JNL_OK : grow(&c->flights);
}

/* Holds a record back, after sending those that leave it no room. */
static void hold(struct connection *c, const uint8_t *record, size_t n)
{
    if (c->held_used + n > HELD_ROOM && send_held(c)) return;
    if (n > HELD_ROOM) {
        send_all(c, record, n);
    } else {
        memcpy(c->held + c->held_used, record, n);
        c->held_used += n;
    }
}

int jnl_put_in_flight(struct connection *c, uint8_t *record, size_t n, uint64_t tag)
{
    int s = make_room(c);
    if (!s) s = begin_call(c);
    if (s) return s;
    put32(put32(record, (uint32_t)(n - LENGTH)), COMMIT);
    int waits = (int)get32(record + 8);
    *flight_at(&c->flights, c->flights.count++) = (struct flight){tag, waits, JNL_LOST, {0, 0}};
    /* Where it is lost by this, its answer says so, after those of the ones before it. */
    hold(c, record, n);
    return JNL_OK;
}

void jnl_send_held(struct connection *c)
{
    if (!c->held_used) return;
    jnl_line_set_end(c->line, end_of_call(c));
    send_held(c);
}

int jnl_take_answer(struct connection *c, struct flight *out)
{
    struct flights *f = &c->flights;
    if (!f->count) return JNL_NONE;
    if (!f->answered) {
        jnl_line_set_end(c->line, end_of_call(c));
        int s = send_held(c);
        while (!s && !f->answered) s = await(c);
    }
    *out = *flight_at(f, 0);
    f->first = (f->first + 1) & (f->room - 1);
    f->count--;
    f->answered--;
    if (!f->count) c->has_lost = 0;
    if (out->status == JNL_LOST) errno = c->why;
    return JNL_OK;
}
