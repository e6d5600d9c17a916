/* A connection to the port: requests that wait for their answer, and commits that are in flight.
 * It carries records as docs/PROTOCOL.md has them, over a line (line.h). */
#ifndef JNL_CONNECTION_H
#define JNL_CONNECTION_H
#include "line.h"

enum { MAX_RECORD = 2097152, LENGTH = 4, COMMIT_ANSWER = 24 };
enum { HELLO, COMMIT, READ, FLUSH, STAT, STOP, COUNTERS, SCAN };
/* What came and is not read yet, and records that are held back to be sent by one call of the
 * system, have so many bytes at most. */
enum { CAME_ROOM = 16384, HELD_ROOM = 32768, MOST_IN_FLIGHT = 16384 };

/* A commit that was submitted, with its answer once it is there. */
struct flight {
    uint64_t tag;
    int waits;
    int status;
    jnl_receipt receipt;
};

/* The commits in flight, in the order of their submission. The first `answered` ones of them have
 * their answers. */
struct flights {
    struct flight *ring;
    size_t room, first, count, answered;
};

struct connection {
    struct jnl_port *port;
    struct jnl_line *line; /* NULL: not connected */
    jnl_disk disk;         /* as the last greeting told it; version 0 before the first one */
    uint64_t told;   /* the commits up to the last one of this opening that was told and did not
                        wait, or is not known to be stable */
    uint64_t stable; /* how many of this opening are known to be stable */
    unsigned timeout;
    struct flights flights;
    int is_over;         /* the session has ended: the next call makes another line */
    int has_lost;        /* commits in flight were lost, and not all of them are taken yet */
    int why;             /* errno of that loss */
    uint8_t *held;       /* HELD_ROOM bytes once a commit was submitted */
    size_t held_used;
    size_t came_read, came_used;
    uint8_t came[CAME_ROOM];
};

/* ---- numbers, their highest byte first */

static inline uint8_t *put32(uint8_t *p, uint32_t x)
{
    for (int i = 0; i < 4; i++) p[i] = (uint8_t)(x >> (24 - 8 * i));
    return p + 4;
}

static inline uint8_t *put64(uint8_t *p, uint64_t x)
{
    return put32(put32(p, (uint32_t)(x >> 32)), (uint32_t)x);
}

static inline uint32_t get32(const uint8_t *p)
{
    return (uint32_t)p[0] << 24 | (uint32_t)p[1] << 16 | (uint32_t)p[2] << 8 | p[3];
}

static inline uint64_t get64(const uint8_t *p)
{
    return (uint64_t)get32(p) << 32 | get32(p + 4);
}

/* Enters the port at a path, or at a TCP port where it is NULL, and greets it. */
int jnl_connection_open(struct connection *, const char *path, uint16_t number);

/* Leaves the port, and drops what is in flight. errno stays as it is. */
void jnl_connection_close(struct connection *);

/* Whether the disk is known as the port has it now: the port has not ended the line. */
int jnl_is_current(struct connection *);

/* Closes the line, so that the next call makes another. Commits in flight that have no answer are
 * lost. Answers the status that it is given. errno stays as it is. */
int jnl_hang_up(struct connection *, int status);

/* A request with its answer, after those of all commits in flight. The record has n bytes, and room
 * for its length and its operation at the front. The answer has `wanted` bytes after its operation,
 * or any number of them where that is SIZE_MAX, and `room` bytes at most. */
int jnl_ask(struct connection *, uint32_t operation, uint8_t *record, size_t n, uint8_t *answer,
            size_t room, size_t wanted, size_t *size);

/* Puts a commit in flight. It may be held back, to be sent with others, until the next call. */
int jnl_put_in_flight(struct connection *, uint8_t *record, size_t n, uint64_t tag);
void jnl_send_held(struct connection *);

/* Takes the answer of the commit that was put in flight first. */
int jnl_take_answer(struct connection *, struct flight *);
#endif
