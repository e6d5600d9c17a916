/* A client of the journal, over its port. docs/PROTOCOL.md has the bytes.
 *
 *     jnl *j;
 *     jnl_txn *t;
 *     if (jnl_open("/run/disk.sock", &j)) ..
 *     do {
 *         jnl_begin(j, &t);
 *         jnl_read(t, (jnl_addr){515, 0}, from, 128);
 *         ..
 *         jnl_write(t, (jnl_addr){515, 0}, from, 128);
 *     } while ((status = jnl_commit(t, JNL_WAIT, NULL)) == JNL_CONFLICT);
 *
 * A jnl is one connection, for one thread at a time. A transaction holds no lock: a thread that
 * stops in one stops no other. Each call answers a jnl_status. None prints, and none raises a
 * signal.
 *
 * A connection that the port has ended, for its silence or with the service, is made again by the
 * next call. Where the service was started again in between, and commits of this connection may be
 * gone, that call answers JNL_RESTARTED. */
#ifndef JNL_H
#define JNL_H
#include <stddef.h>
#include <stdint.h>
#ifdef __cplusplus
extern "C" {
#endif

typedef struct jnl jnl;
typedef struct jnl_txn jnl_txn;

/* An object: its block, and its first bit there. Which objects a block has follows from the regions
 * of the disk (jnl_describe). On a disk that was created without any, block 514 has bits, at each
 * offset below 32768, each a byte 0 or 1. Blocks 515 to 530 have objects of 128 bytes, at offsets
 * that are multiples of 1024. Blocks 513, and 531 to the last, are objects of 4096 bytes, at offset
 * 0. Blocks 0 to 512 are the journal's own. */
typedef struct {
    uint64_t block;
    uint32_t bit;
} jnl_addr;

/* The blocks from one on, to the one before the next region. Their objects have so many bits: 1 is
 * a bit, 64 to 16384 a record, 32768 the whole block. */
typedef struct {
    uint64_t first;
    uint32_t bits;
} jnl_region;

/* A disk that is served. `opening` is another number each time that its service is started.
 * `most_blocks` is how many distinct blocks a transaction may write. A port whose `version` of the
 * protocol is 1 tells the blocks alone, and all else is 0. */
typedef struct {
    uint32_t version;
    uint64_t blocks, opening;
    uint32_t slots, most_blocks;
    unsigned region_count;
    jnl_region regions[8];
} jnl_disk;

typedef enum {
    JNL_OK = 0,
    /* Nothing was done, and nothing will be. */
    JNL_NO_MEMORY = 1,
    JNL_BAD_ADDRESS = 2,
    JNL_BAD_SIZE = 3,
    /* More than 128 distinct blocks are written, 256 objects read at once, or 4096 reads and writes
     * made, or more than 2 MiB of them. */
    JNL_TOO_LARGE = 4,
    JNL_DEVICE_FAILED = 6,  /* the disk has to be opened again; all that was stable is there */
    JNL_STALE = 9,          /* 9 to 11, 14: the session has ended; the next call begins another */
    JNL_STRANGER = 10,
    JNL_WORN = 11,
    JNL_CLOSED = 13,        /* the journal was stopped */
    JNL_FENCED = 14,
    JNL_CONFLICT = 64,      /* a value that was read is another now: begin again */
    JNL_OTHER_VERSION = 69, /* the port's version of the protocol lacks the call; nothing was sent */
    JNL_FORBIDDEN = 70,
    JNL_READ_ONLY = 71,     /* the service only reads the disk, and the transaction writes */
    /* The transaction stands, and is not known to be stable: after a crash it is there whole, or
     * absent. */
    JNL_UNSURE = 65,
    /* No answer came, or none that the protocol has. A commit was done whole, or not at all: read
     * to find out. Nothing sends it again but the caller. The next call connects again, but not
     * while answers of lost commits in flight are not taken (jnl_submit). At JNL_LOST errno says
     * why: ETIMEDOUT after the limit of jnl_set_timeout, ECONNRESET where the port has ended the
     * connection, or as the system says. */
    JNL_LOST = 96,
    JNL_PROTOCOL = 98,
    /* Nothing was done. */
    JNL_NO_PORT = 97,       /* no port answers there; errno says why, as ENOENT or EACCES do */
    JNL_MISUSE = 99,        /* a null pointer */
    /* Of the carrier in the process alone; nothing was done. */
    JNL_SECOND_DISK = 100,  /* another disk is open in this process */
    JNL_FORKED = 101,       /* this process is a copy that fork made of the one that opened */
    /* The service was started again, and commits of this connection that did not wait may be gone:
     * those that no flush, stat or waiting commit had told to be stable. Nothing was sent. It is
     * told once, by the first call after that which would send something. The next one goes on. */
    JNL_RESTARTED = 102,
    /* Of jnl_submit and jnl_next. */
    JNL_FULL = 103,         /* 16384 commits are in flight; nothing was done */
    JNL_NONE = 104,         /* no commit is in flight */
    JNL_NO_FREE = 105       /* of jnl_pool_take: no record is free; nothing was done */
} jnl_status;

/* An object that is read: where it is, and where its value goes. */
typedef struct {
    jnl_addr addr;
    void *value;
    size_t size;
} jnl_object;

/* jnl_commit: answer once the transaction is stable, so that no crash takes it back. */
#define JNL_WAIT 1u

/* Where a commit stands: its place in the history from 0, and how many commits there are up to
 * it. */
typedef struct {
    uint64_t place, commits;
} jnl_receipt;

/* How many commits there are, and how many of them are stable at least. */
typedef struct {
    uint64_t commits, stable;
} jnl_counts;

/* Connects to the socket at a path. Refused: JNL_NO_PORT, JNL_OTHER_VERSION, JNL_PROTOCOL,
 * JNL_NO_MEMORY; *out is then NULL. */
int jnl_open(const char *path, jnl **out);

/* The same, with the limit of jnl_set_timeout from the first on. A port that does not answer in
 * time is JNL_NO_PORT with ETIMEDOUT. */
int jnl_open_within(const char *path, unsigned milliseconds, jnl **out);

/* Connects to a TCP port of this machine, as those above do. It has no access check. With the
 * journal in this process it is JNL_NO_PORT. */
int jnl_open_tcp(uint16_t port, jnl **out);
int jnl_open_tcp_within(uint16_t port, unsigned milliseconds, jnl **out);

/* Closes the connection. NULL is fine. Its transactions must have ended. Commits in flight are as
 * at JNL_LOST, but those that were held back are not done. errno stays as it is. */
void jnl_close(jnl *);

/* The most that a call waits for the port in all, in milliseconds; 0, as after jnl_open, is for
 * ever. A call that waited in vain answers JNL_LOST, and the port may do what it asked for after
 * that; or JNL_NO_PORT, where it had to connect again. With the journal in this process it has no
 * effect. */
void jnl_set_timeout(jnl *, unsigned milliseconds);

/* How many blocks the disk has. */
uint64_t jnl_blocks(const jnl *);

/* The disk, as the port told it when this connection was made last. */
void jnl_describe(const jnl *, jnl_disk *out);

/* A transaction that has done nothing. Refused: JNL_NO_MEMORY; *out is then NULL. */
int jnl_begin(jnl *, jnl_txn **out);

/* Reads an object of this size: what the transaction wrote there, else what it read before, else
 * what the journal has. Two reads may come from two places of the history: the commit then finds
 * JNL_CONFLICT where a value that was read is another by then. Where it is refused the transaction
 * is as it was. */
int jnl_read(jnl_txn *, jnl_addr, void *into, size_t size);

/* Reads n objects, at most 256, as jnl_read does. Those that the transaction does not have yet come
 * from one place of the history, by one request. A program that only reads may then end the
 * transaction by jnl_abort. Where it is refused no value is set, and the transaction is as it
 * was. */
int jnl_read_many(jnl_txn *, const jnl_object *, size_t n);

/* Has an object overwritten by the commit. Where it is refused, by JNL_NO_MEMORY, JNL_BAD_ADDRESS,
 * JNL_BAD_SIZE or JNL_TOO_LARGE, the transaction is as it was. A wrong address or size is found by
 * this call where the port told its regions, else by the commit. */
int jnl_write(jnl_txn *, jnl_addr, const void *bytes, size_t size);

/* Has the commit compare an object with a value that the caller knows, as if it had been read.
 * JNL_CONFLICT: the transaction has read another value. Refused as jnl_write is. */
int jnl_expect(jnl_txn *, jnl_addr, const void *bytes, size_t size);

/* The object of which a call over this connection has answered JNL_BAD_ADDRESS or JNL_BAD_SIZE
 * last, as one of the many of jnl_read_many. Block 0, where a port has refused it, which does not
 * say which it is. */
jnl_addr jnl_refused(const jnl *);

/* Commits: where each object that was read still has its value, all writes are done at one place
 * of the history, else nothing. It ends the transaction whatever it answers. `receipt` may be
 * NULL, and is set at JNL_OK and JNL_UNSURE. */
int jnl_commit(jnl_txn *, unsigned flags, jnl_receipt *receipt);

/* Puts a commit in flight, and does not wait for its answer, which jnl_next gives. So one
 * connection has many commits under way at once. They are done in the order in which they were
 * submitted, and `tag` is the caller's name of this one. `flags` are as of jnl_commit.
 *
 * A commit may be held back, so that many are sent by one call of the system: until jnl_next has to
 * wait, 32 KiB are held back, jnl_push, or any other call over this connection that sends.
 *
 * It ends the transaction whatever it answers, but at JNL_FULL, where the transaction is as it was.
 * JNL_OK: jnl_next will give its answer. All else: nothing was sent, and nothing is in flight for
 * it. JNL_FULL is answered where 16384 commits are in flight, those among them whose answers are
 * there and were not taken.
 *
 * A caller may submit as many as that before it takes the first answer. While the socket takes no
 * more, this call receives the answers that have come, and keeps them for jnl_next. So port and
 * caller never wait for each other.
 *
 * All other calls work while commits are in flight. They are answered after those.
 *
 * Where the connection is lost, jnl_next gives JNL_LOST for each commit in flight that had no
 * answer, in their order. Those that were done, if any, are the first ones of these. Until all
 * answers are taken, each call that would send something sends nothing and answers JNL_LOST. So
 * nothing is done after a commit that may be missing, unless the caller has seen that. An answer
 * that the protocol does not have gives JNL_PROTOCOL for its commit, and JNL_LOST for the later
 * ones. */
int jnl_submit(jnl_txn *, unsigned flags, uint64_t tag);

/* Sends what jnl_submit holds back. */
int jnl_push(jnl *);

/* Gives the answer of the commit that was submitted first, of those in flight: waits for it, sets
 * its tag, its status as jnl_commit answers it, and at JNL_OK and JNL_UNSURE its receipt, which may
 * be NULL. It is then no more in flight. Answers JNL_OK; or JNL_NONE, and sets nothing, where none
 * is in flight. errno is set where the status is JNL_LOST. A limit of time is for one answer: where
 * it is over, the connection is lost. */
int jnl_next(jnl *, uint64_t *tag, int *status, jnl_receipt *receipt);

/* How many commits are in flight: submitted, and their answers not taken. */
size_t jnl_in_flight(const jnl *);

/* Ends a transaction with nothing done. NULL is fine. errno stays as it is. */
void jnl_abort(jnl_txn *);

/* Runs the work in a transaction and commits it, again with a pause at JNL_CONFLICT, up to a
 * hundred times. `receipt` is as of jnl_commit. Work that answers anything but JNL_OK ends it with
 * that, and nothing done.
 *
 * Work that reads by more than one call may see two moments, and so objects that do not fit
 * together. Where it fails, or its commit is refused by JNL_BAD_ADDRESS, JNL_BAD_SIZE or
 * JNL_TOO_LARGE, jnl_run asks the port whether all that it read was so at one moment, by a commit
 * that only compares. If not, the work is run again. If that request fails, jnl_run answers how it
 * failed, and not what the work answered. Nothing was done then. A status by which a call of the
 * transaction told the work that the port or the memory failed, as JNL_LOST or JNL_RESTARTED, is
 * answered at once.
 *
 * The work neither commits nor aborts the transaction, has no other effect, and ends whatever it
 * reads. jnl_read_many reads objects of one moment. */
int jnl_run(jnl *, int (*work)(jnl_txn *, void *context), void *context, unsigned flags,
            jnl_receipt *receipt);

/* Makes all commits stable that were answered before. Where the service was started again since, so
 * that some of this connection may be gone, it answers JNL_RESTARTED, as each call does. `stable`,
 * how many are stable of this opening, may be NULL. */
int jnl_flush(jnl *, uint64_t *stable);
int jnl_stat(jnl *, jnl_counts *);

/* What the service has counted since it opened the disk, by ascending names, which
 * docs/PROTOCOL.md has. `count` is how many there are, of which the first `room` ones are set.
 * JNL_OTHER_VERSION: the port's version is 1. */
typedef struct {
    uint32_t name;
    uint64_t value;
} jnl_counter;
int jnl_counters(jnl *, jnl_counter *into, size_t room, size_t *count);

/* Finds the bits of a block that have a value, from a bit on, ascending, at most `room` of them. All
 * bits are as they are at one moment, and a commit that was answered before is in it. A program that
 * wants a bit to stay so has its commit compare it, by jnl_expect. JNL_BAD_ADDRESS: the block has no
 * bits, or the first one is above 32767. JNL_OTHER_VERSION: the port's version is 1. */
typedef struct {
    uint64_t block;
    uint32_t first;
    int value;
} jnl_scan_of;
int jnl_scan(jnl *, jnl_scan_of, uint32_t *bits, size_t room, size_t *count);

/* Free records, by the bits of a block from `first` to before `end`: that of a record is 1 where it
 * is in use. One jnl_pool is for one thread at a time, as its connection. It looks once which
 * records are free, and again when it has handed all of them out. */
typedef struct jnl_pool jnl_pool;
int jnl_pool_open(jnl *, uint64_t block, uint32_t first, uint32_t end, jnl_pool **out);

/* Takes a record that is free in a transaction: its commit compares the bit with 0 and sets it.
 * JNL_CONFLICT of the commit: another one has it by now; begin again, and another record is taken.
 * JNL_NO_FREE: none is free. */
int jnl_pool_take(jnl_pool *, jnl_txn *, uint32_t *bit);

/* Gives a record back in a transaction. JNL_BAD_ADDRESS: it is not in use, or none of the pool. */
int jnl_pool_give(jnl_pool *, jnl_txn *, uint32_t bit);

/* NULL is fine. */
void jnl_pool_close(jnl_pool *);

/* Ends the service, after a flush. */
int jnl_stop(jnl *);

/* Why the journal in this process could not be opened, as it says on its standard error, where
 * errno is EIO; "" where it was, and over a socket. */
const char *jnl_reason(void);

/* A status in words; never NULL. */
const char *jnl_strerror(int status);

#ifdef __cplusplus
}
#endif
#endif
