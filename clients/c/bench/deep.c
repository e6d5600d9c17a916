/* The journal over the socket that JNL_PATH names, DEPTH transactions at a time: a thread sends
 * so many records in one call and then reads their answers. See engines.h. */
#include "deep.h"
#include <stdlib.h>
#include <string.h>
#include <sys/socket.h>
#include <sys/un.h>
#include <unistd.h>

/* The bytes of a transaction that writes two objects, and of its answer. */
enum { OBJECT_BYTES = 128 };
enum { HEAD = 16, PART = 20 + OBJECT_BYTES, RECORD = HEAD + 2 * PART, ANSWER = 28 };
enum { HELLO_BYTES = 12, HELLO_ANSWER = 24, FLUSH_BYTES = 8, FLUSH_ANSWER = 20 };

struct line {
    int fd, count;
    uint8_t records[DEPTH * RECORD];
};

static int is_durable;
static struct line *first;

static uint8_t *put(uint8_t *at, uint64_t number, int bytes)
{
    for (int i = 0; i < bytes; i++) at[i] = (uint8_t)(number >> (8 * (bytes - 1 - i)));
    return at + bytes;
}

static void send_all(struct line *l, const uint8_t *at, size_t size)
{
    while (size) {
        ssize_t sent = send(l->fd, at, size, MSG_NOSIGNAL);
        if (sent <= 0) fail("deep", "a record cannot be sent");
        at += sent;
        size -= (size_t)sent;
    }
}

/* Receives answers of this size, each of which must say that the request was done. */
static void receive_done(struct line *l, int count, size_t size)
{
    static const uint8_t done[4];
    uint8_t answers[DEPTH * ANSWER];
    for (size_t has = 0; has < (size_t)count * size;) {
        ssize_t came = recv(l->fd, answers + has, (size_t)count * size - has, 0);
        if (came <= 0) fail("deep", "no answer came");
        has += (size_t)came;
    }
    for (int i = 0; i < count; i++) {
        if (memcmp(answers + (size_t)i * size + 4, done, sizeof done)) fail("deep", "refused");
    }
}

void deep_finish(void *session)
{
    struct line *l = session;
    send_all(l, l->records, (size_t)l->count * RECORD);
    receive_done(l, l->count, ANSWER);
    l->count = 0;
}

void *deep_session(void)
{
    struct sockaddr_un to = {.sun_family = AF_UNIX};
    struct line *l = calloc(1, sizeof *l);
    uint8_t hello[HELLO_BYTES];
    const char *path = getenv("JNL_PATH");
    if (!l || !path || strlen(path) >= sizeof to.sun_path) fail("deep", "JNL_PATH");
    strcpy(to.sun_path, path);
    l->fd = socket(AF_UNIX, SOCK_STREAM, 0);
    if (connect(l->fd, (struct sockaddr *)&to, sizeof to)) fail(path, "no port answers");
    put(put(put(hello, HELLO_BYTES - 4, 4), 0, 4), 1, 4);
    send_all(l, hello, sizeof hello);
    receive_done(l, 1, HELLO_ANSWER);
    return l;
}

void deep_open(const char *folder, int durable)
{
    (void)folder;
    if (load.is_wide) fail("deep", "has no wide load");
    is_durable = durable;
    if (!durable) first = deep_session();
}

void deep_commit(void *session, const uint32_t keys[2], const char *value)
{
    struct line *l = session;
    uint8_t *at = put(put(l->records + l->count * RECORD, RECORD - 4, 4), 1, 4);
    at = put(put(at, (uint64_t)is_durable, 4), 2, 4);
    for (int i = 0; i < 2; i++) {
        at = put(put(put(at, 1, 4), 515 + keys[i] / 32, 8), keys[i] % 32 * 1024, 4);
        at = put(at, OBJECT_BYTES, 4);
        memcpy(at, value, OBJECT_BYTES);
        at += OBJECT_BYTES;
    }
    if (++l->count == DEPTH) deep_finish(l);
}

void deep_flush(void)
{
    uint8_t flush[FLUSH_BYTES];
    put(put(flush, FLUSH_BYTES - 4, 4), 3, 4);
    send_all(first, flush, sizeof flush);
    receive_done(first, 1, FLUSH_ANSWER);
}
