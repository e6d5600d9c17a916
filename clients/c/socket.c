/* The carrier to a port in another process, over its socket. See line.h. */
#define _POSIX_C_SOURCE 200809L
#include "line.h"
#include <errno.h>
#include <fcntl.h>
#include <limits.h>
#include <netinet/in.h>
#include <netinet/tcp.h>
#include <poll.h>
#include <stdlib.h>
#include <string.h>
#include <sys/socket.h>
#include <sys/time.h>
#include <sys/un.h>
#include <time.h>
#include <unistd.h>

struct jnl_port {
    union {
        struct sockaddr any;
        struct sockaddr_un path;
        struct sockaddr_in tcp;
    } at;
    socklen_t size;
};

struct jnl_line {
    int fd;
    uint64_t ends;
};

int jnl_port_enter(const char *path, struct jnl_port **out)
{
    struct jnl_port *p = calloc(1, sizeof *p);
    *out = NULL;
    if (!p) return JNL_NO_MEMORY;
    if (strlen(path) >= sizeof p->at.path.sun_path) {
        free(p);
        errno = ENAMETOOLONG;
        return JNL_NO_PORT;
    }
    p->at.path.sun_family = AF_UNIX;
    strcpy(p->at.path.sun_path, path);
    p->size = sizeof p->at.path;
    *out = p;
    return JNL_OK;
}

int jnl_port_enter_tcp(uint16_t number, struct jnl_port **out)
{
    struct jnl_port *p = calloc(1, sizeof *p);
    *out = p;
    if (!p) return JNL_NO_MEMORY;
    p->at.tcp.sin_family = AF_INET;
    p->at.tcp.sin_port = htons(number);
    p->at.tcp.sin_addr.s_addr = htonl(INADDR_LOOPBACK);
    p->size = sizeof p->at.tcp;
    return JNL_OK;
}

void jnl_port_leave(struct jnl_port *p)
{
    free(p);
}

/* How many milliseconds there are until a moment; 0 after it, and -1 where it never comes. */
static int left_until(uint64_t ends)
{
    struct timespec t;
    if (!ends) return -1;
    clock_gettime(CLOCK_MONOTONIC, &t);
    uint64_t now = (uint64_t)t.tv_sec * 1000 + (uint64_t)t.tv_nsec / 1000000;
    if (ends <= now) return 0;
    return ends - now < INT_MAX ? (int)(ends - now) : INT_MAX;
}

/* Limits how long a connect waits for room at the port; 0 is for ever. */
static void limit_connect(int fd, int milliseconds)
{
    struct timeval t = {milliseconds / 1000, 1000 * (milliseconds % 1000)};
    setsockopt(fd, SOL_SOCKET, SO_SNDTIMEO, &t, sizeof t);
}

static int connect_to(const struct jnl_port *p, int fd, uint64_t ends)
{
    int s;
    do {
        int left = left_until(ends);
        if (ends) limit_connect(fd, left ? left : 1);
        s = connect(fd, &p->at.any, p->size);
    } while (s && errno == EINTR);
    if (s && (errno == EAGAIN || errno == EINPROGRESS)) errno = ETIMEDOUT;
    if (!s && ends) limit_connect(fd, 0);
    return s;
}

/* A connection, or -1. */
static int connected(const struct jnl_port *p, uint64_t ends)
{
    const int on = 1;
    int fd = socket(p->at.any.sa_family, SOCK_STREAM, 0);
    if (fd < 0) return -1;
    /* A program that this one begins has no part in the connection. */
    fcntl(fd, F_SETFD, FD_CLOEXEC);
    if (connect_to(p, fd, ends)) {
        int why = errno;
        close(fd);
        errno = why;
        return -1;
    }
    /* A request is one record, which TCP would hold back for more. */
    if (p->at.any.sa_family == AF_INET) {
        setsockopt(fd, IPPROTO_TCP, TCP_NODELAY, &on, sizeof on);
    }
    return fd;
}

int jnl_line_open(struct jnl_port *p, uint64_t ends, struct jnl_line **out)
{
    *out = NULL;
    int fd = connected(p, ends);
    if (fd < 0) return JNL_NO_PORT;
    *out = calloc(1, sizeof **out);
    if (!*out) {
        close(fd);
        return JNL_NO_MEMORY;
    }
    **out = (struct jnl_line){fd, ends};
    return JNL_OK;
}

void jnl_line_close(struct jnl_line *l)
{
    close(l->fd);
    free(l);
}

void jnl_line_set_end(struct jnl_line *l, uint64_t ends)
{
    l->ends = ends;
}

int jnl_line_is_quiet(struct jnl_line *l)
{
    char byte;
    return recv(l->fd, &byte, 1, MSG_PEEK | MSG_DONTWAIT) < 0
        && (errno == EAGAIN || errno == EWOULDBLOCK || errno == EINTR);
}

/* A thread that sleeps in recv is also woken where the port takes its request, since the socket
 * then has room again. One that sleeps in poll for input is not. To look again and again before
 * would keep the processor that the service runs on. */
int jnl_line_await(struct jnl_line *l, int events)
{
    int wanted = (events & JNL_GIVES ? POLLIN : 0) | (events & JNL_TAKES ? POLLOUT : 0);
    struct pollfd at = {l->fd, (short)wanted, 0};
    int s;
    do {
        s = poll(&at, 1, left_until(l->ends));
    } while (s < 0 && errno == EINTR);
    if (!s) errno = ETIMEDOUT;
    return s > 0 ? 0 : -1;
}

/* What a call that moved n bytes says: none after a signal, or where it would wait. */
static ssize_t moved(ssize_t n)
{
    return n < 0 && (errno == EAGAIN || errno == EWOULDBLOCK || errno == EINTR) ? 0 : n;
}

/* A port that is gone is told by the answer, and by no signal. */
ssize_t jnl_line_send(struct jnl_line *l, const uint8_t *p, size_t n)
{
    return moved(send(l->fd, p, n, MSG_NOSIGNAL | MSG_DONTWAIT));
}

ssize_t jnl_line_receive(struct jnl_line *l, uint8_t *p, size_t n)
{
    ssize_t k = recv(l->fd, p, n, MSG_DONTWAIT);
    if (!k) errno = ECONNRESET;
    return k ? moved(k) : -1;
}

const char *jnl_reason(void)
{
    return "";
}
