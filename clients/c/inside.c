/* The carrier to the program `jnl` inside this process, on Linux for x86-64. See line.h.
 *
 * The program's object is linked with this file. Its calls of the system are named jnl_os_* there
 * (inside.names): those that concern its socket, a connection, its words or its end are answered
 * here, and all others go on to the system. It runs in threads of its own, with a worker for each
 * connection.
 *
 * A worker that asks for bytes which are not there leaves its stack, and its thread sleeps on a
 * small one. A thread of C that sends a record goes on upon the worker's stack, from where it asked
 * until it asks again. So a call needs no other thread and no call of the system. A thread for each
 * call, or a queue to the workers, took two switches a call. When the line is closed, the worker's
 * own thread takes its stack back. */
#define _GNU_SOURCE
#include "line.h"
#include <errno.h>
#include <fcntl.h>
#include <pthread.h>
#include <setjmp.h>
#include <signal.h>
#include <stdatomic.h>
#include <stdio.h>
#include <stdlib.h>
#include <string.h>
#include <sys/mman.h>
#include <sys/socket.h>
#include <sys/stat.h>
#include <time.h>
#include <unistd.h>

#if !defined __x86_64__ || !defined __linux__
#error "the carrier in the process is for Linux on x86-64"
#endif

/* Numbers of descriptors that the system does not give: the listener, its copy, and the lines. */
enum { LISTENER = 1 << 24, LISTENER_COPY, FIRST_LINE, MOST_LINES = 64 };
/* The program's words. No file has the name of its socket, for no call reaches the system. */
#define SOCKET "/jnl inside this process"
#define DEVICE_LOCK "/run/lock/palkhuveg-"
#define MOST_LINES_WORD "64"
enum { WORDS = 7, FILE_WORD = 2, PARKING_BYTES = 65536, MOST_SILENCE = 240, MOST_SAID = 512 };

/* Who goes on with a worker: its own thread, nobody, or a thread of C. */
enum state { OWN, PARKED, LENT };

struct jnl_line {
    int fd;
    _Atomic enum state state;
    /* C gives no more; the program takes no more. */
    atomic_int is_closed, is_ended;
    void *worker, *caller, *parking; /* the stack pointers of what does not run */
    void *room;                      /* the stack on which the worker's thread sleeps */
    const uint8_t *in;               /* what was sent and the worker has not received yet */
    size_t in_left;
    uint8_t *out; /* what the worker sent */
    size_t out_used, out_room, out_read;
    time_t last; /* when a record was sent, in seconds */
    /* By the lock: */
    int may_resume, owners;
    pthread_t thread; /* the worker's own */
    pthread_cond_t wake;
    struct jnl_line *next;
};

struct jnl_port {
    size_t users;
    dev_t device;
    ino_t file;
};

static pthread_mutex_t lock = PTHREAD_MUTEX_INITIALIZER; /* of what follows */
static pthread_cond_t changed = PTHREAD_COND_INITIALIZER;
static struct jnl_port port;
static struct jnl_line *lines[MOST_LINES];
static struct jnl_line *waiting; /* opened and not accepted yet */
static int is_changing; /* the program begins, or is made to end */
static int is_listening, has_ended;
static atomic_int is_shut; /* no further line is taken, and the program ends */
static char said[MOST_SAID];
static size_t said_used;
/* These change only while no thread of the program runs. */
static char *words[WORDS];
static pthread_t host;
static jmp_buf host_end;
static int disk = -1;
static int device_lock = -1; /* of the number of a disk's device, if it is on one */

static __thread struct jnl_line *lent; /* whose stack this thread of C runs on */
static volatile sig_atomic_t has_forked;
static pthread_once_t once = PTHREAD_ONCE_INIT;
static uint64_t barriers;

int jnl_program(int, char **);

/* Saves the registers that a call keeps, and the stack pointer; then goes on where `to` was
 * saved. */
void jnl_switch(void **from, void *to);
void jnl_begin_parking(void);
__asm__(".text\n"
        ".globl jnl_switch\n.hidden jnl_switch\n.type jnl_switch,@function\n"
        "jnl_switch:\n"
        " pushq %rbp\n pushq %rbx\n pushq %r12\n pushq %r13\n pushq %r14\n pushq %r15\n"
        " subq $8,%rsp\n stmxcsr (%rsp)\n fnstcw 4(%rsp)\n"
        " movq %rsp,(%rdi)\n movq %rsi,%rsp\n"
        " ldmxcsr (%rsp)\n fldcw 4(%rsp)\n addq $8,%rsp\n"
        " popq %r15\n popq %r14\n popq %r13\n popq %r12\n popq %rbx\n popq %rbp\n ret\n"
        ".size jnl_switch,.-jnl_switch\n"
        ".globl jnl_begin_parking\n.hidden jnl_begin_parking\n"
        ".type jnl_begin_parking,@function\n"
        "jnl_begin_parking:\n movq %rbx,%rdi\n call jnl_park\n ud2\n"
        ".size jnl_begin_parking,.-jnl_begin_parking\n");

static struct jnl_line *line_of(int fd)
{
    return fd >= FIRST_LINE && fd < FIRST_LINE + MOST_LINES ? lines[fd - FIRST_LINE] : NULL;
}

static time_t seconds(void)
{
    struct timespec now;
    clock_gettime(CLOCK_MONOTONIC_COARSE, &now);
    return now.tv_sec;
}

/* ---- lines */

/* With the lock held: has the worker's own thread take its stack back, where it is left. */
static void resume(struct jnl_line *l)
{
    enum state expected = PARKED;
    if (!atomic_compare_exchange_strong(&l->state, &expected, OWN)) return;
    l->may_resume = 1;
    pthread_cond_signal(&l->wake);
}

/* The sleep of a worker's thread, on the stack for it. */
__attribute__((used, visibility("hidden"))) void jnl_park(struct jnl_line *l)
{
    for (;;) {
        pthread_mutex_lock(&lock);
        l->thread = pthread_self();
        l->state = PARKED;
        pthread_cond_broadcast(&changed);
        if (is_shut) resume(l);
        while (!l->may_resume) pthread_cond_wait(&l->wake, &lock);
        l->may_resume = 0;
        pthread_mutex_unlock(&lock);
        jnl_switch(&l->parking, l->worker);
    }
}

/* A stack that begins in jnl_begin_parking, with the line in rbx. */
static void make_parking(struct jnl_line *l)
{
    void **sp = (void **)((char *)l->room + PARKING_BYTES);
    *--sp = NULL; /* the stack pointer is a multiple of 16 at the call */
    *--sp = NULL;
    *--sp = (void *)jnl_begin_parking;
    *--sp = NULL; /* rbp */
    *--sp = l;    /* rbx */
    for (int i = 0; i < 4; i++) *--sp = NULL;
    --sp; /* the control words of now */
    __asm__ volatile("stmxcsr (%0)\n fnstcw 4(%0)" ::"r"(sp) : "memory");
    l->parking = sp;
}

/* Leaves the worker's stack: to the thread of C that is on it, or to the sleep of the worker's
 * own. */
static void leave_stack(struct jnl_line *l)
{
    jnl_switch(&l->worker, l->state == LENT ? l->caller : l->parking);
}

/* With the lock held. A line has two owners, the program and C. */
static void disown(struct jnl_line *l)
{
    if (--l->owners) return;
    lines[l->fd - FIRST_LINE] = NULL;
    if (l->room != MAP_FAILED) munmap(l->room, PARKING_BYTES);
    pthread_cond_destroy(&l->wake);
    free(l->out);
    free(l);
}

static struct jnl_line *new_line(int fd)
{
    struct jnl_line *l = calloc(1, sizeof *l);
    if (!l) return NULL;
    l->fd = fd;
    l->owners = 1;
    l->last = seconds();
    pthread_cond_init(&l->wake, NULL);
    l->room = mmap(NULL, PARKING_BYTES, PROT_READ | PROT_WRITE, MAP_PRIVATE | MAP_ANONYMOUS, -1, 0);
    lines[fd - FIRST_LINE] = l;
    if (l->room == MAP_FAILED) {
        disown(l);
        return NULL;
    }
    make_parking(l);
    return l;
}

/* With the lock held: takes a line back that was not accepted, if it was not. */
static void take_back(struct jnl_line *l)
{
    struct jnl_line **at = &waiting;
    while (*at && *at != l) at = &(*at)->next;
    if (!*at) return;
    *at = l->next;
    disown(l);
}

/* With the lock held: hands a new line to the program, and waits until its worker asks. */
static int hand_over(struct jnl_line *l)
{
    l->owners = 2;
    l->next = waiting;
    waiting = l;
    pthread_cond_broadcast(&changed);
    while (l->state != PARKED && !l->is_ended && !has_ended) pthread_cond_wait(&changed, &lock);
    if (l->state == PARKED) return JNL_OK;
    take_back(l);
    l->is_closed = 1;
    disown(l);
    errno = ECONNREFUSED;
    return JNL_NO_PORT;
}

/* With the lock held: a number that no line has, once there is one; or -1 where C holds all. */
static int free_number(void)
{
    for (;;) {
        int is_due = 0; /* a line that C has closed is soon closed by the program too */
        for (int i = 0; i < MOST_LINES; i++) {
            if (!lines[i]) return FIRST_LINE + i;
            is_due |= lines[i]->is_closed;
        }
        if (!is_due) return -1;
        pthread_cond_wait(&changed, &lock);
    }
}

int jnl_line_open(struct jnl_port *p, uint64_t ends, struct jnl_line **out)
{
    int s = JNL_NO_PORT;
    (void)p, (void)ends;
    *out = NULL;
    if (has_forked) return JNL_FORKED;
    pthread_mutex_lock(&lock);
    int fd = free_number();
    errno = fd < 0 ? EMFILE : ECONNREFUSED;
    if (fd >= 0 && !has_ended && !is_shut) {
        struct jnl_line *l = new_line(fd);
        s = l ? hand_over(l) : JNL_NO_MEMORY;
        if (!s) *out = l;
    }
    pthread_mutex_unlock(&lock);
    return s;
}

void jnl_line_close(struct jnl_line *l)
{
    if (has_forked) return;
    pthread_mutex_lock(&lock);
    l->is_closed = 1;
    resume(l);
    disown(l);
    pthread_mutex_unlock(&lock);
}

/* The program ends a connection that was silent for five minutes, which it finds out when the next
 * record comes in pieces. So one that was silent for nearly as long is made again. */
int jnl_line_is_quiet(struct jnl_line *l)
{
    return !has_forked && !l->is_ended && seconds() - l->last < MOST_SILENCE;
}

/* A call does not wait for another process. */
void jnl_line_set_end(struct jnl_line *l, uint64_t ends)
{
    (void)l, (void)ends;
}

/* Drops the answers that were received, so that those of the next records have their room. */
static void drop_received(struct jnl_line *l)
{
    memmove(l->out, l->out + l->out_read, l->out_used - l->out_read);
    l->out_used -= l->out_read;
    l->out_read = 0;
}

ssize_t jnl_line_send(struct jnl_line *l, const uint8_t *p, size_t n)
{
    enum state expected = PARKED;
    errno = ECONNRESET;
    if (has_forked || l->is_ended) return -1;
    if (!atomic_compare_exchange_strong(&l->state, &expected, LENT)) return -1;
    l->in = p;
    l->in_left = n;
    if (l->out_read) drop_received(l);
    l->last = seconds();
    lent = l;
    jnl_switch(&l->caller, l->worker);
    lent = NULL;
    l->in_left = 0;
    l->state = PARKED;
    if (is_shut || l->is_ended) {
        pthread_mutex_lock(&lock);
        resume(l);
        pthread_mutex_unlock(&lock);
    }
    return (ssize_t)n;
}

/* The answers are there once a send has returned. */
int jnl_line_await(struct jnl_line *l, int events)
{
    (void)l, (void)events;
    return 0;
}

ssize_t jnl_line_receive(struct jnl_line *l, uint8_t *p, size_t n)
{
    size_t has = l->out_used - l->out_read;
    if (!has) return errno = ECONNRESET, -1;
    if (n > has) n = has;
    memcpy(p, l->out + l->out_read, n);
    l->out_read += n;
    return (ssize_t)n;
}

/* ---- the program */

static void in_child(void)
{
    has_forked = 1;
    /* The locks of the file and of its device are the parent's alone then. */
    if (disk >= 0) close(disk);
    if (device_lock >= 0) close(device_lock);
}

static void prepare(void)
{
    pthread_atfork(NULL, NULL, in_child);
}

static void *run(void *none)
{
    static char *nothing[] = {NULL};
    if (!setjmp(host_end)) jnl_program(0, nothing);
    pthread_mutex_lock(&lock);
    has_ended = 1;
    pthread_cond_broadcast(&changed);
    pthread_mutex_unlock(&lock);
    return none;
}

/* Its threads have no signal to handle. */
static int begin_host(void)
{
    sigset_t all, before;
    sigfillset(&all);
    pthread_sigmask(SIG_SETMASK, &all, &before);
    int s = pthread_create(&host, NULL, run, NULL);
    pthread_sigmask(SIG_SETMASK, &before, NULL);
    return s;
}

static void set_words(char *path)
{
    static char name[] = "jnl", serve[] = "serve", socket_word[] = "--socket", at[] = SOCKET,
                connections[] = "--connections", most[] = MOST_LINES_WORD;
    char *all[WORDS] = {name, serve, path, socket_word, at, connections, most};
    memcpy(words, all, sizeof words);
}

/* With the lock held. */
static int begin_program(const char *path)
{
    char *copy = strdup(path);
    if (!copy) return JNL_NO_MEMORY;
    set_words(copy);
    is_listening = has_ended = is_shut = 0;
    said_used = 0;
    said[0] = 0;
    int s = begin_host() ? JNL_NO_MEMORY : JNL_OK;
    while (!s && !is_listening && !has_ended) pthread_cond_wait(&changed, &lock);
    if (!s && !is_listening) {
        pthread_mutex_unlock(&lock);
        pthread_join(host, NULL);
        pthread_mutex_lock(&lock);
        s = JNL_NO_PORT;
    }
    if (s) free(copy);
    errno = EIO;
    return s;
}

int jnl_port_enter(const char *path, struct jnl_port **out)
{
    struct stat now;
    *out = NULL;
    if (has_forked) return JNL_FORKED;
    pthread_once(&once, prepare);
    if (stat(path, &now)) return JNL_NO_PORT;
    pthread_mutex_lock(&lock);
    while (is_changing) pthread_cond_wait(&changed, &lock);
    int s = JNL_OK;
    if (!port.users) {
        is_changing = 1;
        s = begin_program(path);
        is_changing = 0;
        pthread_cond_broadcast(&changed);
    } else if (port.device != now.st_dev || port.file != now.st_ino) {
        s = JNL_SECOND_DISK;
    }
    if (!s) {
        port = (struct jnl_port){port.users + 1, now.st_dev, now.st_ino};
        *out = &port;
    }
    pthread_mutex_unlock(&lock);
    return s;
}

/* The program was asked for no port. */
int jnl_port_enter_tcp(uint16_t number, struct jnl_port **out)
{
    (void)number;
    *out = NULL;
    errno = EOPNOTSUPP;
    return has_forked ? JNL_FORKED : JNL_NO_PORT;
}

/* No further line is taken, and the workers whose lines are left look whether the program ends. */
static void shut(void)
{
    pthread_mutex_lock(&lock);
    is_shut = 1;
    for (int i = 0; i < MOST_LINES; i++) {
        if (lines[i]) resume(lines[i]);
    }
    pthread_cond_broadcast(&changed);
    pthread_mutex_unlock(&lock);
}

/* Asks the program to end with all commits stable, and has it end whatever it answers. */
static void end_program(void)
{
    static const uint8_t stop[8] = {0, 0, 0, 4, 0, 0, 0, 5};
    struct jnl_line *l;
    if (!jnl_line_open(&port, 0, &l)) {
        jnl_line_send(l, stop, sizeof stop);
        jnl_line_close(l);
    }
    shut();
    pthread_join(host, NULL);
}

void jnl_port_leave(struct jnl_port *p)
{
    if (has_forked) return;
    pthread_mutex_lock(&lock);
    while (is_changing) pthread_cond_wait(&changed, &lock);
    int is_last = p->users == 1;
    if (is_last) {
        is_changing = 1;
    } else {
        p->users--;
    }
    pthread_mutex_unlock(&lock);
    if (!is_last) return;
    end_program();
    pthread_mutex_lock(&lock);
    free(words[FILE_WORD]);
    disk = device_lock = -1;
    p->users = 0;
    is_changing = 0;
    pthread_cond_broadcast(&changed);
    pthread_mutex_unlock(&lock);
}

const char *jnl_reason(void)
{
    return said;
}

uint64_t jnl_barriers(void)
{
    return __atomic_load_n(&barriers, __ATOMIC_RELAXED);
}

/* ---- the program's calls: its words, its outputs, its end */

size_t jnl_os_arg_count(void)
{
    return WORDS;
}

long jnl_os_arg(size_t i, uint8_t *into, size_t room)
{
    if (i >= WORDS) return -1;
    size_t n = strlen(words[i]);
    memcpy(into, words[i], n < room ? n : room);
    return (long)n;
}

/* What it says on standard output is for nobody, and what it says on standard error is kept. */
static ssize_t keep_said(const void *p, size_t n)
{
    pthread_mutex_lock(&lock);
    size_t room = sizeof said - 1 - said_used, kept = n < room ? n : room;
    memcpy(said + said_used, p, kept);
    said_used += kept;
    said[said_used] = 0;
    pthread_mutex_unlock(&lock);
    return (ssize_t)n;
}

ssize_t jnl_os_write(int fd, const void *p, size_t n)
{
    if (fd == STDOUT_FILENO) return (ssize_t)n;
    return fd == STDERR_FILENO ? keep_said(p, n) : write(fd, p, n);
}

/* It ignores the signal of a broken pipe, which no line raises. */
void (*jnl_os_signal(int number, void (*handler)(int)))(int)
{
    (void)number, (void)handler;
    return SIG_DFL;
}

_Noreturn void jnl_os_exit(int status)
{
    if (pthread_equal(pthread_self(), host)) longjmp(host_end, 1);
    _exit(status);
}

/* On a worker's stack, its thread. */
pthread_t jnl_os_self(void)
{
    return lent ? lent->thread : pthread_self();
}

int jnl_os_open(const char *path, int flags, mode_t mode)
{
    int fd = open(path, flags, mode);
    if (fd >= 0 && !strcmp(path, words[FILE_WORD])) disk = fd;
    if (fd >= 0 && !strncmp(path, DEVICE_LOCK, sizeof DEVICE_LOCK - 1)) device_lock = fd;
    return fd;
}

int jnl_os_fdatasync(int fd)
{
    __atomic_add_fetch(&barriers, 1, __ATOMIC_RELAXED);
    return fdatasync(fd);
}

/* ---- its socket: nothing of it is in the file system */

static int is_socket_path(const char *path)
{
    return !strncmp(path, SOCKET, sizeof SOCKET - 1);
}

int jnl_os_statx(int folder, const char *path, int flags, unsigned mask, struct statx *out)
{
    if (!is_socket_path(path)) return statx(folder, path, flags, mask, out);
    errno = ENOENT;
    return -1;
}

int jnl_os_mkdir(const char *path, mode_t mode)
{
    return is_socket_path(path) ? 0 : mkdir(path, mode);
}

int jnl_os_rmdir(const char *path)
{
    return is_socket_path(path) ? 0 : rmdir(path);
}

int jnl_os_unlink(const char *path)
{
    return is_socket_path(path) ? 0 : unlink(path);
}

int jnl_os_chmod(const char *path, mode_t mode)
{
    return is_socket_path(path) ? 0 : chmod(path, mode);
}

int jnl_os_rename(const char *from, const char *to)
{
    return is_socket_path(from) ? 0 : rename(from, to);
}

static int is_listener(int fd)
{
    return fd == LISTENER || fd == LISTENER_COPY;
}

/* It makes no socket but its listener. */
int jnl_os_socket(int domain, int type, int protocol)
{
    (void)type, (void)protocol;
    if (domain == AF_UNIX) return LISTENER;
    errno = EACCES;
    return -1;
}

int jnl_os_bind(int fd, const struct sockaddr *at, socklen_t size)
{
    (void)at, (void)size;
    return is_listener(fd) ? 0 : (errno = EBADF, -1);
}

int jnl_os_listen(int fd, int room)
{
    (void)room;
    return is_listener(fd) ? 0 : (errno = EBADF, -1);
}

int jnl_os_connect(int fd, const struct sockaddr *to, socklen_t size)
{
    (void)fd, (void)to, (void)size;
    errno = ECONNREFUSED;
    return -1;
}

int jnl_os_fcntl(int fd, int what, long more)
{
    return is_listener(fd) ? LISTENER_COPY : fcntl(fd, what, more);
}

int jnl_os_accept4(int fd, struct sockaddr *from, socklen_t *size, int flags)
{
    (void)fd, (void)flags;
    pthread_mutex_lock(&lock);
    is_listening = 1;
    pthread_cond_broadcast(&changed);
    while (!waiting && !is_shut) pthread_cond_wait(&changed, &lock);
    struct jnl_line *l = is_shut ? NULL : waiting;
    if (l) waiting = l->next;
    pthread_mutex_unlock(&lock);
    if (!l) return errno = EINVAL, -1;
    if (from && size && *size >= sizeof(sa_family_t)) {
        from->sa_family = AF_UNIX;
        *size = sizeof(sa_family_t);
    }
    return l->fd;
}

int jnl_os_shutdown(int fd, int how)
{
    struct jnl_line *l = line_of(fd);
    if (l) {
        l->is_ended = 1;
    } else if (is_listener(fd)) {
        shut();
    } else {
        return shutdown(fd, how);
    }
    return 0;
}

int jnl_os_setsockopt(int fd, int level, int name, const void *value, socklen_t size)
{
    return line_of(fd) || is_listener(fd) ? 0 : setsockopt(fd, level, name, value, size);
}

/* ---- its connections */

ssize_t jnl_os_recv(int fd, void *into, size_t n, int flags)
{
    struct jnl_line *l = line_of(fd);
    if (!l) return recv(fd, into, n, flags);
    while (!l->in_left && !l->is_closed) {
        if (l->state == OWN && l->is_ended) return 0;
        /* As after its time limit: the program looks whether it ends, and asks again. */
        if (l->state == OWN && is_shut) return errno = EAGAIN, -1;
        leave_stack(l);
    }
    if (n > l->in_left) n = l->in_left;
    memcpy(into, l->in, n);
    l->in += n;
    l->in_left -= n;
    return (ssize_t)n;
}

ssize_t jnl_os_send(int fd, const void *from, size_t n, int flags)
{
    struct jnl_line *l = line_of(fd);
    if (!l) return send(fd, from, n, flags);
    if (l->out_used + n > l->out_room) {
        size_t room = 2 * l->out_room + n + 512;
        uint8_t *more = realloc(l->out, room);
        if (!more) return errno = ENOBUFS, -1;
        l->out = more;
        l->out_room = room;
    }
    memcpy(l->out + l->out_used, from, n);
    l->out_used += n;
    return (ssize_t)n;
}

int jnl_os_close(int fd)
{
    struct jnl_line *l = line_of(fd);
    if (is_listener(fd)) return 0;
    if (!l) return close(fd);
    l->is_ended = 1;
    /* What follows is the worker's next connection, for which its own thread waits. */
    while (l->state == LENT) leave_stack(l);
    pthread_mutex_lock(&lock);
    disown(l);
    pthread_cond_broadcast(&changed);
    pthread_mutex_unlock(&lock);
    return 0;
}
