// Calls `jtool serve` over several connections at once, and prints the replies a second that they get together, a line each time.
//
//     callers PORT TIMES CALLS one-by-one|pipelined RECORD...
//
// Each RECORD is a file with the bytes of a call's record. It has a thread and a connection of its own, over which it is called CALLS
// times: one by one, where each call is sent when the reply before it has come, or pipelined, where all are sent at once while
// the replies are read. That is done TIMES times. A reply has to come as one fragment.
#define _GNU_SOURCE
#include <arpa/inet.h>
#include <netinet/tcp.h>
#include <pthread.h>
#include <stdio.h>
#include <stdlib.h>
#include <string.h>
#include <sys/socket.h>
#include <time.h>
#include <unistd.h>

#define PIECE (128 * 1024)
#define LAST_FRAGMENT 0x80000000u

struct caller {
    int socket;
    char *records; // as many as one write takes
    size_t record_length;
    long records_count;
    double start, end;
    size_t at, filled; // what of the piece is read, and how much is there
    char piece[PIECE];
};

static struct sockaddr_in service;
static long times, calls;
static int is_pipelined;
static int callers_count;
static struct caller *callers;
static pthread_barrier_t together;

static void fail(const char *what) {
    perror(what);
    exit(1);
}

static double now(void) {
    struct timespec time;
    clock_gettime(CLOCK_MONOTONIC, &time);
    return time.tv_sec + time.tv_nsec / 1e9;
}

static void read_record(struct caller *caller, const char *path) {
    static char record[PIECE];
    FILE *file = fopen(path, "rb");
    if (file == NULL)
        fail(path);
    caller->record_length = fread(record, 1, PIECE, file);
    fclose(file);
    if (caller->record_length == 0)
        fail(path);
    caller->records_count = PIECE / caller->record_length;
    caller->records = malloc(caller->records_count * caller->record_length);
    if (caller->records == NULL)
        fail("malloc");
    for (long i = 0; i < caller->records_count; i++)
        memcpy(caller->records + i * caller->record_length, record, caller->record_length);
}

static void open_connection(struct caller *caller) {
    int on = 1;
    caller->socket = socket(AF_INET, SOCK_STREAM, 0);
    if (caller->socket < 0 || connect(caller->socket, (struct sockaddr *)&service, sizeof service) < 0)
        fail("connect");
    setsockopt(caller->socket, IPPROTO_TCP, TCP_NODELAY, &on, sizeof on);
}

static void send_records(struct caller *caller, long count) {
    size_t length = count * caller->record_length;
    for (size_t sent = 0; sent < length;) {
        ssize_t more = write(caller->socket, caller->records + sent, length - sent);
        if (more <= 0)
            fail("write");
        sent += more;
    }
}

static void *send_calls(void *of) {
    struct caller *caller = of;
    for (long left = calls; left > 0; left -= caller->records_count)
        send_records(caller, left < caller->records_count ? left : caller->records_count);
    return NULL;
}

// Takes so many bytes of the replies, and copies them where `into` is given.
static void take(struct caller *caller, char *into, size_t count) {
    while (count > 0) {
        if (caller->at == caller->filled) {
            ssize_t more = read(caller->socket, caller->piece, PIECE);
            if (more <= 0)
                fail("read");
            caller->at = 0;
            caller->filled = more;
        }
        size_t here = caller->filled - caller->at;
        if (here > count)
            here = count;
        if (into != NULL) {
            memcpy(into, caller->piece + caller->at, here);
            into += here;
        }
        caller->at += here;
        count -= here;
    }
}

static void take_reply(struct caller *caller) {
    uint32_t header;
    take(caller, (char *)&header, sizeof header);
    take(caller, NULL, ntohl(header) & ~LAST_FRAGMENT);
}

static void call(struct caller *caller) {
    pthread_t sender;
    if (is_pipelined && pthread_create(&sender, NULL, send_calls, caller) != 0)
        fail("pthread_create");
    for (long i = 0; i < calls; i++) {
        if (!is_pipelined)
            send_records(caller, 1);
        take_reply(caller);
    }
    if (is_pipelined)
        pthread_join(sender, NULL);
}

static void print_rate(void) {
    double start = callers[0].start, end = callers[0].end;
    for (int i = 1; i < callers_count; i++) {
        if (callers[i].start < start)
            start = callers[i].start;
        if (callers[i].end > end)
            end = callers[i].end;
    }
    printf("%.0f\n", callers_count * calls / (end - start));
}

static void *run(void *of) {
    struct caller *caller = of;
    for (long i = 0; i < times; i++) {
        pthread_barrier_wait(&together);
        caller->start = now();
        call(caller);
        caller->end = now();
        if (pthread_barrier_wait(&together) == PTHREAD_BARRIER_SERIAL_THREAD)
            print_rate();
    }
    close(caller->socket);
    return NULL;
}

int main(int count, char **words) {
    if (count < 6 || (strcmp(words[4], "one-by-one") != 0 && strcmp(words[4], "pipelined") != 0)) {
        fprintf(stderr, "usage: callers PORT TIMES CALLS one-by-one|pipelined RECORD...\n");
        return 2;
    }
    service.sin_family = AF_INET;
    service.sin_port = htons(atoi(words[1]));
    service.sin_addr.s_addr = htonl(INADDR_LOOPBACK);
    times = atol(words[2]);
    calls = atol(words[3]);
    is_pipelined = strcmp(words[4], "pipelined") == 0;
    callers_count = count - 5;
    callers = calloc(callers_count, sizeof *callers);
    pthread_t *threads = calloc(callers_count, sizeof *threads);
    if (callers == NULL || threads == NULL)
        fail("calloc");
    pthread_barrier_init(&together, NULL, callers_count);
    for (int i = 0; i < callers_count; i++) {
        read_record(&callers[i], words[5 + i]);
        open_connection(&callers[i]);
    }
    for (int i = 0; i < callers_count; i++)
        if (pthread_create(&threads[i], NULL, run, &callers[i]) != 0)
            fail("pthread_create");
    for (int i = 0; i < callers_count; i++)
        pthread_join(threads[i], NULL);
    return 0;
}
