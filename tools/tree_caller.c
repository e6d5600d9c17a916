// Sends calls of NFS over several connections at once, one after another over each, and prints how
// long they took.
//
//     tree_caller ADDRESS PORT FILE...
//
// Each FILE has the records of a connection's calls, each with its mark. A call is sent when the
// reply before it has come. One that is answered JUKEBOX is sent again, and another status than OK
// ends the program with status 1. It prints the seconds from the first call to the last reply, the
// median of a call in microseconds, and how many were answered JUKEBOX.
#include <arpa/inet.h>
#include <netinet/tcp.h>
#include <pthread.h>
#include <stdint.h>
#include <stdio.h>
#include <stdlib.h>
#include <string.h>
#include <sys/socket.h>
#include <time.h>
#include <unistd.h>

#define LAST_FRAGMENT 0x80000000u
#define STATUS_AT 24 // of an accepted reply: after number, kind, acceptance, verifier and its state
#define JUKEBOX 10008

struct connection {
    int socket;
    char *calls, *end;
    long count, jukebox;
    double *spent, begun, finished;
};

static struct sockaddr_in service;
static pthread_barrier_t together;

static void fail(const char *what) {
    fprintf(stderr, "tree_caller: %s\n", what);
    exit(1);
}

static double now(void) {
    struct timespec time;
    clock_gettime(CLOCK_MONOTONIC, &time);
    return time.tv_sec + time.tv_nsec / 1e9;
}

static uint32_t word(const char *at) {
    uint32_t number;
    memcpy(&number, at, 4);
    return ntohl(number);
}

static void read_file(struct connection *it, const char *path) {
    FILE *file = fopen(path, "rb");
    if (file == NULL || fseek(file, 0, SEEK_END) != 0)
        fail(path);
    long length = ftell(file);
    rewind(file);
    it->calls = malloc(length);
    it->end = it->calls + length;
    if (fread(it->calls, 1, length, file) != (size_t)length)
        fail(path);
    fclose(file);
    for (char *at = it->calls; at < it->end; at += 4 + (word(at) & ~LAST_FRAGMENT))
        it->count++;
    it->spent = calloc(it->count, sizeof *it->spent);
}

static void connect_to_service(struct connection *it) {
    int yes = 1;
    it->socket = socket(AF_INET, SOCK_STREAM, 0);
    if (connect(it->socket, (struct sockaddr *)&service, sizeof service) != 0)
        fail("it cannot connect");
    setsockopt(it->socket, IPPROTO_TCP, TCP_NODELAY, &yes, sizeof yes);
}

static void receive(int socket, char *data, size_t length) {
    while (length > 0) {
        ssize_t count = read(socket, data, length);
        if (count <= 0)
            fail("the connection ended");
        data += count;
        length -= count;
    }
}

// The status of the next reply, of which some bytes are read and the others thrown away.
static uint32_t reply_status(int socket) {
    static _Thread_local char reply[1 << 18];
    uint32_t length = 0, mark = 0;
    while (!(mark & LAST_FRAGMENT)) {
        char head[4];
        receive(socket, head, 4);
        mark = word(head);
        uint32_t more = mark & ~LAST_FRAGMENT;
        if (length + more > sizeof reply)
            fail("a reply is too long");
        receive(socket, reply + length, more);
        length += more;
    }
    if (length < STATUS_AT + 4 || word(reply + 8) != 0 || word(reply + STATUS_AT - 4) != 0)
        fail("a call is not accepted");
    return word(reply + STATUS_AT);
}

static uint32_t call(struct connection *it, const char *at, size_t length) {
    if (write(it->socket, at, length) != (ssize_t)length)
        fail("a call is not sent");
    return reply_status(it->socket);
}

static void *run(void *argument) {
    struct connection *it = argument;
    char *at = it->calls;
    pthread_barrier_wait(&together);
    it->begun = now();
    for (long number = 0; number < it->count; number++) {
        size_t length = 4 + (word(at) & ~LAST_FRAGMENT);
        double begun = now();
        uint32_t status;
        while ((status = call(it, at, length)) == JUKEBOX)
            it->jukebox++;
        it->spent[number] = now() - begun;
        if (status != 0) {
            fprintf(stderr, "tree_caller: call %ld is answered %u\n", number, status);
            exit(1);
        }
        at += length;
    }
    it->finished = now();
    return NULL;
}

static int compare(const void *one, const void *other) {
    double a = *(const double *)one, b = *(const double *)other;
    return (a > b) - (a < b);
}

static void print(struct connection *all, int count) {
    double first = all[0].begun, last = all[0].finished, *spent;
    long calls = 0, jukebox = 0;
    for (int place = 0; place < count; place++) {
        calls += all[place].count;
        jukebox += all[place].jukebox;
        first = all[place].begun < first ? all[place].begun : first;
        last = all[place].finished > last ? all[place].finished : last;
    }
    spent = malloc(calls * sizeof *spent);
    for (int place = 0, at = 0; place < count; at += all[place++].count)
        memcpy(spent + at, all[place].spent, all[place].count * sizeof *spent);
    qsort(spent, calls, sizeof *spent, compare);
    printf("%.6f %.1f %ld\n", last - first, 1e6 * spent[calls / 2], jukebox);
}

int main(int count, char **words) {
    if (count < 4)
        fail("ADDRESS PORT FILE... are asked for");
    service.sin_family = AF_INET;
    service.sin_port = htons(atoi(words[2]));
    if (inet_pton(AF_INET, words[1], &service.sin_addr) != 1)
        fail("ADDRESS is none");
    int connections = count - 3;
    struct connection *all = calloc(connections, sizeof *all);
    pthread_t *threads = calloc(connections, sizeof *threads);
    pthread_barrier_init(&together, NULL, connections);
    for (int place = 0; place < connections; place++) {
        read_file(&all[place], words[3 + place]);
        connect_to_service(&all[place]);
        if (pthread_create(&threads[place], NULL, run, &all[place]) != 0)
            fail("no thread can be made");
    }
    for (int place = 0; place < connections; place++)
        pthread_join(threads[place], NULL);
    print(all, connections);
    return 0;
}
