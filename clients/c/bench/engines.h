/* What bench.c runs. An engine opens in a folder and fills its objects with zeros. Each thread may
 * have a session, and at its end finishes what it has not done yet. A commit overwrites two objects.
 * An engine that fails ends the program. */
#ifndef ENGINES_H
#define ENGINES_H
#include <stdint.h>

/* How many objects there are, and how many bytes each has: 512 of 128, or where the load is wide
 * 30000 of 4096. */
enum { MOST_OBJECTS = 30000, MOST_BYTES = 4096 };

struct load {
    int is_wide;
    uint32_t objects, bytes;
};

extern struct load load;

struct engine {
    const char *name;
    void (*open)(const char *folder, int durable);
    void *(*session)(void);
    void (*commit)(void *session, const uint32_t keys[2], const char *value);
    void (*flush)(void);
    void (*finish)(void *session);
};

/* The last one has no name. */
extern const struct engine engines[];

_Noreturn void fail(const char *what, const char *why);
#endif
