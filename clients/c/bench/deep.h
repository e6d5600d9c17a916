/* The engine of deep.c. */
#ifndef DEEP_H
#define DEEP_H
#include "engines.h"

/* How many transactions a thread sends before it reads their answers. */
enum { DEPTH = 64 };

void deep_open(const char *folder, int durable);
void *deep_session(void);
void deep_commit(void *session, const uint32_t keys[2], const char *value);
void deep_finish(void *session);
void deep_flush(void);
#endif
