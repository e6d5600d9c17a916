// Preloaded under a program, this fails each of its calls of getentropy and getrandom by ENOSYS.
#include <errno.h>
#include <stddef.h>
#include <sys/types.h>

int getentropy(void *into, size_t size) {
    (void)into, (void)size;
    errno = ENOSYS;
    return -1;
}

ssize_t getrandom(void *into, size_t size, unsigned flags) {
    (void)into, (void)size, (void)flags;
    errno = ENOSYS;
    return -1;
}
