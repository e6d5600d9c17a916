/* Counts barriers in front of the C library: calls of fdatasync, fsync and msync, and writes to
 * files that were opened with O_DSYNC. */
#ifndef BARRIERS_H
#define BARRIERS_H

/* How many were made. Where BARRIERS names a file, all processes that count in it are meant. */
unsigned long count_barriers(void);
#endif
