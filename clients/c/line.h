/* How records come to the port and answers come back. A library has one of two carriers: socket.c
 * connects to a port in another process, and inside.c has the port in this process. */
#ifndef JNL_LINE_H
#define JNL_LINE_H
#include "jnl.h"
#include <sys/types.h>

/* What stands at a path or a TCP port, and one connection to it. */
struct jnl_port;
struct jnl_line;

/* Answers a jnl_status, and at JNL_NO_PORT sets errno; at JNL_OK the port is to be left. */
int jnl_port_enter(const char *path, struct jnl_port **out);
int jnl_port_enter_tcp(uint16_t number, struct jnl_port **out);
void jnl_port_leave(struct jnl_port *);

/* Answers a jnl_status; at JNL_OK the line is to be closed. A wait of the line ends at a moment, in
 * milliseconds of the monotonic clock; 0 is never. */
int jnl_line_open(struct jnl_port *, uint64_t ends, struct jnl_line **out);
void jnl_line_close(struct jnl_line *);
void jnl_line_set_end(struct jnl_line *, uint64_t ends);

/* Whether the port has neither ended the line nor sent what nobody asked for. */
int jnl_line_is_quiet(struct jnl_line *);

/* What a line is waited for: that it has bytes to give, or takes some. */
enum { JNL_GIVES = 1, JNL_TAKES = 2 };

/* Waits until one of these is so: 0; or -1, and the line is of no more use. This call and the next
 * two then set errno, as those above do at JNL_NO_PORT. */
int jnl_line_await(struct jnl_line *, int events);

/* How many of n bytes the line takes, or gives, without a wait, where n is not 0; or -1, and the
 * line is of no more use. */
ssize_t jnl_line_send(struct jnl_line *, const uint8_t *, size_t n);
ssize_t jnl_line_receive(struct jnl_line *, uint8_t *, size_t n);
#endif
