/* What other files of the library ask of a transaction. */
#ifndef JNL_TRANSACTION_H
#define JNL_TRANSACTION_H
#include "jnl.h"

/* Whether the transaction has read or overwritten an object. */
int jnl_has(jnl_txn *, jnl_addr);

/* Answers a status that refuses an object, and keeps which it is for jnl_refused. */
int jnl_refuse(jnl_txn *, jnl_addr, int status);
#endif
