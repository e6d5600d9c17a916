/* Pays 100 to Alice, moves 30 from Alice to Bob, and prints both balances.
 *
 *     make -C clients/c
 *     cc -Iclients/c examples/bank.c clients/c/out/libjnl.a -o bank
 *     ./bank
 *
 * It uses the service of bank.disk at bank.sock, as docs/EMBEDDING.md begins one. */
#include <jnl.h>
#include <stdio.h>
#include <string.h>

static const jnl_addr alice = {515, 0}, bob = {515, 1024};

/* Adds money to a balance, and gives the new one. */
static int pay(jnl_txn *t, jnl_addr who, int64_t money, int64_t *balance)
{
    unsigned char value[128];
    int s = jnl_read(t, who, value, sizeof value);
    if (s) return s;
    memcpy(balance, value, sizeof *balance);
    *balance += money;
    memcpy(value, balance, sizeof *balance);
    return jnl_write(t, who, value, sizeof value);
}

static int pay_alice(jnl_txn *t, void *both)
{
    return pay(t, alice, 100, both);
}

static int transfer(jnl_txn *t, void *context)
{
    int64_t *both = context;
    int s = pay(t, alice, -30, &both[0]);
    if (!s && both[0] < 0) s = -1; /* Alice has too little: nothing is done */
    return s ? s : pay(t, bob, 30, &both[1]);
}

int main(void)
{
    jnl *j;
    int64_t both[2] = {0, 0};
    int s = jnl_open("bank.sock", &j);
    if (!s) s = jnl_run(j, pay_alice, both, JNL_WAIT, NULL);
    if (!s) s = jnl_run(j, transfer, both, JNL_WAIT, NULL);
    printf("%d %d %s\n", (int)both[0], (int)both[1], s ? jnl_strerror(s) : "");
    jnl_close(j);
    return s != 0;
}
