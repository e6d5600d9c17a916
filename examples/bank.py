"""Pays 100 to Alice, moves 30 from Alice to Bob, and prints both balances.

    PYTHONPATH=clients/python python3 examples/bank.py

It uses the service of bank.disk at bank.sock, as docs/EMBEDDING.md begins one.
"""
import jnl

ALICE, BOB = (515, 0), (515, 1024)


def balance(t, who):
    return int.from_bytes(t.read(*who)[:8], "little")


def pay(t, who, money):
    t.write(*who, (balance(t, who) + money).to_bytes(8, "little") + bytes(120))


def transfer(t):
    if balance(t, ALICE) < 30:
        raise ValueError("Alice has too little")
    pay(t, ALICE, -30)
    pay(t, BOB, 30)


with jnl.connect("bank.sock") as j:
    j.run(lambda t: pay(t, ALICE, 100))
    j.run(transfer)
    print(*j.run(lambda t: (balance(t, ALICE), balance(t, BOB))))
