"""Changes rows by 64 tasks of asyncio over one connection.

    PYTHONPATH=clients/python python3 examples/rows.py

It uses the service of bank.disk at bank.sock, as docs/EMBEDDING.md begins one.
"""
import asyncio

import jnl.aio


async def add_row(j, row):
    async def work(t):
        value = await t.read(520, 1024 * (row % 32))
        t.write(520, 1024 * (row % 32), bytes([(value[0] + 1) % 256]) + value[1:])

    await j.run(work)


async def main():
    async with await jnl.aio.connect("bank.sock") as j:
        await asyncio.gather(*(add_row(j, row) for row in range(64)))
        print("64 rows")


asyncio.run(main())
