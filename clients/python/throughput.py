#!/usr/bin/env python3
"""Measures this client, for clients/throughput.py.

    throughput.py sessions|columns|shared PATH CALLERS ITEMS SECONDS

Prints transfers a second, and CPU microseconds for each.
"""
import array
import asyncio
import itertools
import os
import sys
import threading
import time
from typing import Callable, List, Union

sys.path.insert(0, f"{os.path.dirname(os.path.abspath(__file__))}/src")

import tb_client as tb  # noqa: E402

WARM = 0.5  # seconds
Sales = Union[List[tb.Transfer], tb.TransferColumns]
FIRST = itertools.count(1)


def records(items: int) -> Sales:
    return [tb.Transfer(tb.id(), 1, 2, 1, ledger=700, code=10) for _ in range(items)]


def columns(items: int) -> Sales:
    first = time.monotonic_ns() + next(FIRST) * items
    return tb.TransferColumns(
        id=array.array("Q", range(first, first + items)),
        debit_account_id=1,
        credit_account_id=2,
        amount=array.array("Q", [1]) * items,
        ledger=700,
        code=10,
    )


def begun(path: str) -> tb.Session:
    session = tb.Session.register(tb.Socket(path, timeout=60.0))
    session.create_accounts([tb.Account(it, ledger=700, code=10) for it in (1, 2)])
    return session


def in_sessions(path: str, callers: int, sales: Callable[[], Sales], seconds: float) -> int:
    """The requests of so many sessions, each in a thread of its own."""
    counts = [0] * callers
    end = time.monotonic() + seconds

    def work(at: int, session: tb.Session) -> None:
        while time.monotonic() < end:
            tb.require_ok(session.create_transfers(sales()))
            counts[at] += 1

    threads = [
        threading.Thread(target=work, args=it)
        for it in enumerate([begun(path) for _ in range(callers)])
    ]
    for it in threads:
        it.start()
    for it in threads:
        it.join()
    return sum(counts)


async def shared(path: str, callers: int, sales: Callable[[], Sales], seconds: float) -> int:
    """The calls of so many tasks of one client."""
    begun(path)
    async with tb.ClientAsync(cluster_id=0, replica_addresses=path) as client:
        end = time.monotonic() + seconds

        async def work() -> int:
            for count in itertools.count():
                if time.monotonic() >= end:
                    return count
                for error in await client.create_transfers(sales()):
                    raise SystemExit(str(error))
            return 0

        return sum(await asyncio.gather(*[work() for _ in range(callers)]))


def run(kind: str, path: str, callers: int, items: int, seconds: float) -> int:
    sales = (lambda: columns(items)) if kind == "columns" else (lambda: records(items))
    if kind == "shared":
        return asyncio.run(shared(path, callers, sales, seconds))
    return in_sessions(path, callers, sales, seconds)


def main() -> None:
    kind, path, *numbers = sys.argv[1:]
    callers, items, seconds = map(int, numbers)
    run(kind, path, callers, items, WARM)
    began, used = time.monotonic(), time.process_time()
    transfers = items * run(kind, path, callers, items, seconds)
    used = time.process_time() - used
    print(transfers / (time.monotonic() - began), 1e6 * used / transfers)


if __name__ == "__main__":
    main()
