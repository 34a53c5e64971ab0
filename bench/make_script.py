#!/usr/bin/env python3
"""Writes a script of request frames to standard output: make_script.py WORKLOAD SIZE SEED.

rising    batches of 8190 transfers with rising ids
random    the same with random ids
zipf      the same with rising ids, where few accounts have most transfers
pending   pending transfers, then their posts and voids, batch by batch
resolving pending transfers, then posts and voids of all of them in a random order
chains    chains of 5, each tenth broken
expiring  pending transfers that expire as moments go on
single    requests of one transfer by 60 clients between 1,000 accounts, each tenth repeated
lookups   batches of 8190 ids of accounts and of transfers by turns, among as many of each
mixed     small batches of everything between 12 accounts, right and wrong, for comparing replies
various   the same between all accounts, in batches of 1 to 2,000, by 70 clients in 64 sessions

Transfers go between 10,000 accounts (--accounts N), which come first.
"""
import argparse
import bisect
import itertools
import random
import struct
import sys

WORKLOADS = (
    "rising random zipf pending resolving chains expiring single lookups mixed various".split()
)
parser = argparse.ArgumentParser(
    description=__doc__, formatter_class=argparse.RawDescriptionHelpFormatter
)
parser.add_argument("workload", metavar="WORKLOAD", choices=WORKLOADS, help=", ".join(WORKLOADS))
parser.add_argument("size", metavar="SIZE", type=int, help="how many events")
parser.add_argument("seed", metavar="SEED", type=int, help="of its random numbers")
parser.add_argument("--accounts", metavar="N", type=int, default=10000, help="accounts (10000)")
given = parser.parse_args()
if given.size < 0 or given.accounts < 2:
    parser.error("SIZE is from 0 on, and there are two accounts at least")
workload, size, many = given.workload, given.size, given.accounts
rng = random.Random(given.seed)
out = sys.stdout.buffer
MAX = (1 << 128) - 1


def u128(n):
    return n.to_bytes(16, "little")


def account(id, flags=0, ledger=700, code=10, **more):
    m = more.get
    return (
        u128(id)
        + b"".join(u128(m(k, 0)) for k in ("dpe", "dpo", "cpe", "cpo", "user128"))
        + struct.pack(
            "<QIIIHHQ",
            m("user64", 0),
            m("user32", 0),
            m("reserved", 0),
            ledger,
            code,
            flags,
            m("timestamp", 0),
        )
    )


def transfer(id, debit, credit, amount, flags=0, pending=0, timeout=0, ledger=700, code=10, **more):
    m = more.get
    return (
        u128(id)
        + u128(debit)
        + u128(credit)
        + u128(amount)
        + u128(pending)
        + u128(m("user128", 0))
        + struct.pack(
            "<QIIIHHQ",
            m("user64", 0),
            m("user32", 0),
            timeout,
            ledger,
            code,
            flags,
            m("timestamp", 0),
        )
    )


class Client:
    def __init__(self, id):
        self.id, self.session, self.number = id, 0, 0

    def frame(self, session, number, operation, items):
        body = b"".join(items)
        return (
            u128(self.id) + struct.pack("<QIB3xI12x", session, number, operation, len(body)) + body
        )


commit = 0
now = 1


def send(data, moment=None):
    out.write(struct.pack("<Q", now if moment is None else moment) + data)


def register(c):
    global commit
    commit += 1
    c.session, c.number = commit, 0
    send(c.frame(0, 0, 2, []))


def request(c, operation, items):
    global commit
    commit += 1
    c.number += 1
    data = c.frame(c.session, c.number, operation, items)
    send(data)
    return data


def accounts_for(c, n):
    rest = account(0)[16:]
    for first in range(1, n + 1, 8190):
        request(c, 129, [u128(i) + rest for i in range(first, min(n, first + 8189) + 1)])


def two(n):
    d = rng.randint(1, n)
    c = rng.randint(1, n - 1)
    return d, c if c < d else c + 1


def zipf_pairs():
    """Draws two accounts, the nth of which is drawn in proportion to 1 / n; which account is the
    nth is drawn too, so that those that are drawn often lie anywhere."""
    places = [*range(1, many + 1)]
    rng.shuffle(places)
    sums = [*itertools.accumulate(1 / n for n in range(1, many + 1))]

    def draw(_):
        d = c = places[bisect.bisect_left(sums, rng.random() * sums[-1])]
        while c == d:
            c = places[bisect.bisect_left(sums, rng.random() * sums[-1])]
        return d, c

    return draw


def bulk(ids, pairs=two):
    c = Client(7)
    register(c)
    accounts_for(c, many)
    for first in range(0, size, 8190):
        events = []
        for i in range(first, min(size, first + 8190)):
            d, k = pairs(many)
            events.append(transfer(ids(i), d, k, rng.randint(1, 1000)))
        request(c, 130, events)


def resolving():
    c = Client(7)
    register(c)
    accounts_for(c, many)
    count = size // 2
    for first in range(0, count, 8190):
        ids = range(1000000 + first, 1000000 + min(count, first + 8190))
        request(c, 130, [transfer(id, *two(many), 100, flags=2) for id in ids])
    order = [*range(1000000, 1000000 + count)]
    rng.shuffle(order)
    for first in range(0, count, 8190):
        events = [
            transfer(10**9 + id, 0, 0, *how, pending=id, ledger=0, code=0)
            for id in order[first : first + 8190]
            for how in [(MAX, 4) if rng.random() < 0.7 else (0, 8)]
        ]
        request(c, 130, events)


def pending():
    c = Client(7)
    register(c)
    accounts_for(c, many)
    for first in range(0, size // 2, 4095):
        n = min(size // 2, first + 4095) - first
        request(
            c,
            130,
            [
                transfer(1000000 + first + i, *two(many), rng.randint(1, 1000), flags=2)
                for i in range(n)
            ],
        )
        events = []
        for i in range(n):
            post = rng.random() < 0.7
            events.append(
                transfer(
                    10**9 + first + i,
                    0,
                    0,
                    MAX if post else 0,
                    flags=4 if post else 8,
                    pending=1000000 + first + i,
                    ledger=0,
                    code=0,
                )
            )
        request(c, 130, events)


def chains():
    c = Client(7)
    register(c)
    accounts_for(c, many)
    absent = max(99999, many + 1)
    for first in range(0, size, 8190):
        n = min(size, first + 8190) - first
        events = []
        for i in range(n):
            d, k = two(many)
            broken = (i // 5) % 10 == 9 and i % 5 == 3
            linked = i % 5 != 4 and i + 1 < n
            events.append(
                transfer(
                    1000000 + first + i, absent if broken else d, k, 1, flags=1 if linked else 0
                )
            )
        request(c, 130, events)


def expiring():
    global now
    c = Client(7)
    register(c)
    accounts_for(c, many)
    for first in range(0, size, 819):
        n = min(size, first + 819) - first
        request(
            c,
            130,
            [
                transfer(1000000 + first + i, *two(many), 5, flags=2, timeout=rng.randint(1, 5))
                for i in range(n)
            ],
        )
        now += 10**9


def single():
    clients = [Client(100 + i) for i in range(60)]
    for c in clients:
        register(c)
    accounts_for(clients[0], 1000)
    for i in range(size):
        data = request(clients[i % 60], 130, [transfer(1000000 + i, *two(1000), 1)])
        if i % 10 == 0:
            send(data)


def lookups():
    c = Client(7)
    register(c)
    accounts_for(c, many)
    for first in range(0, many, 5000):
        ids = range(1000000 + first, 1000000 + min(many, first + 5000))
        request(c, 130, [transfer(id, *two(many), 1) for id in ids])
    for turn, first in enumerate(range(0, size, 8190)):
        n = min(size, first + 8190) - first
        if turn % 2 == 0:
            request(c, 131, [u128(rng.randint(1, many)) for _ in range(n)])
        else:
            request(c, 132, [u128(1000000 + rng.randrange(many)) for _ in range(n)])


def mixed():
    global now, commit
    clients = [Client(7), Client(8), Client(9)]
    for c in clients:
        register(c)
    few = 12

    def any_account():
        return account(
            rng.choice([0, MAX] + list(range(1, few)) * 3),
            flags=rng.choice([0, 0, 0, 1, 1, 2, 4, 6, 8, 16, 32, 64]),
            ledger=rng.choice([700] * 8 + [701, 0]),
            code=rng.choice([10] * 12 + [0, 11]),
            user128=rng.choice([0] * 9 + [1]),
            user64=rng.choice([0] * 9 + [1]),
            user32=rng.choice([0] * 9 + [1]),
            reserved=rng.choice([0] * 15 + [1]),
            timestamp=rng.choice([0] * 15 + [1]),
            dpe=rng.choice([0] * 15 + [1]),
            cpo=rng.choice([0] * 15 + [1]),
        )

    def any_transfer():
        kind = rng.choice(
            [0, 0, 0, 2, 2, 2, 4, 4, 8, 8, 16, 32, 48, 18, 66, 130, 194, 12, 6, 64, 256, 80]
        )
        id = rng.choice([0, MAX] + list(range(1, 80)))
        pending = rng.randint(1, 80) if kind & 12 else rng.choice([0] * 15 + [1])
        amount = (
            rng.choice([0, MAX, 5, 10, 10, 40, 100])
            if kind & 12
            else rng.choice([0, 1, 5, 10, 10, 40, 100, MAX, 1 << 127])
        )
        if kind & 12 and rng.random() < 0.8:
            d = c = ledger = code = 0
        else:
            d, c = rng.randint(0, few), rng.randint(0, few)
            ledger, code = rng.choice([700] * 10 + [701, 0]), rng.choice([10] * 15 + [0, 11])
        return transfer(
            id,
            d,
            c,
            amount,
            flags=kind | (1 if rng.random() < 0.25 else 0),
            pending=pending,
            timeout=rng.choice([0, 1, 2, 4294967295]) if kind & 2 or rng.random() < 0.03 else 0,
            ledger=ledger,
            code=code,
            user128=rng.choice([0] * 9 + [1]),
            user64=rng.choice([0] * 9 + [1]),
            timestamp=rng.choice([0] * 30 + [1]),
        )

    last = {}
    for step in range(size):
        c = rng.choice(clients)
        what = rng.random()
        if what < 0.05 and c.id in last:
            send(last[c.id])
        elif what < 0.08:
            send(
                c.frame(
                    rng.choice([0, c.session, c.session + 1]),
                    rng.randint(1, c.number + 3),
                    131,
                    [u128(1)],
                )
            )
            continue
        elif what < 0.2:
            last[c.id] = request(c, 129, [any_account() for _ in range(rng.randint(0, 6))])
        elif what < 0.7:
            last[c.id] = request(c, 130, [any_transfer() for _ in range(rng.randint(0, 12))])
        elif what < 0.85:
            last[c.id] = request(
                c, 131, [u128(rng.randint(0, few + 1)) for _ in range(rng.randint(0, 15))]
            )
        else:
            last[c.id] = request(
                c, 132, [u128(rng.randint(0, 82)) for _ in range(rng.randint(0, 40))]
            )
        now += rng.choice([0, 0, 1, 10, 10**9, 2 * 10**9])
        if rng.random() < 0.001:
            now += 1 << 40


class Various:
    """Draws accounts, transfers and ids of all kinds. Ids of transfers rise, are random, or were
    used before; posts and voids name any pending transfer so far."""

    KINDS = [0] * 6 + [2] * 4 + [4, 8] * 3 + [16, 32, 48, 18, 66, 130, 194, 12, 6, 64, 256, 80]

    def __init__(self):
        self.next, self.used, self.open = 10**9, [1], [1]

    def account(self, id):
        flags = rng.choice([0] * 40 + [1, 2, 4, 8, 6, 32, 16])
        return account(
            id,
            flags=flags,
            ledger=rng.choice([700] * 60 + [701, 0]),
            code=rng.choice([10] * 60 + [0]),
            user64=rng.choice([0] * 9 + [1]),
        )

    def id(self):
        how = rng.random()
        if how < 0.04:
            return rng.choice(self.used)
        self.next += 1
        self.used.append(self.next if how < 0.7 else rng.getrandbits(127) + 1)
        return self.used[-1]

    def transfer(self):
        kind, id = rng.choice(self.KINDS), self.id()
        if kind & 2:
            self.open.append(id)
        d, c = two(many)
        ledger, code, amount = 700, 10, rng.choice([1, 5, 10, 100, 1000, MAX])
        if kind & 12 and rng.random() < 0.9:
            d = c = ledger = code = 0
            amount = (MAX if kind & 4 else 0) if rng.random() < 0.8 else amount
        return transfer(
            id,
            d,
            c,
            amount,
            flags=kind | (1 if rng.random() < 0.1 else 0),
            pending=rng.choice(self.open) if kind & 12 else 0,
            timeout=rng.choice([0, 0, 1, 3, 4294967295]) if kind & 2 else 0,
            ledger=ledger,
            code=code,
            user128=rng.choice([0] * 9 + [1]),
        )


def various():
    global now
    draw, clients, commits = Various(), [Client(500 + i) for i in range(70)], {}

    def ready():
        """A client that has a session: of 64 sessions the one with the least commit is evicted."""
        c = rng.choice(clients)
        if c.id not in commits:
            register(c)
            if len(commits) == 64:
                del commits[min(commits, key=commits.get)]
        commits[c.id] = commit + 1
        return c

    def some(make, *most):
        return [make() for _ in range(min(rng.randint(1, rng.choice(most)), size))]

    for first in range(1, many + 1, 8190):
        request(ready(), 129, [*map(draw.account, range(first, min(many, first + 8189) + 1))])
    left = size
    while left > 0:
        what, c = rng.random(), ready()
        if what < 0.6:
            items = some(draw.transfer, 1, 20, 2000)
            last = request(c, 130, items)
        elif what < 0.7:
            items = some(lambda: draw.account(rng.randint(1, many + many // 10)), 1, 20)
            last = request(c, 129, items)
        elif what < 0.85:
            items = some(lambda: u128(rng.randint(1, many + 9)), 1, 20, 2000)
            last = request(c, 131, items)
        else:
            items = some(lambda: u128(rng.choice(draw.used)), 1, 20, 2000)
            last = request(c, 132, items)
        if rng.random() < 0.05:
            send(last)
        left -= len(items)
        now += rng.choice([0, 0, 1, 10**9, 2 * 10**9])


{
    "rising": lambda: bulk(lambda i: 1000000 + i),
    "random": lambda: bulk(lambda i: rng.getrandbits(127) + 1),
    "zipf": lambda: bulk(lambda i: 1000000 + i, zipf_pairs()),
    "pending": pending,
    "resolving": resolving,
    "chains": chains,
    "expiring": expiring,
    "single": single,
    "lookups": lookups,
    "mixed": mixed,
    "various": various,
}[workload]()
