"""A small ledger of a shop for the browser tests and the pictures: thirty days of sales, refunds,
payouts and card holds, among them values of 128 bits."""

import random

from .made import MAX, Made, account, transfer

DAY = 86400 * 10**9
BANK, SALES, FEES, HOLDS = 1, 2, 3, 4
GREAT = MAX - 1


def id_at(time, rng):
    """An id as the clients make them: milliseconds, then random bits."""
    return time // 10**6 << 80 | rng.getrandbits(80)


def sample(days=30, seed=4):
    rng = random.Random(seed)
    audit = Made(clients_max=3, client=0xC0FFEE, time=1_790_000_000_000_000_000).register()
    customers = [id_at(audit.time + it * 10**9, rng) for it in range(12)]
    audit.accounts(
        account(BANK, code=1, flags=["credits_must_not_exceed_debits"], user_data_32=840),
        account(SALES, code=2),
        account(FEES, code=3),
        account(HOLDS, code=4, flags=["history"]),
        *(account(it, code=100, flags=["debits_must_not_exceed_credits"]) for it in customers),
        account(BANK, result="exists"),
    )
    audit.accounts(
        account(GREAT, ledger=978, user_data_128=MAX, user_data_64=(1 << 64) - 1),
        account(GREAT - 1, ledger=978, flags=["closed"], user_data_32=(1 << 32) - 1),
        account(GREAT - 2, ledger=978),
    )
    audit.transfers(transfer(GREAT, GREAT, GREAT - 2, MAX - 10**30, ledger=978))
    for it in customers:
        audit.later(10**9).transfers(transfer(id_at(audit.time, rng), BANK, it, 500_000))
    holds = []
    for day in range(days):
        for _ in range(rng.randint(3, 12)):
            audit.later(rng.randint(DAY // 30, DAY // 10))
            audit.transfers(*events(rng, audit, customers, holds))
        if day % 9 == 8:
            audit.register(0xBEEF00 + day)
    return audit


def events(rng, audit, customers, holds):
    """Some events of one request."""
    found = []
    for _ in range(rng.randint(1, 4)):
        id, one, price = id_at(audit.time, rng), rng.choice(customers), rng.randint(199, 25_000)
        kind = rng.random()
        if kind < 0.5:
            found += [transfer(id, one, SALES, price), transfer(id + 1, SALES, FEES, price // 50)]
        elif kind < 0.6:
            found.append(transfer(id, SALES, one, price // 2))
        elif kind < 0.72:
            timeout = rng.choice([7 * 86400, 30 * 86400, 0])
            found.append(transfer(id, one, HOLDS, price, ["pending"], timeout=timeout))
            ends = audit.time + timeout * 10**9 if timeout else MAX
            holds.append((id, one, price, ends))
        elif kind < 0.82 and any(it[3] > audit.time + DAY for it in holds):
            open_ones = [it for it in holds if it[3] > audit.time + DAY]
            held, of, amount, _ = open_ones[0]
            holds.remove(open_ones[0])
            flag = rng.choice(["post_pending_transfer", "void_pending_transfer"])
            found.append(transfer(id, of, HOLDS, amount, [flag], held))
        elif kind < 0.9:
            found.append(transfer(id, BANK, one, 100 * price))
        else:
            reason = rng.choice(["exceeds_credits", "exceeds_credits", "exists", "exceeds_debits"])
            found.append(transfer(id, one, SALES, 10**9, result=reason))
    return found
