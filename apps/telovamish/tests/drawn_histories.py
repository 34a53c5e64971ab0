"""Draws scripts of some hundred events that reach the rules of the ledger."""
from __future__ import annotations

import random

from telovamish.reader import Pair
from telovamish.words import ACCOUNT, AMOUNT_MAX, SECOND, TIME_MAX, TRANSFER, TRANSFER_FLAGS, U32

CLIENTS = (7, 8, 9, 2**128 - 1)
F = TRANSFER_FLAGS
POST, VOID = F["post_pending_transfer"], F["void_pending_transfer"]
# What a post or void may name of its pending transfer.
TERMS = ("debit_account_id", "credit_account_id", "amount")
# the flags of a transfer, each with its weight
KINDS = {
    0: 30,
    F["pending"]: 34,
    POST: 16,
    VOID: 14,
    F["balancing_debit"]: 5,
    F["balancing_credit"]: 5,
    F["balancing_debit"] | F["balancing_credit"]: 4,
    F["pending"] | F["balancing_debit"]: 3,
    F["pending"] | F["balancing_credit"]: 3,
    F["pending"] | F["closing_debit"]: 3,
    F["pending"] | F["closing_credit"]: 3,
    F["pending"] | F["closing_debit"] | F["closing_credit"]: 2,
    F["closing_debit"]: 1,
    POST | VOID: 1,
    F["imported"]: 1,
}
AMOUNTS = [0, 1, 5, 10, 10, 20, 50, 100, AMOUNT_MAX, AMOUNT_MAX // 2]
Layout = dict[str, tuple[int, int]]


def packed(layout: Layout, numbers: dict[str, int]) -> bytes:
    record = bytearray(128)
    for name, number in numbers.items():
        at, size = layout[name]
        record[at : at + size] = number.to_bytes(size, "little")
    return bytes(record)


class Drawer:
    """Draws one script. It knows sessions, and which ids it has sent, but no result."""

    def __init__(self, seed: random.Random, clients_max: int, events: int = 300) -> None:
        self.seed, self.clients_max, self.left = seed, clients_max, events
        self.pairs: list[Pair] = []
        self.rows: dict[int, Pair] = {}  # the last request of each client that has a session
        self.commits: dict[int, int] = {}  # and its commit
        self.commit = 0
        self.is_late = seed.random() < 0.15
        self.at = TIME_MAX - 500 * SECOND if self.is_late else 0
        self.pending: list[int] = []
        self.terms: dict[int, dict[str, int]] = {}
        self.accounts = seed.choice([3, 6, 10])
        self.next = 1
        self.is_even = seed.random() < 0.3  # one event in each whole second, so that expiries meet
        self.sent: list[bytes] = []
        self.falls = seed.random() < 0.5  # ids fall, so that their order is not that of time

    def id_of(self, number: int) -> int:
        return 2**127 - number if self.falls else number

    def odd(self, layout: Layout) -> dict[str, int]:
        """An odd number in one field."""
        name = self.seed.choice([*layout])
        return {name: self.seed.choice([0, 1, 2, 2 ** (8 * layout[name][1]) - 1])}

    def account(self) -> bytes:
        seed = self.seed
        ledger, is_new = 2 if seed.random() < 0.1 else 1, seed.random() < 0.4
        id = seed.randrange(2**64, 2**65) if is_new else seed.randrange(1, self.accounts + 3)
        numbers = {"id": id, "ledger": ledger, "code": 1}
        if seed.random() < 0.4:
            numbers["flags"] = seed.choice([0, 0, 0, 0, 2, 4, 8, 32, 6, 1, 16, 64])
        if seed.random() < (0.6 if is_new else 0.25):
            numbers |= self.odd(ACCOUNT)
        return packed(ACCOUNT, numbers)

    def transfer(self) -> bytes:
        seed = self.seed
        if self.sent and seed.random() < 0.06:
            return self.sent_again()
        flags = seed.choices([*KINDS], [*KINDS.values()])[0]
        flags |= F["linked"] if seed.random() < 0.15 else 0
        id = seed.randrange(1, self.next + 1) if seed.random() < 0.1 else self.next
        self.next = max(self.next, id + 1)
        amount = seed.choice(AMOUNTS) if seed.random() < 0.9 else AMOUNT_MAX - 100
        numbers = {"id": self.id_of(id), "amount": amount, "flags": flags}
        if flags & (POST | VOID):
            numbers |= self.resolving(flags)
        if not flags & (POST | VOID) or seed.random() < 0.1:
            debit, credit = seed.sample(range(1, self.accounts + 3), 2)
            numbers |= {"debit_account_id": debit, "credit_account_id": credit}
            if seed.random() < 0.05:
                numbers["credit_account_id"] = debit
            numbers["ledger"] = numbers["code"] = 1
        if flags & F["pending"]:
            self.pending.append(id)
            self.terms[id] = {it: numbers.get(it, 0) for it in TERMS}
            numbers["timeout"] = seed.choice([0, 1, 2, 3, 5, 10, 20, 100, 5, 1000 * self.is_late])
        if seed.random() < 0.15:
            numbers |= self.odd(TRANSFER)
        self.sent.append(packed(TRANSFER, numbers))
        return self.sent[-1]

    def resolving(self, flags: int) -> dict[str, int]:
        """The pending transfer that a post or void names, and its amount."""
        seed, numbers = self.seed, {}
        many = self.pending[-12:] if seed.random() < 0.8 else self.pending
        chosen = seed.choice(many or [1])
        if seed.random() < 0.05:
            chosen = seed.randrange(1, self.next + 1)
        if chosen in self.pending and seed.random() < 0.7:
            self.pending.remove(chosen)
        if flags & VOID:
            numbers["amount"] = seed.choice([0, 0, 0, 10])
        elif seed.random() < 0.5:
            numbers["amount"] = seed.choice([AMOUNT_MAX, 0, 1, 5])
        if chosen in self.terms and seed.random() < 0.2:
            numbers |= self.terms[chosen]
        return {**numbers, "pending_id": self.id_of(chosen)}

    def sent_again(self) -> bytes:
        """A transfer that was sent, mostly with another value of a field."""
        record = bytearray(self.seed.choice(self.sent))
        name = self.seed.choice([*TRANSFER][1:12])
        at, size = TRANSFER[name]
        if self.seed.random() < 0.8:
            number = 2 if name in ("ledger", "code") else self.seed.choice([1, 10])
            record[at : at + size] = number.to_bytes(size, "little")
        return bytes(record)

    def moment(self) -> int:
        seed = self.seed
        if self.is_even and not self.is_late:
            self.at += seed.choice([1, 1, 1, 2, 5]) * SECOND
            return self.at
        if seed.random() < 0.2:
            return 0
        self.at += seed.choice([0, 0, 1, 1, 100, SECOND, SECOND, SECOND])
        self.at += 0 if self.is_late or seed.random() < 0.97 else 20 * SECOND
        return self.at

    def send(self, client: int, operation: str, body: bytes) -> None:
        """A request that is new, by a client that is registered first if it has no session."""
        if client not in self.rows:
            if len(self.rows) >= self.clients_max:
                del self.rows[min(self.rows, key=self.commits.__getitem__)]
            self.enter(Pair(self.moment(), client, 0, 0, "register", b""))
            session = self.commit
        else:
            session = self.rows[client].session or self.commits[client]
        number = self.rows[client].request + 1
        self.enter(Pair(self.moment(), client, session, number, operation, body))

    def enter(self, pair: Pair) -> None:
        self.commit += 1
        self.pairs.append(pair)
        self.rows[pair.client], self.commits[pair.client] = pair, self.commit

    def refused(self) -> Pair:
        """A request that changes nothing: a repeat, or one that is refused."""
        seed, client = self.seed, self.seed.choice([*self.rows])
        last = self.rows[client]
        session = last.session or self.commits[client]
        free = [it for it in CLIENTS if it not in self.rows]
        asked = Pair(self.at, client, session, max(1, last.request), "lookup_accounts", b"")
        return seed.choice(
            [
                last,
                asked._replace(session=session + 1),
                asked._replace(session=session - 1),
                asked._replace(request=max(1, last.request - 1)),
                asked._replace(body=bytes(16)),
                asked._replace(request=last.request + 2),
                asked._replace(request=U32),
                asked._replace(client=free[0] if free else client, request=U32),
            ]
        )

    def script(self) -> list[Pair]:
        seed, ids = self.seed, range(1, self.accounts + 1)
        flags = [seed.choice([0, 0, 2, 4, 8]) for _ in ids]
        accounts = [{"id": id, "ledger": 1, "code": 1, "flags": it} for id, it in zip(ids, flags)]
        self.send(7, "create_accounts", b"".join(packed(ACCOUNT, it) for it in accounts))
        while self.left > 0:
            client = seed.choice(CLIENTS[: seed.choice([1, 2, 4])])
            count = 1 if self.is_even else seed.choice([0, 1, 1, 2, 3, 8, 20])
            self.left -= count
            if seed.random() < 0.12:
                body = b"".join(self.account() for _ in range(count))
                self.send(client, "create_accounts", body)
            else:
                body = b"".join(self.transfer() for _ in range(count))
                self.send(client, "create_transfers", body)
            if seed.random() < 0.2:
                self.pairs.append(self.refused())
            if seed.random() < 0.4:
                self.look_up(client)
        self.look_up(client)
        return self.pairs

    def look_up(self, client: int) -> None:
        """All ids, one that is absent, and one again."""
        accounts = [*range(1, self.accounts + 4), 1]
        transfers = [self.id_of(it) for it in [*range(1, self.next + 1), 1]]
        for operation, ids in (("lookup_accounts", accounts), ("lookup_transfers", transfers)):
            self.send(client, operation, b"".join(it.to_bytes(16, "little") for it in ids))
