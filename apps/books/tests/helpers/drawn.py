"""Drawn histories by the proved program, and a plain reading of them, against which answers are
compared."""

import io
import random
import subprocess

from telovamish.model import Event, Ledger
from telovamish.reader import Pair
from telovamish.records import Account, Transfer
from telovamish.streams import Entry, Head, read_dump, read_replies
from telovamish.words import ACCOUNT_FLAGS, SECOND, TRANSFER_FLAGS

from .made import MAX

F = TRANSFER_FLAGS
KINDS = [0] * 6 + [F["pending"]] * 6 + [F["post_pending_transfer"]] * 3
KINDS += [F["void_pending_transfer"]] * 3 + [F["balancing_debit"], F["balancing_credit"]]
KINDS += [F["pending"] | F["closing_debit"], F["pending"] | F["closing_credit"]]
AMOUNTS = [0, 1, 5, 10, 10, 50, 100, MAX // 2, MAX]


def record(kind, **fields):
    """The bytes of an account or a transfer."""
    it = kind.read(bytes(128))
    for name, value in fields.items():
        setattr(it, name, value)
    return it.to_bytes()


class Drawer:
    """Draws a script: registers, batches and lookups of some clients, in turn or with evictions."""

    def __init__(self, rng, clients_max):
        self.rng, self.clients_max = rng, clients_max
        self.pairs, self.rows = [], {}  # of each client: session, request, its last commit
        self.time = self.next = 0
        self.count = rng.choice([3, 6, 10])  # of accounts

    def send(self, client, operation, body=b""):
        session, request, _ = self.rows.get(client, (0, -1, 0))
        commit = len(self.pairs) + 1
        self.pairs.append(Pair(self.time, client, session, request + 1, operation, body))
        self.rows[client] = (session or commit, request + 1, commit)

    def client(self):
        """One with a session: a register in a full table ends the session of the least commit."""
        client = self.rng.choice([7, 8, 9, MAX])
        if client not in self.rows:
            if len(self.rows) == self.clients_max:
                del self.rows[min(self.rows, key=lambda it: self.rows[it][2])]
            self.send(client, "register")
        return client

    def user_data(self):
        some = self.rng.choice([0, 0, 1, 7])
        return {"user_data_128": some, "user_data_64": some, "user_data_32": some}

    def account(self, id):
        flags = self.rng.choice([0, 0, *ACCOUNT_FLAGS.values()]) & ~ACCOUNT_FLAGS["imported"]
        more = {"ledger": self.rng.choice([1, 1, 2]), "code": self.rng.choice([1, 2])}
        return record(
            Account, id=id, flags=flags & ~ACCOUNT_FLAGS["linked"], **more, **self.user_data()
        )

    def transfer(self):
        flags = self.rng.choice(KINDS) | (F["linked"] if self.rng.random() < 0.1 else 0)
        ends = flags & (F["post_pending_transfer"] | F["void_pending_transfer"])
        self.next += self.rng.random() < 0.9  # or an id again
        debit, credit = (self.rng.randint(1, self.count) for _ in range(2))
        fields = {
            "id": 100 + self.next,
            "flags": flags,
            "ledger": 1,
            "code": self.rng.choice([1, 2]),
        }
        fields["amount"] = MAX if ends and self.rng.random() < 0.7 else self.rng.choice(AMOUNTS)
        if ends:
            fields.update(pending_id=100 + self.rng.randint(1, max(1, self.next)), ledger=0, code=0)
        else:
            fields.update(debit_account_id=debit, credit_account_id=credit)
        if flags & F["pending"]:
            fields["timeout"] = self.rng.choice([0, 1, 5])
        return record(Transfer, **fields, **self.user_data())

    def script(self, batches):
        accounts = [self.account(it) for it in range(1, self.count + 1)]
        self.send_batch("create_accounts", accounts)
        for _ in range(batches):
            self.time += self.rng.choice([0, 1, SECOND, 3 * SECOND])
            if self.rng.random() < 0.1:
                ids = [self.rng.randint(1, self.count + 1) for _ in range(3)]
                self.send_batch("lookup_accounts", [it.to_bytes(16, "little") for it in ids])
            else:
                events = [self.transfer() for _ in range(self.rng.randint(1, 8))]
                self.send_batch("create_transfers", events)
        return b"".join(it.to_bytes() for it in self.pairs)

    def send_batch(self, operation, items):
        client = self.client()
        self.send(client, operation, b"".join(items))


def drawn(tbs, seed, batches=25):
    """The items of a drawn history, with the replies of `tbs replay`."""

    def ran(*words, given):
        words = [str(tbs), *map(str, words)]
        return subprocess.run(words, input=given, stdout=subprocess.PIPE, check=True).stdout

    rng = random.Random(seed)
    clients_max = rng.choice([1, 2, 3, 64])
    script = Drawer(rng, clients_max).script(batches)
    mark = [rng.randint(1, 20)] if rng.random() < 0.5 else []
    dump = ran("dump", clients_max, *mark, given=script)
    replies = read_replies(io.BytesIO(ran("replay", given=dump)))
    return [
        (item, next(replies) if isinstance(item, Entry) else None)
        for item in read_dump(io.BytesIO(dump))
    ]


SUMS = ("debits_pending", "debits_posted", "credits_pending", "credits_posted")


def sums_of_ledgers(accounts):
    """The number of each ledger, how many accounts it has, and their four sums."""
    found = {}
    for it in accounts:
        before = found.get(it.ledger, [it.ledger, 0, 0, 0, 0, 0])
        sums = [0, 1, *(getattr(it, name) for name in SUMS)]
        found[it.ledger] = [one + other for one, other in zip(before, sums)]
    return [found[it] for it in sorted(found)]


class Plain:
    """A history as lists: accounts, transfers, the sums after each transfer, and those of each
    ledger after each entry, by its time."""

    def __init__(self, steps):
        self.transfers, self.trials, self.balances = [], {}, []
        ledger = Ledger(1)
        for item, reply in steps:
            if isinstance(item, Head):
                ledger = Ledger(item.clients_max)
            elif reply is not None:
                for fact in ledger.enter(item, reply):
                    if isinstance(fact, Event) and not fact.result:
                        self.enter(ledger, fact.record)
                self.trials[item.time] = sums_of_ledgers(ledger.accounts.values())
        self.accounts = sorted(ledger.accounts.values(), key=lambda it: it.timestamp)
        self.history = {it.id for it in self.accounts if it.flags & 8}

    def enter(self, ledger, record):
        if isinstance(record, Account):
            return
        self.transfers.append(Transfer.read(record.to_bytes()))
        for id in (record.debit_account_id, record.credit_account_id):
            it = ledger.accounts[id]
            sums = it.debits_pending, it.debits_posted, it.credits_pending, it.credits_posted
            self.balances.append((id, record.timestamp, *sums))

    def chosen(self, records, wanted, sides=None):
        """The records that a filter takes, in its order."""
        first, last = wanted["timestamp_min"], wanted["timestamp_max"] or 2**63 - 1
        names = [it for it in wanted if it.startswith("user_data") or it in ("code", "ledger")]
        found = [
            it
            for it in records
            if first <= it.timestamp <= last
            and all(wanted[name] in (0, getattr(it, name)) for name in names)
            and (sides is None or sides(it))
        ]
        is_reversed = wanted["flags"] & (4 if sides else 1)
        return (found[::-1] if is_reversed else found)[: min(wanted["limit"], 8190)]
