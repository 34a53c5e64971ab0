"""Histories made by hand for tests: entries, and the replies to them as whoever makes them says.

Balances are not tested here: whoever makes an event says whether it is refused."""

from tb_client import Reply
from tb_client.layout import RESULT_FORMAT
from telovamish.objects import TYPES
from telovamish.reader import Pair
from telovamish.streams import Entry, Head, Mark, item_bytes
from telovamish.words import ACCOUNT_FLAGS, KIND, OPERATIONS, RESULTS, TRANSFER_FLAGS

MAX = (1 << 128) - 1
START = 1_790_000_000_000_000_000  # in 2026


class Made:
    """A history, with times and timestamps that rise: `steps` are items with the replies to
    them."""

    def __init__(self, profile=1, clients_max=2, client=7, time=START):
        self.steps = [(Head(profile, clients_max), None)]
        self.commit, self.time, self.client = 0, time, client
        self.session, self.request = 0, 0

    def entry(self, operation, body=b"", results=b""):
        self.commit += 1
        pair = Pair(self.time, self.client, self.session, self.request, operation, body)
        session = self.session or self.commit
        code = OPERATIONS[operation]
        reply = Reply(self.client, session, self.request, code, 0, self.commit, results)
        self.steps.append((Entry(self.commit, self.time, pair), reply))
        return self

    def later(self, nanoseconds):
        self.time += nanoseconds
        return self

    def mark(self):
        self.steps.append((Mark(2), None))
        return self

    def register(self, client=None):
        self.client = client or self.client
        self.session, self.request, self.time = 0, 0, self.time + 1
        self.entry("register")
        self.session = self.commit
        return self

    def lookup(self, *ids):
        self.request, self.time = self.request + 1, self.time + 1
        return self.entry("lookup_accounts", b"".join(it.to_bytes(16, "little") for it in ids))

    def batch(self, operation, events):
        """A batch of events, each with its result."""
        self.request += 1
        self.time += max(1, len(events))
        codes = {name: code for code, name in RESULTS[operation].items()}
        body, results = b"", b""
        for place, event in enumerate(events):
            event = dict(event)
            result = event.pop("result", None)
            body += packed(operation, event)
            if result:
                code = codes[result] if result in codes else int(result)
                results += RESULT_FORMAT.pack(place, code)
        return self.entry(operation, body, results)

    def accounts(self, *events):
        return self.batch("create_accounts", events)

    def transfers(self, *events):
        return self.batch("create_transfers", events)

    @property
    def bytes(self):
        """The dump."""
        return b"".join(item_bytes(item) for item, _ in self.steps)

    @property
    def replies(self):
        """The bytes of all replies."""
        return b"".join(reply.to_bytes() for _, reply in self.steps if reply)


def packed(operation, event):
    """The bytes of an event."""
    kind = KIND[operation]
    names = ACCOUNT_FLAGS if kind == "account" else TRANSFER_FLAGS
    record = TYPES[kind].read(bytes(128))
    for name, value in event.items():
        value = sum(names[it] for it in value) if name == "flags" else value
        setattr(record, name, value)
    return record.to_bytes()


def account(id, ledger=700, code=10, flags=(), result=None, **user):
    event = {"id": id, "ledger": ledger, "code": code, "flags": flags, **user}
    return {**event, "result": result} if result else event


def transfer(
    id, debit, credit, amount, flags=(), pending=0, timeout=0, ledger=700, result=None, **user
):
    event = {
        "id": id,
        "debit_account_id": debit,
        "credit_account_id": credit,
        "amount": amount,
        "pending_id": pending,
        "timeout": timeout,
        "ledger": ledger,
        "code": 10,
        "flags": flags,
        **user,
    }
    return {**event, "result": result} if result else event
