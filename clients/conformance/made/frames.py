"""Frames, records and steps of scenarios. The encoder is the kit's own: no client's."""
import json
import os
import struct

TOP = os.path.dirname(os.path.dirname(os.path.dirname(os.path.dirname(os.path.abspath(__file__)))))
with open(os.path.join(TOP, "tools", "ledger.json"), encoding="utf-8") as it:
    TABLE = json.load(it)

REGISTER, ACCOUNTS, TRANSFERS, FIND_ACCOUNTS, FIND_TRANSFERS = 2, 129, 130, 131, 132
NAMES = {
    REGISTER: "register",
    ACCOUNTS: "create_accounts",
    TRANSFERS: "create_transfers",
    FIND_ACCOUNTS: "lookup_accounts",
    FIND_TRANSFERS: "lookup_transfers",
}
U16, U32, U64, U128 = (2**bits - 1 for bits in (16, 32, 64, 128))
CLIENT = 7

ACCOUNT_FIELDS = (
    "id",
    "debits_pending",
    "debits_posted",
    "credits_pending",
    "credits_posted",
    "user_data_128",
    "user_data_64",
    "user_data_32",
    "reserved",
    "ledger",
    "code",
    "flags",
    "timestamp",
)
TRANSFER_FIELDS = (
    "id",
    "debit_account_id",
    "credit_account_id",
    "amount",
    "pending_id",
    "user_data_128",
    "user_data_64",
    "user_data_32",
    "timeout",
    "ledger",
    "code",
    "flags",
    "timestamp",
)
MOST = (U128,) * 6 + (U64, U32, U32, U32, U16, U16, U64)
LATER = [row["name"] for row in TABLE["told"] if row.get("later")]  # Busy, and shares
ACCOUNT_FLAGS = {row["name"]: row["bit"] for row in TABLE["account_flags"]}
TRANSFER_FLAGS = {row["name"]: row["bit"] for row in TABLE["transfer_flags"]}
ACCOUNT_CODES = {row["name"]: row["code"] for row in TABLE["account_results"]}
TRANSFER_CODES = {row["name"]: row["code"] for row in TABLE["transfer_results"]}


# Frames


def u128(number):
    return number.to_bytes(16, "little")


def request(number, operation, body=b"", session=1, client=CLIENT):
    """The frame of a request."""
    return u128(client) + struct.pack("<QIB3xI12x", session, number, operation, len(body)) + body


def registers(client=CLIENT):
    return request(0, REGISTER, session=0, client=client)


def reply(
    number,
    operation,
    body=b"",
    session=1,
    client=CLIENT,
    status=0,
    commit=None,
    length=None,
    zeros=b"\0\0",
    more=b"\0\0\0\0",
):
    """The frame of a reply, with anything that may be wrong in it."""
    commit = (
        (0 if status else session + number if operation != REGISTER else session)
        if commit is None
        else commit
    )
    length = len(body) if length is None else length
    numbers = struct.pack("<QIBB", session, number, operation, status)
    return u128(client) + numbers + zeros + struct.pack("<IQ", length, commit) + more + body


def registered(session=1, client=CLIENT):
    return reply(0, REGISTER, session=session, client=client)


def refusal(number, operation, status, session=1, client=CLIENT):
    return reply(number, operation, session=session, client=client, status=status)


def results(*rows):
    """The body of a reply to a create: pairs of index and code."""
    return b"".join(struct.pack("<II", *row) for row in rows)


def told(name):
    return f"text:tb_listen: {name}\n"


# Records, as bytes and as JSON


def flags_number(names, given):
    return sum(names[it] for it in given) if isinstance(given, list) else int(given)


def record_bytes(fields, names, given):
    values = [
        flags_number(names, given.get(it, 0)) if it == "flags" else int(given.get(it, 0))
        for it in fields
    ]
    return b"".join(map(u128, values[:6])) + struct.pack("<QIIIHHQ", *values[6:])


def account_bytes(given):
    return record_bytes(ACCOUNT_FIELDS, ACCOUNT_FLAGS, given)


def transfer_bytes(given):
    return record_bytes(TRANSFER_FIELDS, TRANSFER_FLAGS, given)


def ids_bytes(ids):
    return b"".join(u128(int(it)) for it in ids)


def account(id, **fields):
    """An account as a call has it."""
    return {
        "id": str(id),
        "ledger": "700",
        "code": "10",
        **{name: text(it) for name, it in fields.items()},
    }


def transfer(id, amount=100, **fields):
    both = {"debit_account_id": "1", "credit_account_id": "2"}
    rest = {"ledger": "700", "code": "10", **{name: text(it) for name, it in fields.items()}}
    return {"id": str(id), **both, "amount": text(amount), **rest}


def text(value):
    return str(value) if isinstance(value, int) else value


def whole(fields, given):
    """A record as an answer has it: with all fields."""
    return {name: given.get(name, [] if name == "flags" else "0") for name in fields}


def whole_account(given):
    return whole(ACCOUNT_FIELDS, given)


def whole_transfer(given):
    return whole(TRANSFER_FIELDS, given)


BODIES = {
    REGISTER: lambda items: b"",
    ACCOUNTS: lambda items: b"".join(map(account_bytes, items)),
    TRANSFERS: lambda items: b"".join(map(transfer_bytes, items)),
    FIND_ACCOUNTS: ids_bytes,
    FIND_TRANSFERS: ids_bytes,
}
SOME = {
    ACCOUNTS: [account(1), account(2)],
    TRANSFERS: [transfer(11)],
    FIND_ACCOUNTS: ["1", "2"],
    FIND_TRANSFERS: ["11"],
}
NOTHING = {
    ACCOUNTS: {"results": []},
    TRANSFERS: {"results": []},
    FIND_ACCOUNTS: {"records": []},
    FIND_TRANSFERS: {"records": []},
}


# Steps


# Seconds for one sending: never reached, and reached by its scenario.
LONG, SHORT = 86400.0, 0.3


def connect(name="t", servers=("a",), timeout=LONG, tls=None):
    call = {
        "do": "connect",
        "transport": name,
        "addresses": [{"address": it} for it in servers],
        "timeout": timeout,
    }
    return {"call": {**call, "tls": tls} if tls else call}


def begins(attempts=2, pause=0.01, timeout=LONG, servers=("a",)):
    """The steps after which client 7 has session 1, over connection c. A pause of None is the
    client's own."""
    call = {
        "do": "register",
        "session": "s",
        "transport": "t",
        "client": str(CLIENT),
        "attempts": attempts,
        **({} if pause is None else {"pause": pause}),
    }
    server = [{"accept": "c"}, {"read": registers().hex()}, {"send": registered().hex()}]
    return [
        connect(timeout=timeout, servers=servers),
        {"call": call, "server": server, "wants": {"ok": {"client": str(CLIENT), "session": "1"}}},
    ]


BEGINS = {
    "connected": [connect()],
    "registered": begins(),
    "registered-once": begins(attempts=1),
    "registered-thrice": begins(attempts=3, pause=0.1),
    "registered-slowly": begins(attempts=4, pause=0.6),
    "thrice": begins(attempts=3, pause=None),
    "patient": begins(attempts=3, pause=30.0),
    "hurried": begins(timeout=SHORT),
    "hurried-once": begins(attempts=1, timeout=SHORT),
}


def scenario(name, says, *steps, begin="registered", frames=None, **more):
    row = {"name": name, "says": says, **more}
    if begin:
        row["begin"] = [begin]
    if frames:
        row["frames"] = {
            key: it.hex() if isinstance(it, bytes) else it for key, it in frames.items()
        }
    row["steps"] = [it for step in steps for it in (step if isinstance(step, list) else [step])]
    return row


def ask(operation, items, server=(), wants=None, session="s", **more):
    """A call of an operation, and what the server does meanwhile."""
    call = {"do": "ask", "session": session, "operation": NAMES[operation], "items": items}
    extra = {key: more.pop(key) for key in ("require_ok",) if key in more}
    return {
        "call": {**call, **extra},
        "server": list(server),
        "wants": wants or {"ok": NOTHING[operation]},
        **more,
    }


def prepare(operation, items=(), wants=None, session="s"):
    call = {"do": "prepare", "session": session, "operation": NAMES[operation]}
    if operation != REGISTER:
        call["items"] = list(items)
    return {"call": call, "wants": wants or {"ok": None}}


def retry(server=(), wants=None, session="s", **more):
    extra = {key: more.pop(key) for key in ("require_ok",) if key in more}
    return {
        "call": {"do": "retry", "session": session, **extra},
        "server": list(server),
        "wants": wants,
        **more,
    }


def saved(number, pending=b"", session=1, client=CLIENT, name="s"):
    wants = {
        "client": str(client),
        "session": str(session),
        "number": str(number),
        "pending": pending.hex(),
    }
    return {"call": {"do": "saved", "session": name}, "wants": {"ok": wants}}


def save(path="session.json", session="s", wants=None):
    return {
        "call": {"do": "save", "session": session, "path": f"$DIR/{path}"},
        "wants": wants or {"ok": None},
    }


def load(wants, path="session.json", session="s", transport="t", attempts=2):
    call = {"do": "load", "session": session, "transport": transport, "path": f"$DIR/{path}"}
    return {"call": {**call, "attempts": attempts, "pause": 0.01}, "wants": wants}


def in_doubt(wants, session="s"):
    return {"call": {"do": "in_doubt", "session": session}, "wants": {"ok": wants}}


def close(**what):
    return {"call": {"do": "close", **what}, "wants": {"ok": None}}


def accept(name="c", **more):
    return {"accept": name, **more}


def read(frame, on=None, **more):
    found = {"read": frame.hex() if isinstance(frame, bytes) else frame, **more}
    return {**found, "on": on} if on else found


def send(frame, on=None, **more):
    found = {"send": frame.hex() if isinstance(frame, bytes) else frame, **more}
    return {**found, "on": on} if on else found


def served(frame, answer, on=None):
    """A request, and its reply."""
    return [read(frame, on), send(answer, on)]


def error(name, **more):
    return {"error": name, **more}


LOST = error("ReplyLost", sent=True, told="")


def frame_of(number, operation, items=None, session=1, client=CLIENT):
    return request(
        number,
        operation,
        BODIES[operation](SOME[operation] if items is None else items),
        session,
        client,
    )


def empty(number, operation, session=1, client=CLIENT, commit=None):
    return reply(number, operation, session=session, client=client, commit=commit)
