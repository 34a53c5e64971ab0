"""Frames, records and dumps as tests and checks send them, by the layouts of tools/ledger.json.
tests/programs/test_damaged_frames.py and bench/ have encoders of their own: independent witnesses.

A record's field that is not given is 0, except the ledger and the code, which are those of the
examples.
"""
from tabled import table

TABLE = table.load()
HEADER = table.layout(TABLE, "request_header")["bytes"]
RECORD = table.sizes(TABLE)["record"]
AMOUNT_MAX = table.limits(TABLE)["amount_max"]
MAGIC = b"TBSDUMP1"
OPERATIONS = {row["name"]: row["number"] for row in TABLE["operations"]}
EXAMPLE = {"ledger": 700, "code": 10}


def little(value, bits=64):
    """A number, as frames and dumps have it: its lowest byte first."""
    return value.to_bytes(bits // 8, "little")


def ids(*numbers):
    return b"".join(little(it, 128) for it in numbers)


def laid_out(layout, values):
    """The bytes of a layout with these values; what has no name is 0."""
    parts = [
        little(values[it["name"]], 8 * table.size_of(it)) if it["name"] else bytes(table.zeros(it))
        for it in table.layout(TABLE, layout)["fields"]
    ]
    return b"".join(parts)


def widths(layout):
    """The fields of a layout, each with its bits."""
    return [(it["name"], 8 * table.size_of(it)) for it in table.fields(TABLE, layout)]


def record(layout, given):
    """An account or a transfer with these fields."""
    fields = {name: 0 for name, _ in widths(layout)}
    if not given.keys() <= fields.keys():
        raise TypeError(f"of {layout} no field is {' '.join(given.keys() - fields.keys())}")
    return laid_out(layout, fields | given)


def account(id, **more):
    return record("account", {"id": id, **EXAMPLE, **more})


def transfer(id, debit, credit, amount, **more):
    named = {"id": id, "debit_account_id": debit, "credit_account_id": credit, "amount": amount}
    return record("transfer", {**named, **EXAMPLE, **more})


def result(index, code):
    return laid_out("result", {"index": index, "result": code})


def request(client, session, number, operation, body=b"", length=None):
    """A request's frame; its length may be said wrongly."""
    values = {"client": client, "session": session, "request": number, "operation": operation}
    values["length"] = len(body) if length is None else length
    return laid_out("request_header", values) + body


def pair(moment, *given, **more):
    """A moment and a request's frame."""
    return little(moment) + request(*given, **more)


def reply(client, session, number, operation, status, commit, body=b""):
    values = {"client": client, "session": session, "request": number, "operation": operation}
    values.update(status=status, length=len(body), commit=commit)
    return laid_out("reply_header", values) + body


def length_of(data, at=0):
    """How many bytes the frame has that begins there; of a dump's entry, after its numbers."""
    return HEADER + int.from_bytes(data[at + 32 : at + 36], "little")


def split(data, before=0):
    """The frames of a script or an output, or the entries of a dump, each with a number of bytes in
    front of it."""
    at = 0
    while at < len(data):
        end = at + before + length_of(data, at + before)
        yield data[at:end]
        at = end


def pairs(script):
    """Each moment of a script, and its request's frame."""
    for it in split(script, 8):
        yield int.from_bytes(it[:8], "little"), it[8:]


def dump_head(profile, clients_max):
    return MAGIC + little(profile, 32) + little(clients_max, 32)


def mark(profile=2):
    """What a dump has at the place where the ledger moves to another profile."""
    return little(0) + little(profile)


def dump_entry(commit, time, frame):
    return little(commit) + little(time) + frame
