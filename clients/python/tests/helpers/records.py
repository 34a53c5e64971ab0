"""Records, frames and replies of the tests."""

import struct

import tb_client as tb
from tb_client import Account, Transfer


def reply(frame, status=0, session=1, commit=None, body=b""):
    """A reply to the request of a frame, with a commit number that goes with status and session
    if no number is given."""
    if commit is None:
        commit = 0 if status else session + (frame[28] != tb.Operation.register)
    header = frame[:16] + struct.pack(
        "<QIBB2xIQ4x", session, *struct.unpack_from("<IB", frame, 24), status, len(body), commit
    )
    return header + body


def wrong_replies():
    """A reply with each fault that a header can have, to the request 1 of client 7 in session 1."""

    def it(client=7, session=1, number=1, operation=129, status=0, commit=2, body=b""):
        return tb.Reply(client, session, number, operation, status, commit, body).to_bytes()

    return {
        "ClientZero": it(client=0),
        "UnknownOperation": it(operation=133),
        "Reserved": it()[:47] + b"\1",
        "RegisterNumbers": it(operation=2, commit=1),
        "RequestZero": it(number=0),
        "ReplyNumbers": it(commit=1),
        "BadLength": it(body=b"1234567"),
        "TooMany": it(body=bytes(8191 * 8)),
    }


def at_ten():
    return 10


def account(id, **more):
    return Account(id, ledger=700, code=10, **more)


def transfer(id, debit, credit, amount, **more):
    return Transfer(id, debit, credit, amount, ledger=700, code=10, **more)


def results(answers):
    return [(it.index, it.result.name) for it in answers]


def register(client):
    return client.to_bytes(16, "little") + struct.pack("<QIB3xI12x", 0, 0, 2, 0)


def registered(client, session=1):
    return tb.Reply(client, session, 0, 2, 0, session, b"").to_bytes()


def header(
    client=1, session=1, number=1, operation=130, zeros=b"\0" * 3, length=0, rest=b"\0" * 12
):
    return client.to_bytes(16, "little") + struct.pack(
        "<QIB3sI12s", session, number, operation, zeros, length, rest
    )
