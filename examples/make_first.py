#!/usr/bin/env python3
"""Writes first.script, first.replies and the listing first.txt: client 7 registers, creates
accounts 1 and 2, and looks up 2, 9, 1."""
import struct


def u128(n):
    return n.to_bytes(16, "little")


def request(client, session, number, operation, body):
    return u128(client) + struct.pack("<QIB3xI12x", session, number, operation, len(body)) + body


def reply(client, session, number, operation, status, commit, body):
    return (
        u128(client)
        + struct.pack("<QIBB2xIQ4x", session, number, operation, status, len(body), commit)
        + body
    )


def account(id, timestamp=0):
    return u128(id) + bytes(64) + u128(0) + struct.pack("<QIIIHHQ", 0, 0, 0, 700, 10, 0, timestamp)


def moment(n):
    return struct.pack("<Q", n)


requests = [
    ("client 7 registers", request(7, 0, 0, 2, b"")),
    (
        "request 1 of session 1: create accounts 1 and 2",
        request(7, 1, 1, 129, account(1) + account(2)),
    ),
    ("request 2: look up accounts 2, 9 and 1", request(7, 1, 2, 131, u128(2) + u128(9) + u128(1))),
]
replies = [
    ("session 1, commit 1", reply(7, 1, 0, 2, 0, 1, b"")),
    ("commit 2, no result: both accounts were created", reply(7, 1, 1, 129, 0, 2, b"")),
    (
        "commit 3: account 2, then account 1; 9 is not there",
        reply(7, 1, 2, 131, 0, 3, account(2, 12) + account(1, 11)),
    ),
]


def lines(data):
    return "".join("    " + data[i : i + 16].hex() + "\n" for i in range(0, len(data), 16))


with open("first.script", "wb") as out:
    for _, frame in requests:
        out.write(moment(10) + frame)
with open("first.replies", "wb") as out:
    for _, frame in replies:
        out.write(frame)
with open("first.txt", "w") as out:
    out.write("first.script and first.replies, 16 bytes a line, made by make_first.py\n\n")
    for (what, frame), (then, answer) in zip(requests, replies):
        out.write(f"{what}: the moment 10 ({moment(10).hex()}), then the frame\n\n{lines(frame)}\n")
        out.write(f"reply: {then}\n\n{lines(answer)}\n")
