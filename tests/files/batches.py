"""A ledger's file of twenty batches, and where the parts of its blocks are."""

import struct
import subprocess

from tb_client import HEADER, Account, Operation, Transfer, reply_length, request_frame

MAGIC = b"TBJRNL02"
LATCH, LENGTH, CHECKSUM = 4, 3, 4  # bytes of each in a block, before its record
BATCHES, SECONDS = 20, 60


def pair(number, operation, body=b"", session=1):
    """A moment and the frame of a request of client 7."""
    frame = request_frame(7, session, number, operation, body)
    return struct.pack("<Q", 10 + number) + frame


def batches():
    """The requests of each batch: one transfer, many, or some requests at once."""
    accounts = b"".join(Account(id=it, ledger=700, code=10).to_bytes() for it in (1, 2))
    yield [pair(0, Operation.register, session=0)]
    yield [pair(1, Operation.create_accounts, accounts)]
    number, ids = 1, iter(range(100, 100000))
    for batch in range(BATCHES - 2):
        requests, events = (3, 1) if batch % 3 == 2 else (1, 60 if batch % 3 else 1)
        made = []
        for _ in range(requests):
            number += 1
            moved = (Transfer(next(ids), 1, 2, 1, ledger=700, code=10) for _ in range(events))
            body = b"".join(it.to_bytes() for it in moved)
            made.append(pair(number, Operation.create_transfers, body))
        yield made


def serve(tbd, path):
    """Makes the file: each batch is sent when the one before it was answered."""
    process = subprocess.Popen(
        [tbd, "run", path, "8"],
        stdin=subprocess.PIPE,
        stdout=subprocess.PIPE,
        stderr=subprocess.DEVNULL,
    )
    for batch in batches():
        process.stdin.write(b"".join(batch))
        process.stdin.flush()
        for _ in batch:
            head = process.stdout.read(HEADER)
            process.stdout.read(reply_length(head) - HEADER)
    process.stdin.close()
    assert process.wait(SECONDS) == 0
