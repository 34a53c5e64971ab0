"""Many requests in a log, in entries of up to 1 MiB, by a writer that waits for no reply."""

import time

from tb_client.frames import request_frame

from .entries import MOMENT, PAIRS_MAX
from .processes import appended
from .traffic import PAYEE, PAYER, Operation, Session, Socket, Transfer, tb


def requests(session, count):
    """The first requests of a new session: each a transfer of 1."""
    body = bytearray(Transfer(1, PAYER, PAYEE, 1, ledger=700, code=10).to_bytes())
    first = tb.id()
    for number in range(1, count + 1):
        body[:16] = (first + number).to_bytes(16, "little")
        operation = Operation.create_transfers
        yield request_frame(session.client, session.session, number, operation, bytes(body))


def entries(frames):
    """The pairs of entries that are as long as they may be."""
    moment, pairs, length = MOMENT.pack(time.time_ns()), [], 0
    for frame in frames:
        if length + len(frame) + MOMENT.size > PAIRS_MAX:
            yield b"".join(pairs)
            pairs, length = [], 0
        pairs += [moment, frame]
        length += len(frame) + MOMENT.size
    yield b"".join(pairs)


def fill(cluster, count):
    """Puts a number of requests into the log. Returns how many entries they are."""
    with Session.register(Socket([("127.0.0.1", it) for it in cluster.tcp], 30)) as session:
        return len(appended(cluster, cluster.log(), entries(requests(session, count))))
