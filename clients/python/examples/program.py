#!/usr/bin/env python3
"""Moves money between two accounts, once, though a reply is lost, the client crashes, its session
ends, and the server is killed.

    examples/program.py [PATH OF tbs]      (crates/tbs/out/tbs of this repository if none is given)
"""
import os
import pathlib
import sys
import tempfile
from typing import Any, Sequence, Union

top = pathlib.Path(__file__).resolve().parents[3]
sys.path.insert(0, str(top / "clients/python/src"))

import tb_client as tb  # noqa: E402
from tb_client import (  # noqa: E402
    Account,
    Evicted,
    Faulty,
    Operation,
    Program,
    ReplyLost,
    Session,
    Transfer,
    id,
    require_ok,
)

path = sys.argv[1] if len(sys.argv) > 1 else str(top / "crates/tbs/out/tbs")
CASH, SALES = 1, 2


def ask(
    session: Session,
    kept: str,
    operation: Operation,
    items: Sequence[Union[Account, Transfer, int]],
) -> Any:
    """The way that survives a crash: prepare, save, and only then send."""
    session.prepare(operation, items)
    session.save(kept)
    said = session.retry()
    require_ok(said)
    session.save(kept)
    return said


def credited(session: Session, kept: str) -> Any:
    """A lookup takes a number too: it is saved as any other request."""
    return ask(session, kept, Operation.lookup_accounts, [SALES])[0].credits_posted


with tempfile.TemporaryDirectory() as folder, Program(
    path, clients_max=1, restarts=True
) as program:
    kept = os.path.join(folder, "session.json")

    # The first life of a client.
    session = Session.register(program)
    ask(
        session,
        kept,
        Operation.create_accounts,
        [Account(it, ledger=700, code=10) for it in (CASH, SALES)],
    )
    print("accounts 1 and 2 are created")

    sale = Transfer(
        id(), debit_account_id=CASH, credit_account_id=SALES, amount=100, ledger=700, code=10
    )
    # it reaches the server, and no reply comes back
    session.transport = Faulty(program, replies=range(1, 6))
    try:
        ask(session, kept, Operation.create_transfers, [sale])
    except ReplyLost:
        print("a transfer of 100 was sent, and no reply came")
    del session  # the client crashes here, and all that is left of it is the file

    # Its second life: the same bytes first, then what comes next.
    session = Session.load(program, kept)
    require_ok(session.retry())
    session.save(kept)
    print(f"after a crash the same bytes are sent again: credits_posted {credited(session, kept)}")

    # Another client takes the only place, and the session ends: whether the transfer was made is in
    # doubt.
    second = Transfer(
        id(), debit_account_id=CASH, credit_account_id=SALES, amount=10, ledger=700, code=10
    )
    Session.register(program)
    try:
        ask(session, kept, Operation.create_transfers, [second])
    except Evicted:
        doubt = session.in_doubt
        assert doubt is not None
        session = Session.register(program)
        results = session.create_transfers(doubt.items)
        require_ok([it for it in results if it.result != tb.CreateTransferResult.exists])
        session.save(kept)  # from here on the old session is not needed
        print(
            "after an eviction the same records are created again: credits_posted "
            f"{credited(session, kept)}"
        )

    # The server is killed. Its history was only in its memory, and comes back from the script that
    # restarts=True keeps.
    assert program.process is not None
    program.process.kill()
    print(f"after a restart: credits_posted {credited(session, kept)}")
    assert credited(session, kept) == 110, "the money moved more than once, or not at all"
