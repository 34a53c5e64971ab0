#!/usr/bin/env python3
"""The first requests of a client: it registers, creates two accounts, and moves 100 from one to the
other. It never sees that reply, and sends the same bytes again: the money moves once.

    first.py LIBRARY
"""
import os
import sys

# The client's package, if it is not installed.
sys.path.append(
    os.path.join(os.path.dirname(os.path.abspath(__file__)), "..", "..", "python", "src")
)

from tb_client import (  # noqa: E402
    Account,
    AccountFlags,
    ClientError,
    Operation,
    Reply,
    Request,
    Status,
    Transfer,
)
from tb_embed import Server  # noqa: E402

CASH, SALES, CLIENT = 1, 2, 7
MOMENT = 10  # in nanoseconds: a true program asks its clock


def executed(server: Server, request: Request) -> Reply:
    """The reply to a request that was executed, now or before."""
    reply = Reply.from_bytes(server.serve(MOMENT, request.to_bytes()))
    if reply.status != Status.Reply:
        sys.exit(f"first: {Status(reply.status).name}")
    return reply


def print_transfers(what: str, reply: Reply) -> None:
    """What a reply to create_transfers says: the transfers that were not accepted."""
    print(f"{what}: entry {reply.commit}, {len(reply.items)} failed")
    for it in reply.items:
        print(f"  transfer {it.index} of the request: {it.result.name}")


def first_requests(server: Server) -> None:
    reply = executed(server, Request(CLIENT, 0, 0, Operation.register, ()))
    session = reply.session
    print(f"register: entry {reply.commit}, session {session}")

    limited = AccountFlags.debits_must_not_exceed_credits
    accounts = Account(CASH, ledger=700, code=10), Account(
        SALES, ledger=700, code=10, flags=limited
    )
    reply = executed(server, Request(CLIENT, session, 1, Operation.create_accounts, accounts))
    print(f"create_accounts: entry {reply.commit}, {len(reply.items)} failed")

    sale = Request(
        CLIENT,
        session,
        2,
        Operation.create_transfers,
        (Transfer(11, CASH, SALES, 100, ledger=700, code=10),),
    )
    executed(server, sale)
    print("create_transfers: the reply is lost")
    # the same bytes: the first reply
    print_transfers("create_transfers, sent again", executed(server, sale))

    refund = Request(
        CLIENT,
        session,
        3,
        Operation.create_transfers,
        (Transfer(12, SALES, CASH, 250, ledger=700, code=10),),
    )
    print_transfers("create_transfers", executed(server, refund))

    reply = executed(server, Request(CLIENT, session, 4, Operation.lookup_accounts, (CASH, SALES)))
    print(f"lookup_accounts: entry {reply.commit}, {len(reply.items)} found")
    for it in reply.items:
        print(
            f"  account {it.id}: debits_posted {it.debits_posted}, credits_posted "
            f"{it.credits_posted}"
        )


if __name__ == "__main__":
    if len(sys.argv) != 2:
        sys.exit("usage: first.py LIBRARY")
    try:
        with Server(sys.argv[1], 2) as server:
            first_requests(server)
    except ClientError as error:
        sys.exit(f"first: {error}")
