"""Histories by hand, for tests of the model and of audits."""
from __future__ import annotations

from tb_client import Reply

from telovamish.model import Fact, Ledger
from telovamish.reader import Pair
from telovamish.records import Account, Record, Transfer
from telovamish.streams import Entry
from telovamish.words import OPERATIONS


def account(id: int, **fields: int) -> Account:
    it = Account.read(bytes(128))
    for name, number in {"id": id, **fields}.items():
        setattr(it, name, number)
    return it


def transfer(id: int, debit: int, credit: int, amount: int, **fields: int) -> Transfer:
    it = Transfer.read(bytes(128))
    it.id, it.debit_account_id, it.credit_account_id, it.amount = id, debit, credit, amount
    for name, number in fields.items():
        setattr(it, name, number)
    return it


def entry_of(commit: int, time: int, client: int, name: str, *its: Record) -> Entry:
    number = 0 if name == "register" else 1
    body = b"".join(it.to_bytes() for it in its)
    return Entry(commit, time, Pair(time, client, number, number, name, body))


def entered(ledger: Ledger, it: Entry) -> list[Fact]:
    """What an entry makes, of which no event fails."""
    reply = Reply(it.request.client, 1, 1, OPERATIONS[it.request.operation], 0, it.commit, b"")
    return [*ledger.enter(it, reply)]
