"""Accounts and transfers, as they are read from bodies and changed by the model."""
from __future__ import annotations

import struct
from typing import TypeVar

from .words import ACCOUNT, TRANSFER

WIDE, WIDE_END = 6, 96  # six numbers of 16 bytes come first
NARROW = struct.Struct("<QIIIHHQ")
RECORD = 128
Self = TypeVar("Self", bound="Record")


class Record:
    """An account or a transfer."""

    __slots__: tuple[str, ...] = ()
    id: int
    user_data_128: int
    user_data_64: int
    user_data_32: int
    ledger: int
    code: int
    flags: int
    timestamp: int

    @classmethod
    def read(cls: type[Self], data: bytes) -> Self:
        it = cls()
        names = cls.__slots__
        for place in range(WIDE):
            setattr(it, names[place], int.from_bytes(data[16 * place : 16 * place + 16], "little"))
        for name, number in zip(names[WIDE:], NARROW.unpack_from(data, WIDE_END)):
            setattr(it, name, number)
        return it

    def to_bytes(self) -> bytes:
        numbers = [getattr(self, it) for it in self.__slots__]
        wide = b"".join(it.to_bytes(16, "little") for it in numbers[:WIDE])
        return wide + NARROW.pack(*numbers[WIDE:])


class Account(Record):
    __slots__ = (*ACCOUNT,)
    debits_pending: int
    debits_posted: int
    credits_pending: int
    credits_posted: int
    reserved: int


class Transfer(Record):
    __slots__ = (*TRANSFER,)
    debit_account_id: int
    credit_account_id: int
    amount: int
    pending_id: int
    timeout: int


def ids_of(body: bytes) -> list[int]:
    return [int.from_bytes(body[at : at + 16], "little") for at in range(0, len(body), 16)]


def records(kind: type[Self], body: bytes) -> list[Self]:
    return [kind.read(body[at : at + RECORD]) for at in range(0, len(body), RECORD)]
