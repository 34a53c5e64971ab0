"""Accounts, transfers and results, and their bytes (docs/use/FORMATS.md)."""
from __future__ import annotations

import dataclasses
import enum
from typing import Any, Iterable, Type, TypeVar, Union

from .layout import ACCOUNT_PLACES, NARROW, RECORD, TRANSFER_PLACES
from .names import AccountFlags, CreateAccountResult, CreateTransferResult, TransferFlags
from .errors import InvalidType, InvalidValue
from .values import U16, U32, U64, U128, kind_of, viewed, whole

INTEGER = {int}
Flags = TypeVar("Flags", AccountFlags, TransferFlags)
Record = TypeVar("Record", "Account", "Transfer")


def u128(number: int) -> bytes:
    return number.to_bytes(16, "little")


def u128_at(data: bytes, at: int) -> int:
    return int.from_bytes(data[at : at + 16], "little")


def _flags(field: str, value: object, kind: Type[Flags]) -> Flags:
    """Flags of this kind, or their number. Those of another kind have other meanings, and are
    refused."""
    if isinstance(value, enum.Enum) and not isinstance(value, kind):
        raise InvalidType(field, f"must be {kind.__name__}, not {kind_of(value)}")
    return kind(whole(field, value, U16))


def _settle(record: Any, ranges: dict[str, int], flags: Any) -> None:
    """Tests each field of a record, and makes plain integers of what has an index."""
    name, fields = flags.__name__[: -len("Flags")], record.__dict__
    for field, greatest in ranges.items():
        value = fields[field]
        if type(value) is not int or not 0 <= value <= greatest:
            fields[field] = whole(f"{name}.{field}", value, greatest)
    if type(fields["flags"]) is not flags or not 0 <= fields["flags"] <= U16:
        fields["flags"] = _flags(f"{name}.flags", fields["flags"], flags)


def _read(kind: Type[Record], data: bytes, flags: Any, places: Iterable[str]) -> Record:
    """The record that the bytes are. All that they can be is in range."""
    name = f"{kind.__name__}.from_bytes"
    if not isinstance(data, (bytes, bytearray, memoryview)):
        raise InvalidType(name, f"takes bytes, not {kind_of(data)}")
    if isinstance(data, memoryview):
        data = viewed(name, data)
    if len(data) != RECORD:
        raise InvalidValue(name, f"takes {RECORD} bytes, not {len(data)}")
    record = object.__new__(kind)
    *narrow, bits, timestamp = NARROW.unpack_from(data, 96)
    values = (*(u128_at(data, at) for at in range(0, 96, 16)), *narrow, flags(bits), timestamp)
    record.__dict__.update(zip(places, values))
    return record


# generated: account, by tools/tables.py from tools/ledger.json
_ACCOUNT = {
    "id": U128, "debits_pending": U128, "debits_posted": U128, "credits_pending": U128,
    "credits_posted": U128, "user_data_128": U128, "user_data_64": U64, "user_data_32": U32,
    "reserved": U32, "ledger": U32, "code": U16, "timestamp": U64,
}


@dataclasses.dataclass(init=False)
class Account:
    id: int = 0
    debits_pending: int = 0
    debits_posted: int = 0
    credits_pending: int = 0
    credits_posted: int = 0
    user_data_128: int = 0
    user_data_64: int = 0
    user_data_32: int = 0
    ledger: int = 0
    code: int = 0
    flags: AccountFlags = AccountFlags.NONE
    timestamp: int = 0  # nanoseconds
    reserved: int = 0

    def __init__(
        self,
        id: int = 0,
        debits_pending: int = 0,
        debits_posted: int = 0,
        credits_pending: int = 0,
        credits_posted: int = 0,
        user_data_128: int = 0,
        user_data_64: int = 0,
        user_data_32: int = 0,
        ledger: int = 0,
        code: int = 0,
        flags: AccountFlags = AccountFlags.NONE,
        timestamp: int = 0,
        reserved: int = 0,
    ) -> None:
        self.id = id
        self.debits_pending = debits_pending
        self.debits_posted = debits_posted
        self.credits_pending = credits_pending
        self.credits_posted = credits_posted
        self.user_data_128 = user_data_128
        self.user_data_64 = user_data_64
        self.user_data_32 = user_data_32
        self.ledger = ledger
        self.code = code
        self.flags = flags
        self.timestamp = timestamp
        self.reserved = reserved
        if not (  # a number out of range leaves a bit above those of its width
            {
                type(id), type(debits_pending), type(debits_posted), type(credits_pending),
                type(credits_posted), type(user_data_128), type(user_data_64), type(user_data_32),
                type(ledger), type(code), type(timestamp), type(reserved),
            }
            == INTEGER and type(flags) is AccountFlags
            and not code >> 16
            and not flags >> 16
            and not (user_data_32 | ledger | reserved) >> 32
            and not (user_data_64 | timestamp) >> 64
            and not (id | debits_pending | debits_posted) >> 128
            and not (credits_pending | credits_posted | user_data_128) >> 128
        ):
            _settle(self, _ACCOUNT, AccountFlags)

    def to_bytes(self) -> bytes:
        _settle(self, _ACCOUNT, AccountFlags)  # again, since it may have been changed
        wide = (
            self.id, self.debits_pending, self.debits_posted, self.credits_pending,
            self.credits_posted, self.user_data_128,
        )
        narrow = (
            self.user_data_64, self.user_data_32, self.reserved, self.ledger, self.code,
            self.flags, self.timestamp,
        )
        return b"".join(map(u128, wide)) + NARROW.pack(*narrow)

    @classmethod
    def from_bytes(cls, data: bytes) -> Account:
        return _read(cls, data, AccountFlags, ACCOUNT_PLACES)
# end of account


# generated: transfer, by tools/tables.py from tools/ledger.json
_TRANSFER = {
    "id": U128, "debit_account_id": U128, "credit_account_id": U128, "amount": U128,
    "pending_id": U128, "user_data_128": U128, "user_data_64": U64, "user_data_32": U32,
    "timeout": U32, "ledger": U32, "code": U16, "timestamp": U64,
}


@dataclasses.dataclass(init=False)
class Transfer:
    id: int = 0
    debit_account_id: int = 0
    credit_account_id: int = 0
    amount: int = 0
    pending_id: int = 0
    user_data_128: int = 0
    user_data_64: int = 0
    user_data_32: int = 0
    timeout: int = 0  # seconds
    ledger: int = 0
    code: int = 0
    flags: TransferFlags = TransferFlags.NONE
    timestamp: int = 0  # nanoseconds

    def __init__(
        self,
        id: int = 0,
        debit_account_id: int = 0,
        credit_account_id: int = 0,
        amount: int = 0,
        pending_id: int = 0,
        user_data_128: int = 0,
        user_data_64: int = 0,
        user_data_32: int = 0,
        timeout: int = 0,
        ledger: int = 0,
        code: int = 0,
        flags: TransferFlags = TransferFlags.NONE,
        timestamp: int = 0,
    ) -> None:
        self.id = id
        self.debit_account_id = debit_account_id
        self.credit_account_id = credit_account_id
        self.amount = amount
        self.pending_id = pending_id
        self.user_data_128 = user_data_128
        self.user_data_64 = user_data_64
        self.user_data_32 = user_data_32
        self.timeout = timeout
        self.ledger = ledger
        self.code = code
        self.flags = flags
        self.timestamp = timestamp
        if not (  # a number out of range leaves a bit above those of its width
            {
                type(id), type(debit_account_id), type(credit_account_id), type(amount),
                type(pending_id), type(user_data_128), type(user_data_64), type(user_data_32),
                type(timeout), type(ledger), type(code), type(timestamp),
            }
            == INTEGER and type(flags) is TransferFlags
            and not code >> 16
            and not flags >> 16
            and not (user_data_32 | timeout | ledger) >> 32
            and not (user_data_64 | timestamp) >> 64
            and not (id | debit_account_id | credit_account_id) >> 128
            and not (amount | pending_id | user_data_128) >> 128
        ):
            _settle(self, _TRANSFER, TransferFlags)

    def to_bytes(self) -> bytes:
        _settle(self, _TRANSFER, TransferFlags)  # again, since it may have been changed
        wide = (
            self.id, self.debit_account_id, self.credit_account_id, self.amount, self.pending_id,
            self.user_data_128,
        )
        narrow = (
            self.user_data_64, self.user_data_32, self.timeout, self.ledger, self.code, self.flags,
            self.timestamp,
        )
        return b"".join(map(u128, wide)) + NARROW.pack(*narrow)

    @classmethod
    def from_bytes(cls, data: bytes) -> Transfer:
        return _read(cls, data, TransferFlags, TRANSFER_PLACES)
# end of transfer


@dataclasses.dataclass(frozen=True)
class EventResult:
    index: int
    result: Union[CreateAccountResult, CreateTransferResult]


# as TigerBeetle's client calls them
CreateAccountsResult = EventResult
CreateTransfersResult = EventResult
