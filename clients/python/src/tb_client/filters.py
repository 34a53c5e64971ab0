"""TigerBeetle's filters: a program may make them. The calls that take them are NotSupported."""
from __future__ import annotations

import dataclasses
import enum


class AccountFilterFlags(enum.IntFlag):
    NONE = 0
    DEBITS = 1
    CREDITS = 2
    REVERSED = 4


class QueryFilterFlags(enum.IntFlag):
    NONE = 0
    REVERSED = 1


@dataclasses.dataclass
class AccountFilter:
    account_id: int = 0
    user_data_128: int = 0
    user_data_64: int = 0
    user_data_32: int = 0
    code: int = 0
    timestamp_min: int = 0
    timestamp_max: int = 0
    limit: int = 0
    flags: AccountFilterFlags = AccountFilterFlags.NONE


@dataclasses.dataclass
class QueryFilter:
    user_data_128: int = 0
    user_data_64: int = 0
    user_data_32: int = 0
    ledger: int = 0
    code: int = 0
    timestamp_min: int = 0
    timestamp_max: int = 0
    limit: int = 0
    flags: QueryFilterFlags = QueryFilterFlags.NONE
