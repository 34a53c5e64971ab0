"""Sizes, limits and layouts of frames.

tools/tables.py --write makes this file from tools/ledger.json.
"""
from __future__ import annotations

import struct
from typing import Dict, Tuple

from .names import Operation

HEADER = 48  # bytes of the header of a request or reply
RECORD = 128  # bytes of an account or a transfer
ID = 16
RESULT = 8
FLAGS_AT = 118  # of a record
ITEMS_MAX = 8190  # accounts, transfers or ids in a request
CLIENTS_MAX = 64  # clients that can have a session at one time
NUMBER_MAX = 4294967295  # the last number of a request in its session
TIME_MAX = 9223372036854775807  # nanoseconds
AMOUNT_MAX = 340282366920938463463374607431768211455
SECOND = 1000000000  # nanoseconds

# what follows the client's 16 bytes
REQUEST = struct.Struct("<QIB3xI12x")
REPLY = struct.Struct("<QIBB2xIQ4x")
RESULT_FORMAT = struct.Struct("<II")
# what follows the six numbers of 16 bytes that each record begins with
NARROW = struct.Struct("<QIIIHHQ")

ACCOUNT_PLACES: Dict[str, Tuple[int, int]] = {
    "id": (0, 16),
    "debits_pending": (16, 16),
    "debits_posted": (32, 16),
    "credits_pending": (48, 16),
    "credits_posted": (64, 16),
    "user_data_128": (80, 16),
    "user_data_64": (96, 8),
    "user_data_32": (104, 4),
    "reserved": (108, 4),
    "ledger": (112, 4),
    "code": (116, 2),
    "flags": (118, 2),
    "timestamp": (120, 8),
}
TRANSFER_PLACES: Dict[str, Tuple[int, int]] = {
    "id": (0, 16),
    "debit_account_id": (16, 16),
    "credit_account_id": (32, 16),
    "amount": (48, 16),
    "pending_id": (64, 16),
    "user_data_128": (80, 16),
    "user_data_64": (96, 8),
    "user_data_32": (104, 4),
    "timeout": (108, 4),
    "ledger": (112, 4),
    "code": (116, 2),
    "flags": (118, 2),
    "timestamp": (120, 8),
}

ITEM_SIZES: Dict[int, int] = {
    Operation.create_accounts: 128,
    Operation.create_transfers: 128,
    Operation.lookup_accounts: 16,
    Operation.lookup_transfers: 16,
}
REPLY_SIZES: Dict[int, int] = {
    Operation.create_accounts: 8,
    Operation.create_transfers: 8,
    Operation.lookup_accounts: 128,
    Operation.lookup_transfers: 128,
}
ITEM_NAMES: Dict[int, str] = {
    Operation.create_accounts: "accounts",
    Operation.create_transfers: "transfers",
    Operation.lookup_accounts: "ids",
    Operation.lookup_transfers: "ids",
}
