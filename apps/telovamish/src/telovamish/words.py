"""The words of statements: fields with the largest number of each, operations, flags, and how each
is packed; the names of statuses, results and faults."""
from __future__ import annotations

import json
import pathlib
from typing import Any

# which tools/tables.py generates from tools/ledger.json
FILE = pathlib.Path(__file__).with_name("words.json")
TABLE: dict[str, Any] = json.loads(FILE.read_text(encoding="utf-8"))
LIMITS: dict[str, int] = TABLE["limits"]
ITEMS_MAX, CLIENTS_MAX = LIMITS["items_max"], LIMITS["clients_max"]
TIME_MAX, AMOUNT_MAX = LIMITS["time_max"], LIMITS["amount_max"]
SECOND = LIMITS["nanoseconds_per_second"]
U16, U32, U64, U128 = (2**bits - 1 for bits in (16, 32, 64, 128))
Layout = dict[str, tuple[int, int]]  # the place and the size of each field

HEADER = {"at": U64, "client": U128, "session": U64, "request": U32}
POSITIVE = ("client", "request")  # never 0 as they are written

ACCOUNT: Layout = TABLE["account_fields"]
TRANSFER: Layout = TABLE["transfer_fields"]
HEADER_SIZE = 48  # bytes of the header of a request or reply
ID_SIZE, RECORD_SIZE = 16, 128  # bytes of an id, of an account or a transfer
ID: Layout = {"id": (0, ID_SIZE)}
NOTHING: Layout = {}
OPERATIONS: dict[str, int] = TABLE["operations"]
NAMES = {number: name for name, number in OPERATIONS.items()}
KIND = {"create_accounts": "account", "create_transfers": "transfer"}
KIND |= {"lookup_accounts": "account", "lookup_transfers": "transfer"}
FIELDS = {
    "register": NOTHING,
    "create_accounts": ACCOUNT,
    "create_transfers": TRANSFER,
    "lookup_accounts": ID,
    "lookup_transfers": ID,
}
ITEM_SIZES = {name: ID_SIZE if it is ID else RECORD_SIZE for name, it in FIELDS.items()}
MAXIMA: dict[str, dict[str, int]] = {
    name: {field: 2 ** (8 * size) - 1 for field, (_, size) in fields.items()}
    for name, fields in FIELDS.items()
}
ACCOUNT_FLAGS: dict[str, int] = TABLE["account_flags"]
TRANSFER_FLAGS: dict[str, int] = TABLE["transfer_flags"]
FLAGS = {"create_accounts": ACCOUNT_FLAGS, "create_transfers": TRANSFER_FLAGS}
RESULTS: dict[str, dict[int, str]] = {
    name: {code: result for result, code in TABLE[f"{KIND[name]}_results"].items()}
    for name in FLAGS
}
STATUSES: list[str] = TABLE["statuses"]
CLOSINGS: dict[str, str] = TABLE["told"]  # why a listener closes a connection

KINDS = {
    **{word: "flag" for word in [*ACCOUNT_FLAGS, *TRANSFER_FLAGS]},
    **{word: "field" for word in [*HEADER, *ACCOUNT, *TRANSFER]},
    **{word: "operation" for word in OPERATIONS},
    "amount_max": "amount",
}
