"""The grammar of statements.lark with its rules, as a reader of its own: it shares no code with the
command's, and no table except the names."""
from __future__ import annotations

import datetime
import pathlib
from typing import NamedTuple

from lark import Lark, Transformer
from lark.exceptions import UnexpectedInput, VisitError

FILE = pathlib.Path(__file__).parent.parent / "statements.lark"
BITS = {"at": 64, "client": 128, "session": 64, "request": 32}
ACCOUNT = dict.fromkeys(
    "id debits_pending debits_posted credits_pending credits_posted user_data_128".split(), 128
)
ACCOUNT |= {"user_data_64": 64, "user_data_32": 32, "reserved": 32, "ledger": 32, "code": 16}
ACCOUNT |= {"flags": 16, "timestamp": 64}
TRANSFER = dict.fromkeys(
    "id debit_account_id credit_account_id amount pending_id user_data_128".split(), 128
)
TRANSFER |= {"user_data_64": 64, "user_data_32": 32, "timeout": 32, "ledger": 32, "code": 16}
TRANSFER |= {"flags": 16, "timestamp": 64}
KINDS = {"create_accounts": ACCOUNT, "create_transfers": TRANSFER, "register": {}}
KINDS |= {"lookup_accounts": {"id": 128}, "lookup_transfers": {"id": 128}}
NUMBERS = dict(zip(("register", "create_accounts", "create_transfers"), (2, 129, 130)))
NUMBERS |= {"lookup_accounts": 131, "lookup_transfers": 132}
FLAGS = {
    "create_accounts": "linked debits_must_not_exceed_credits"
    " credits_must_not_exceed_debits history"
    " imported closed",
    "create_transfers": "linked pending post_pending_transfer void_pending_transfer balancing_debit"
    " balancing_credit closing_debit closing_credit imported",
}
END_OF_TIME = 2**63 - 1


class Broken(Exception):
    """A rule does not hold."""


class Operation(NamedTuple):
    name: str


def moment(date: str) -> int:
    day, _, time = date.rstrip("Z").partition("T")
    whole, _, fraction = time.partition(".")
    parts = [int(it) for it in (day.split("-") + (whole.split(":") if whole else []))]
    try:
        at = datetime.datetime(*parts, tzinfo=datetime.timezone.utc)  # type: ignore[misc]
    except ValueError:
        raise Broken(date) from None
    since = at - datetime.datetime(1970, 1, 1, tzinfo=datetime.timezone.utc)
    found = (since.days * 86400 + since.seconds) * 10**9 + int((fraction + "0" * 9)[:9])
    if not 0 <= found <= END_OF_TIME:
        raise Broken(date)
    return found


def value_of(operation: str, name: str, token) -> int:
    """The number that a value means."""
    bits = (KINDS[operation] if operation else BITS)[name]
    if token.type == "DATE":
        if name != "at" or operation:
            raise Broken(token)
        return moment(token)
    if token.type == "NUMBER":
        digits = token[2:] if token.startswith("0x") else token.lstrip("0") or "0"
        number = (
            int(digits, 16)
            if token.startswith("0x")
            else int(digits[:50])
            if len(digits) < 50
            else 2**200
        )
        if number >= 2 ** bits or not number and name in ("client", "request"):
            raise Broken(token)
        return number
    names = FLAGS.get(operation, "").split()
    if name == "flags" and token in names:
        return 1 << names.index(token)
    if name == "amount" and token == "amount_max":
        return 2**128 - 1
    raise Broken(token)


def numbers(operation: str, fields) -> dict[str, int]:
    found: dict[str, int] = {}
    known = KINDS[operation] if operation else BITS
    for name, *values in fields:
        if name in found or name not in known or len(values) > 1 and name != "flags":
            raise Broken(name)
        found[name] = 0
        for it in values:
            found[name] |= value_of(operation, name, it)
    return found


def frame(header: dict[str, int], operation: str, events: list[dict[str, int]]) -> bytes:
    """The bytes of a moment and a request: docs/use/FORMATS.md."""
    body = b""
    for event in events:
        for name, bits in KINDS[operation].items():
            body += event.get(name, 0).to_bytes(bits // 8, "little")
    made = header.get("at", 0).to_bytes(8, "little") + header["client"].to_bytes(16, "little")
    made += header.get("session", 0).to_bytes(8, "little")
    made += header.get("request", 0).to_bytes(4, "little")
    made += bytes([NUMBERS[operation], 0, 0, 0]) + len(body).to_bytes(4, "little") + bytes(12)
    return made + body


class Meaning(Transformer):
    """What a text means: a frame for each statement."""

    def field(self, parts):
        return (str(parts[0]), *parts[1:])

    def event(self, parts):
        return parts

    def operation(self, parts):
        return Operation(str(parts[0]))

    def empty(self, parts):
        return self.full(parts)

    def full(self, parts):
        at = next(k for k, it in enumerate(parts) if isinstance(it, Operation))
        header, operation, events = numbers("", parts[:at]), parts[at].name, parts[at + 1 :]
        if operation not in KINDS or len(events) > 8190 or not header.get("client"):
            raise Broken(operation)
        is_register = operation == "register"
        if is_register == ("request" in header) or is_register and header.get("session"):
            raise Broken(operation)
        return frame(header, operation, [numbers(operation, it) for it in events])

    def start(self, parts):
        return parts


PARSER = Lark(FILE.read_text(), parser="lalr", lexer="contextual", transformer=Meaning())


def meant(text: str):
    """The frames of a text, or None if it is wrong."""
    try:
        return PARSER.parse(text)
    except (UnexpectedInput, VisitError, Broken):
        return None
