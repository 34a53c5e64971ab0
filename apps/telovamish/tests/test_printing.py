"""Requests as statements, and frames as JSON, by hand."""
from __future__ import annotations

import json
import struct

import pytest
from by_hand import account, transfer

from telovamish.objects import flags_shown, item_shown, line, record_shown, reply_shown
from telovamish.printing import statement_text
from telovamish.reader import Pair
from telovamish.streams import Entry, Head, Mark
from telovamish.words import ACCOUNT_FLAGS, TRANSFER_FLAGS
from tb_client import Reply

PAIR = Pair(5, 7, 1, 2, "lookup_accounts", (9).to_bytes(16, "little") + bytes(16))


@pytest.mark.parametrize(
    "pair, text",
    [
        pytest.param(Pair(0, 7, 0, 0, "register", b""), "at=0 client=7 register;\n", id="register"),
        pytest.param(PAIR, "at=5 client=7 session=1 request=2 lookup_accounts id=9, id=0;\n", id="id-0-is-kept"),
        pytest.param(PAIR._replace(body=b""), "at=5 client=7 session=1 request=2 lookup_accounts;\n", id="no-ids"),
        pytest.param(PAIR._replace(operation="create_accounts", body=account(3, ledger=7, flags=8 | 1).to_bytes()), "at=5 client=7 session=1 request=2 create_accounts id=3 ledger=7 flags=linked|history;\n", id="flags-by-name"),
        pytest.param(PAIR._replace(operation="create_transfers", body=transfer(3, 1, 2, 2**128 - 1, flags=1 << 15 | 2).to_bytes()), f"at=5 client=7 session=1 request=2 create_transfers id=3 debit_account_id=1 credit_account_id=2 amount={2**128 - 1} flags=pending|32768;\n", id="bits-without-a-name"),
    ],
)  # fmt: skip
def test_a_statement(pair: Pair, text: str) -> None:
    assert statement_text(pair) == text


@pytest.mark.parametrize(
    "names, number, shown",
    [
        (ACCOUNT_FLAGS, 0, []),
        (ACCOUNT_FLAGS, 0b1001, ["linked", "history"]),
        (ACCOUNT_FLAGS, 1 << 15, ["32768"]),
        (TRANSFER_FLAGS, 0b11, ["linked", "pending"]),
        (TRANSFER_FLAGS, 1 << 15 | 2, ["pending", "32768"]),
    ],
)
def test_flags(names: dict[str, int], number: int, shown: list[str]) -> None:
    assert flags_shown(names, number) == shown


def test_a_record_in_json() -> None:
    """Numbers of at most 32 bits are numbers, wider ones strings."""
    shown = record_shown(transfer(2**127, 1, 2, 5, ledger=7, code=9, timeout=3, user_data_64=4))
    assert shown["id"] == str(2**127) and shown["amount"] == "5"
    assert (shown["ledger"], shown["code"], shown["timeout"]) == (7, 9, 3)
    assert (shown["user_data_64"], shown["timestamp"], shown["flags"]) == ("4", "0", [])


@pytest.mark.parametrize(
    "operation, status, body, wanted",
    [
        pytest.param(129, 0, struct.pack("<IIII", 0, 21, 3, 13), [{"index": 0, "result": "exists"}, {"index": 3, "result": "ledger_must_not_be_zero"}], id="failed-events"),
        pytest.param(130, 0, struct.pack("<II", 1, 46), [{"index": 1, "result": "exists"}], id="of-transfers"),
        pytest.param(131, 0, b"", [], id="none-found"),
        pytest.param(2, 4, b"", [], id="refused"),
    ],
)  # fmt: skip
def test_a_reply_in_json(operation: int, status: int, body: bytes, wanted: list[object]) -> None:
    names = {129: "create_accounts", 130: "create_transfers", 131: "lookup_accounts", 2: "register"}
    shown = reply_shown(Reply(2**128 - 1, 2**63, 5, operation, status, 9, body))
    assert json.loads(line(shown)) == {
        "client": str(2**128 - 1), "session": str(2**63), "request": 5,
        "operation": names[operation], "status": "older" if status else "reply", "commit": "9",
        "results": wanted,
    }  # fmt: skip


@pytest.mark.parametrize(
    "item, wanted",
    [
        pytest.param(Head(2, 64), {"profile": 2, "clients_max": 64}, id="head"),
        pytest.param(Mark(), {"profile": 2}, id="mark"),
        pytest.param(
            Entry(3, 2**62, PAIR),
            {
                "commit": "3", "time": str(2**62), "client": "7", "session": "1", "request": 2,
                "operation": "lookup_accounts", "events": [{"id": "9"}, {"id": "0"}],
            },
            id="entry",
        ),
    ],
)  # fmt: skip
def test_an_item_of_a_dump_in_json(item: object, wanted: dict[str, object]) -> None:
    assert item_shown(item) == wanted  # type: ignore[arg-type]
