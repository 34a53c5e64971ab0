"""Replies as tables: what was not found, and what was refused."""
from __future__ import annotations

import pytest
from tb_client import Reply

from telovamish.reader import Pair
from telovamish.sending import Served
from telovamish.tables import reply_lines


def served(operation: str, ids: list[int], found: bytes = b"", status: int = 0) -> Served:
    codes = {"register": 2, "lookup_accounts": 131}
    body = b"".join(it.to_bytes(16, "little") for it in ids)
    reply = Reply(7, 1, 1, codes[operation], status, 0 if status else 5, found)
    return Served(Pair(0, 7, 1, 1, operation, body), reply, False)


def account(id: int) -> bytes:
    return id.to_bytes(16, "little") + bytes(112)


@pytest.mark.parametrize(
    "ids, found, said",
    [
        pytest.param([1], [], "1 of 1 not found: 1", id="one"),
        pytest.param([1, 2, 3], [2], "2 of 3 not found: 1, 3", id="some"),
        pytest.param([3, 3, 2], [2], "2 of 3 not found: 3", id="asked-for-twice"),
        pytest.param(
            [*range(1, 15)], [], "14 of 14 not found: 1, 2, 3, 4, 5, 6, 7, 8, 9, 10 and 4 more",
            id="many",
        ),
        pytest.param([2**128 - 1], [], f"1 of 1 not found: {2**128 - 1}", id="largest"),
    ],
)  # fmt: skip
def test_which_ids_were_not_found(ids: list[int], found: list[int], said: str) -> None:
    records = b"".join(map(account, found))
    assert [*reply_lines(served("lookup_accounts", ids, records), 100)][-1] == said


@pytest.mark.parametrize(
    "operation, said",
    [
        ("register", "older: the client has a session already: leave out register, or name another client"),
        ("lookup_accounts", "older: this number was executed long ago, and its reply is not kept"),
    ],
)  # fmt: skip
def test_what_older_means(operation: str, said: str) -> None:
    assert [*reply_lines(served(operation, [], status=4), 100)] == [f"refused: {said}"]
