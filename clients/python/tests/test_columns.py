"""Records that are given as columns."""
import array

import pytest
import tb_client as tb
from tb_client.frames import body_of
from tb_client.names import Operation

WIDE = 2**127 + 3


def column(code, *numbers):
    return array.array(code, numbers)


def wide(*numbers):
    return b"".join(it.to_bytes(16, "little") for it in numbers)


def body(columns):
    return body_of(Operation.create_transfers, columns)


@pytest.mark.parametrize(
    "made",
    [
        pytest.param(lambda *it: column("Q", *it), id="array"),
        pytest.param(lambda *it: memoryview(column("Q", *it)), id="memoryview"),
        pytest.param(wide, id="bytes"),
        pytest.param(lambda *it: bytearray(wide(*it)), id="bytearray"),
    ],
)
def test_columns_are_the_bytes_of_their_records(made):
    columns = tb.TransferColumns(
        id=made(5, 6, 7),
        debit_account_id=made(1, 2, 3),
        credit_account_id=WIDE,
        amount=made(10, 20, 2**64 - 1),
        user_data_64=column("Q", 0, 2**64 - 1, 1),
        user_data_32=column("I", 1, 2, 2**32 - 1),
        ledger=700,
        code=column("H", 1, 2, 2**16 - 1),
        flags=tb.TransferFlags.linked,
    )
    records = [
        tb.Transfer(
            id=5 + at,
            debit_account_id=1 + at,
            credit_account_id=WIDE,
            amount=(10, 20, 2**64 - 1)[at],
            user_data_64=(0, 2**64 - 1, 1)[at],
            user_data_32=(1, 2, 2**32 - 1)[at],
            ledger=700,
            code=(1, 2, 2**16 - 1)[at],
            flags=tb.TransferFlags.linked,
        )
        for at in range(3)
    ]
    assert body(columns) == body(records)
    assert (list(columns), len(columns)) == (records, 3)


def test_wide_columns():
    numbers = [1, 2**64, 2**128 - 1]
    columns = tb.AccountColumns(id=wide(*numbers), ledger=700, code=10)
    assert [it.id for it in columns] == numbers
    assert {(it.ledger, it.code, it.flags) for it in columns} == {(700, 10, 0)}
    kept = body_of(Operation.create_accounts, columns)
    assert kept == body_of(Operation.create_accounts, list(columns))


def test_numbers_are_taken_as_they_were():
    ids = column("Q", 1, 2)
    columns = tb.TransferColumns(id=ids)
    ids[0] = 9
    assert [it.id for it in columns] == [1, 2]


IDS = array.array("Q", [1, 2])


@pytest.mark.parametrize(
    "fields, field",
    [
        pytest.param({}, "id", id="no-ids"),
        pytest.param({"id": 1}, "id", id="one-id"),
        pytest.param({"id": [1, 2]}, "id", id="a-list"),
        pytest.param({"id": "12"}, "id", id="text"),
        pytest.param({"id": column("q", 1, 2)}, "id", id="signed"),
        pytest.param({"id": column("I", 1, 2)}, "id", id="short"),
        pytest.param({"id": column("d", 1, 2)}, "id", id="floats"),
        pytest.param({"id": b"1" * 17}, "id", id="no-whole-bytes"),
        pytest.param({"id": memoryview(column("Q", 1, 2, 3))[::2]}, "id", id="gaps"),
        pytest.param({"id": memoryview(b"1" * 64).cast("Q", (2, 4))}, "id", id="two-dimensions"),
        pytest.param({"id": IDS, "amount": column("Q", 1)}, "amount", id="another-length"),
        pytest.param({"id": IDS, "amount": -1}, "amount", id="negative"),
        pytest.param({"id": IDS, "amount": 2**128}, "amount", id="too-large"),
        pytest.param({"id": IDS, "amount": 1.5}, "amount", id="a-float"),
        pytest.param({"id": IDS, "amount": True}, "amount", id="a-truth"),
        pytest.param({"id": IDS, "code": column("Q", 1, 2)}, "code", id="too-wide"),
        pytest.param({"id": IDS, "code": b"1234"}, "code", id="bytes-of-a-narrow-field"),
        pytest.param({"id": IDS, "ammount": 1}, "ammount", id="no-field"),
    ],
)
def test_a_wrong_column(fields, field):
    with pytest.raises(tb.Invalid, match=rf"^TransferColumns\.{field} "):
        tb.TransferColumns(**fields)


def test_columns_of_another_kind_and_too_many():
    with pytest.raises(tb.InvalidType, match="^transfers"):
        body(tb.AccountColumns(id=IDS))
    many = tb.TransferColumns(id=array.array("Q", range(tb.ITEMS_MAX + 1)))
    with pytest.raises(tb.InvalidValue, match="^transfers must have at most 8190 items"):
        body(many)


def test_no_records():
    assert body(tb.TransferColumns(id=array.array("Q"))) == b""


def test_numbers_of_numpy():
    """Its arrays have the buffers of these, with another letter for 8 bytes on some systems."""
    letter = memoryview(array.array("L", [1, 2]))
    if letter.itemsize == 8:
        assert [it.id for it in tb.TransferColumns(id=letter)] == [1, 2]
