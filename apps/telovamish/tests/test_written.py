"""Names and amounts with decimal places, as statements write them with `--names`."""
from __future__ import annotations

import pytest
from conftest import ran
from hypothesis import given, settings, strategies as st

from telovamish.filling import Known
from telovamish.records import Transfer
from telovamish.texts import Wrong, pairs
from telovamish.written import Written

ROWS = [
    ("ledger", 700, "EUR", 2),
    ("ledger", 701, "BTC", 8),
    ("ledger", 702, "points", 0),
    ("code", 10, "customer deposit", 0),
    ("account", 1, "House", 0),
    ("account", 2, "Zoë", 0),
    ("account", 3, "twin", 0),
    ("account", "340282366920938463463374607431768211455", "twin", 0),
    ("account", "340282366920938463463374607431768211454", "last", 0),
]
NAMES = """[ledger.700]
name = "EUR"
places = 2
[code]
10 = "customer deposit"
[account]
1 = "House"
2 = "Zoë"
"""


def transfers(text: str, size: int = 1 << 20) -> list[Transfer]:
    """The transfers of a statement, whose bytes come in pieces of a size."""
    known = Known(7)
    known.written = Written(ROWS)
    data = f"session=1 create_transfers {text};".encode()
    parts = (data[at : at + size] for at in range(0, len(data), size))
    (pair,) = pairs(parts, known)
    return [Transfer.read(pair.body[at : at + 128]) for at in range(0, len(pair.body), 128)]


AMOUNTS = [
    ("amount=12.50 ledger=700", 1250),
    ("ledger=700 amount=12.50", 1250),
    ("ledger=EUR amount=12.5", 1250),
    ("amount=0.01 ledger=700", 1),
    ("amount=12 ledger=700", 12),
    ("amount=1250 ledger=700", 1250),
    ("amount=0.00000001 ledger=BTC", 1),
    ("amount=21000000.12345678 ledger=701", 2100000012345678),
    ("amount=amount_max ledger=700", 2**128 - 1),
    ("amount=3402823669209384634633746074317682114.55 ledger=700", 2**128 - 1),
]


@pytest.mark.parametrize("size", [1, 1 << 20], ids=["each-byte", "whole"])
@pytest.mark.parametrize("text, amount", AMOUNTS, ids=[it[0] for it in AMOUNTS])
def test_an_amount_with_a_point(text, amount, size):
    assert [it.amount for it in transfers(text, size)] == [amount]


def test_each_event_has_its_own_ledger():
    text = "amount=1.5 ledger=700, amount=1.5 ledger=701, amount=15"
    assert [it.amount for it in transfers(text)] == [150, 150000000, 15]


@pytest.mark.parametrize("size", [1, 1 << 20], ids=["each-byte", "whole"])
@pytest.mark.parametrize(
    "text, field, number",
    [
        ("debit_account_id=House", "debit_account_id", 1),
        ('debit_account_id="House"', "debit_account_id", 1),
        ('credit_account_id="Zoë"', "credit_account_id", 2),
        ("credit_account_id=last", "credit_account_id", 2**128 - 2),
        ("ledger=points", "ledger", 702),
        ('code="customer deposit"', "code", 10),
    ],
)
def test_a_name(text, field, number, size):
    assert [getattr(it, field) for it in transfers(text, size)] == [number]


@pytest.mark.parametrize(
    "text, said",
    [
        ("amount=12.505 ledger=700", "12.505 is no amount of ledger 700, which has 2 places"),
        ("amount=12.5 ledger=702", "12.5 is no amount of ledger 702, which has 0 places"),
        ("amount=12.5", "12.5 needs its ledger: write ledger=N in this event"),
        ("amount=12.5, ledger=700", "12.5 needs its ledger: write ledger=N in this event"),
        ("amount=12.5 ledger=5", "12.5 needs decimal places: ledger 5 has no name"),
        ("amount=12. ledger=700", "'12.' is no whole number"),
        ("amount=.5 ledger=700", "'.5' is no whole number"),
        ("amount=3402823669209384634633746074317682114.56 ledger=700", "is no amount of"),
        ("debit_account_id=Hous", "no account is called 'Hous'; did you mean House?"),
        ('debit_account_id="Hou se"', "no account is called 'Hou se'; did you mean House?"),
        (
            "debit_account_id=twin",
            "2 accounts are called 'twin': write one of 3, 34028236692093846",
        ),
        ("ledger=House", "no ledger is called 'House'"),
        ("id=House", "'House' is no whole number"),
        ("timeout=1.5", "'1.5' is no whole number"),
    ],
)
def test_what_is_no_name_and_no_amount(text, said):
    with pytest.raises(Wrong) as why:
        transfers(text)
    assert said in str(why.value).splitlines()[0]


@settings(max_examples=200, deadline=None)
@given(value=st.integers(0, 2**128 - 1), places=st.integers(1, 38))
def test_each_amount_as_it_is_written_is_read(value, places):
    digits = str(value).rjust(places + 1, "0")
    shown = f"{digits[:-places]}.{digits[-places:]}"
    written = Written([("ledger", 1, "x", places)])
    assert written.amount(shown, 1) == value
    assert written.amount(shown.rstrip("0") + "0" * shown.endswith(".0"), 1) in (value, None)
    assert written.amount(f"{shown}0", 1) is None


NAME = st.text(
    st.characters(blacklist_categories=("Cs", "Cc"), blacklist_characters='"'), min_size=1
)


@settings(max_examples=200, deadline=None)
@given(name=NAME, number=st.integers(1, 2**128 - 1))
def test_each_name_is_read_in_quotes(name, number):
    known = Known(7)
    known.written = Written([("account", number, name, 0)])
    text = f'session=1 lookup_accounts id="{name}";'.encode()
    (pair,) = pairs(iter([text]), known)
    assert int.from_bytes(pair.body, "little") == number


def test_without_names_it_is_said_what_an_amount_counts(tbs):
    status, _, errors = ran("run", given=b"create_transfers amount=12.50;", env={"TBS": tbs})
    assert status == 2
    assert "'12.50' is no whole number: an amount counts the ledger's smallest unit" in errors


def test_a_created_transfer_is_repeated_with_its_amount(tbs, tmp_path):
    (tmp_path / "books.toml").write_text(NAMES)
    accounts = "create_accounts id=House ledger=EUR code=10, id=2 ledger=EUR code=10;"
    event = "debit_account_id=House credit_account_id=Zoë ledger=EUR code=10"
    text = f"""{accounts.replace('id=2', 'id="Zoë"')}
    create_transfers id=1 amount=12 {event};
    create_transfers id=2 amount=12.50 {event}, id=3 amount=1 {event}, id=0 amount=9 {event};
    create_transfers id=4 amount=5 flags=pending {event};
    create_transfers id=5 amount=5 pending_id=4 flags=post_pending_transfer;"""
    words = ["run", "--names", str(tmp_path / "books.toml")]
    out = ran(*words, given=text.replace("=Zoë", '="Zoë"').encode(), env={"TBS": tbs})[1].decode()
    assert [it for it in out.splitlines() if "transfer" in it and "created" in it] == [
        "1 of 1 transfer created: 0.12 EUR (12)",
        "2 of 3 transfers created: 12.51 EUR (1251)",
        "1 of 1 transfer created: 0.05 EUR (5)",
        "1 of 1 transfer created",
    ]
