"""What an address asks for: fields that a page has, once; times in their order."""

import pytest

from helpers.made import Made, account, transfer

# an address, a field that it does not have, and the fields that it has
UNKNOWN = [
    ("/", "spam=1", "span, commit"),
    ("/accounts", "ledgr=700", "ledger, code, user_data, sort, page, before, after, commit"),
    ("/account/1", "form=2026-09-21", "from, to, before, after, commit"),
    ("/account/1/2026-09", "to=2026-09-21", "commit"),
    ("/trial-balance", "date=2026-09-21", "at, commit"),
    ("/transfers", "frm=2026-09-21", "from, to, before, after, commit"),
    ("/transfer/11", "id=12", "commit"),
    ("/refusals", "before=7", "commit"),
    ("/sessions", "from=2026-09-21", "before, after, commit"),
    ("/search", "name=House", "id, commit"),
    ("/csv/statement.csv", "account_id=1", "account, from, to, commit"),
    ("/csv/named_statement.csv", "bom=1", "account, from, to, spreadsheet, commit"),
    ("/csv/transfers.csv", "frm=2026-09-21", "from, to, commit"),
    ("/csv/accounts.csv", "from=2026-09-21", "commit"),
    ("/csv/entries.csv", "account=1", "from, to, commit"),
    ("/csv/trial_balance.csv", "date=2026-09-21", "at, commit"),
    ("/csv/names.csv", "kind=account", "commit"),
]


@pytest.fixture
def shop(pages):
    pages.load(Made().register().accounts(account(1), account(2)).transfers(transfer(11, 1, 2, 5)))
    return pages


@pytest.mark.parametrize("address, field, known", UNKNOWN, ids=[it[0] for it in UNKNOWN])
def test_a_field_that_an_address_does_not_have(shop, address, field, known):
    """It is refused with those that it has, and is no question without it."""
    shop.get(address)
    said = shop.words(f"{address}?{field}", 400)
    assert f"has no field {field.partition('=')[0]}: {known} To the overview" in said


def test_a_field_that_a_question_does_not_have(shop):
    reply = shop.reply("/get_account_transfers?account_id=1&limt=10")
    assert (reply.status_code, reply.mimetype) == (400, "application/json")
    fields = "account_id, user_data_128, user_data_64, user_data_32, code, timestamp_min, "
    fields += "timestamp_max, limit, flags, commit"
    assert reply.json["fault"] == f"get_account_transfers has no field limt: {fields}"


@pytest.mark.parametrize(
    "address", ["/accounts?code=1&code=2", "/csv/transfers.csv?to=2026-01-01&to=2026-01-02"]
)
def test_a_field_that_is_given_twice(shop, address):
    assert "is given 2 times: give it once" in shop.words(address, 400)


def test_a_question_s_field_that_is_given_twice(shop):
    fault = shop.reply("/query_accounts?code=1&code=2").json["fault"]
    assert fault == "code is given 2 times: give it once"


@pytest.mark.parametrize("address", ["/transfers", "/account/1", "/csv/transfers.csv"])
def test_times_in_their_order(shop, address):
    said = shop.words(f"{address}?from=2026-09-22&to=2026-09-21", 400)
    assert "from 2026-09-22 is after to 2026-09-21" in said
    shop.get(f"{address}?from=2026-09-21&to=2026-09-21")


@pytest.mark.parametrize(
    "address",
    [
        "/account/1?from=yesterday",
        "/account/1?before=x",
        f"/account/1?before={1 << 70}",
        "/accounts?ledger=%27",
        "/accounts?code=x",
        "/accounts?user_data=x",
        "/accounts?sort=x",
        "/trial-balance?at=yesterday",
        "/csv/trial_balance.csv?at=yesterday",
        "/csv/named_accounts.csv?spreadsheet=yes",
        "/?span=year",
    ],
)
def test_a_value_that_a_field_does_not_have(shop, address):
    assert "Bad Request" in shop.words(address, 400)


@pytest.mark.parametrize("address", ["/account/1?from=9999-12-31", "/account/1?to=9999-12-31"])
def test_a_day_after_the_last_time(shop, address):
    shop.get(address)
