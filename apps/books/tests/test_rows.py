"""What each kind of event does to the tables, by values worked out by hand."""

from helpers.made import MAX, START, Made, account, transfer

SECOND = 10**9


def account_sums(tables, id):
    """The four sums of an account."""
    found = tables.row(
        "SELECT debits_pending, debits_posted, credits_pending, credits_posted FROM"
        " accounts WHERE id = ?",
        id,
    )
    return tuple(map(int, found))


def test_transfer(tables):
    made = Made().register().accounts(account(1), account(2))
    tables.load(made.transfers(transfer(11, 1, 2, 100), transfer(12, 2, 1, 30)))
    assert account_sums(tables, 1) == (0, 100, 0, 30)
    assert account_sums(tables, 2) == (0, 30, 0, 100)
    assert tables.rows(
        "SELECT number, counterparty_id, debit, credit, debits_posted, credits_posted,"
        " balance, transfer_id FROM postings WHERE account_id = 1 ORDER BY number"
    ) == [(1, 2, 100, 0, 100, 0, 100, 11), (2, 2, 0, 30, 100, 30, 70, 12)]
    assert tables.row("SELECT state FROM transfers WHERE id = 11") == (None,)


def test_pending_and_post(tables):
    made = Made().register().accounts(account(1), account(2))
    made.transfers(transfer(11, 1, 2, 100, ["pending"], timeout=5))
    tables.load(made)
    assert account_sums(tables, 1) == (100, 0, 0, 0)
    then, expires = tables.row("SELECT timestamp, expires_at FROM transfers WHERE id = 11")
    assert expires == then + 5 * SECOND
    made.transfers(transfer(12, 1, 2, 60, ["post_pending_transfer"], pending=11))
    tables.load(made)
    assert account_sums(tables, 1) == (0, 60, 0, 0)
    assert account_sums(tables, 2) == (0, 0, 0, 60)
    ended = tables.row("SELECT timestamp FROM transfers WHERE id = 12")[0]
    assert tables.row("SELECT state, ended_at, ended_by FROM transfers WHERE id = 11") == (
        "posted",
        ended,
        12,
    )


def test_void_and_expiry_open_what_they_closed(tables):
    made = Made().register().accounts(account(1), account(2), account(3))
    made.transfers(
        transfer(11, 1, 2, 5, ["pending", "closing_debit"]),
        transfer(12, 2, 3, 6, ["pending", "closing_credit"], timeout=1),
    )
    tables.load(made)
    flags = "SELECT flags FROM accounts ORDER BY id"
    assert tables.rows(flags) == [(32,), (0,), (32,)]
    made.transfers(transfer(13, 1, 2, 5, ["void_pending_transfer"], pending=11))
    tables.load(made)
    assert tables.rows(flags) == [(0,), (0,), (32,)]
    expiry = tables.row("SELECT expires_at FROM transfers WHERE id = 12")[0]
    made.later(2 * SECOND).register(8)
    tables.load(made)
    assert tables.rows(flags) == [(0,), (0,), (0,)]
    assert tables.row("SELECT state, ended_at, ended_by FROM transfers WHERE id = 12") == (
        "expired",
        expiry,
        None,
    )
    for id in (1, 2, 3):
        assert account_sums(tables, id) == (0, 0, 0, 0)
    assert tables.rows("SELECT * FROM postings") == []


def test_created_closed_stays_closed(tables):
    tables.load(Made().register().accounts(account(1, flags=["closed", "history"])))
    assert tables.row("SELECT flags FROM accounts") == (40,)


def test_pending_and_its_end_in_one_transaction(tables):
    made = Made().register().accounts(account(1), account(2))
    made.transfers(
        transfer(11, 1, 2, 7, ["pending"]),
        transfer(12, 1, 2, 7, ["post_pending_transfer"], pending=11),
    )
    tables.load(made)
    assert account_sums(tables, 1) == (0, 7, 0, 0)
    assert tables.row("SELECT state, ended_by FROM transfers WHERE id = 11") == ("posted", 12)


def test_refused(tables):
    made = Made().register().accounts(account(1), account(2), account(1, result="exists"))
    made.transfers(transfer(MAX, 1, 2, 3, result="id_must_not_be_int_max"))
    tables.load(made)
    assert tables.rows("SELECT commit_number, place, operation, result, id FROM refused") == [
        (2, 2, "create_accounts", "exists", 1),
        (3, 0, "create_transfers", "id_must_not_be_int_max", str(MAX)),
    ]
    assert tables.row(
        "SELECT refused, accounts_so_far, transfers_so_far, refused_so_far FROM"
        " entries WHERE commit_number = 3"
    ) == (1, 2, 0, 2)


def test_numbers_have_one_form(tables):
    big = (1 << 63) - 1
    made = Made().register()
    made.accounts(
        account(big, user_data_64=(1 << 64) - 1, user_data_32=(1 << 32) - 1),
        account(big + 1, user_data_128=MAX),
    )
    made.transfers(transfer(MAX - 1, big, big + 1, big), transfer(5, big, big + 1, 1))
    made.transfers(transfer(6, big, big + 1, MAX - 2 * big))
    tables.load(made)
    assert tables.rows("SELECT id, user_data_128, user_data_64, debits_posted FROM accounts") == [
        (big, 0, str((1 << 64) - 1), str(MAX - big + 1)),
        (str(big + 1), str(MAX), 0, 0),
    ]
    assert tables.rows("SELECT debit, debits_posted, balance FROM postings WHERE debit <> 0") == [
        (big, big, big),
        (1, str(big + 1), str(big + 1)),
        (str(MAX - 2 * big), str(MAX - big + 1), str(MAX - big + 1)),
    ]
    balance = "SELECT balance FROM postings WHERE credit <> 0 ORDER BY timestamp DESC LIMIT 1"
    assert tables.row(balance) == (str(-(MAX - big + 1)),)


def test_sessions_and_evictions(tables):
    made = Made(clients_max=2).register(7).register(8)
    made.client, made.session = 7, 1
    made.accounts(account(1))
    made.register(9).register(10)
    tables.load(made)
    assert tables.rows(
        "SELECT session, client, requests, last_commit, evicted_by FROM sessions"
    ) == [(1, 7, 1, 3, 5), (2, 8, 0, 2, 4), (4, 9, 0, 4, None), (5, 10, 0, 5, None)]
    assert tables.rows(
        "SELECT commit_number, session, client, by_client FROM evictions ORDER BY 1"
    ) == [(4, 2, 8, 9), (5, 1, 7, 10)]


def test_mark_and_lookups(tables):
    made = Made().register().mark().lookup(1, 2)
    tables.load(made)
    assert tables.row("SELECT profile, commit_number FROM position") == (2, 2)
    assert tables.row("SELECT events FROM entries WHERE commit_number = 2") == (2,)


def test_mark_alone(tables):
    """One that came after the last entry that the tables have."""
    made = Made().register()
    tables.load(made)
    tables.load(made.mark())
    assert tables.row("SELECT profile, commit_number FROM position") == (2, 1)


def test_balances_of_an_account_with_history(tables):
    made = Made().register().accounts(account(1, flags=["history"]), account(2))
    made.transfers(transfer(11, 1, 2, 100, ["pending"]), transfer(12, 2, 1, 30))
    made.transfers(transfer(13, 1, 2, 60, ["post_pending_transfer"], pending=11))
    tables.load(made)
    assert tables.rows(
        "SELECT account_id, timestamp, debits_pending, debits_posted, credits_pending,"
        " credits_posted FROM balances"
    ) == [
        (1, START + 4, 100, 0, 0, 0),
        (1, START + 5, 100, 0, 0, 30),
        (1, START + 6, 0, 60, 0, 30),
    ]
