"""The tables and views, for SQLite and for PostgreSQL.

In SQLite a column of numbers of 64 or 128 bits has no type: with one, digits of TEXT would become a
REAL, and be rounded.
"""

from __future__ import annotations

from typing import Callable, Dict, List

SCHEMA = 3  # the number of these tables; another one is made again from the history

# Each table: its columns, with their kinds, and what follows them.
TABLES: Dict[str, List[str]] = {
    "position": [
        "one small PRIMARY KEY CHECK (one = 1)",
        "schema small NOT NULL",
        "head text NOT NULL",
        "profile small NOT NULL",
        "commit_number whole NOT NULL",
        "time whole NOT NULL",
        "digest text NOT NULL",
    ],
    "entries": [
        "commit_number whole PRIMARY KEY",
        "time whole NOT NULL UNIQUE",
        "client wide NOT NULL",
        "session whole NOT NULL",
        "request whole NOT NULL",
        "operation text NOT NULL",
        "events small NOT NULL",
        "refused small NOT NULL",
        "accounts_so_far whole NOT NULL",
        "transfers_so_far whole NOT NULL",
        "refused_so_far whole NOT NULL",
        "digest text NOT NULL",
    ],
    "sessions": [
        "session whole PRIMARY KEY",
        "client wide NOT NULL",
        "requests whole NOT NULL",
        "last_commit whole NOT NULL",
        "evicted_by whole",
    ],
    "accounts": [
        "timestamp whole PRIMARY KEY",
        "id wide NOT NULL UNIQUE",
        "debits_pending wide NOT NULL",
        "debits_posted wide NOT NULL",
        "credits_pending wide NOT NULL",
        "credits_posted wide NOT NULL",
        "user_data_128 wide NOT NULL",
        "user_data_64 wide NOT NULL",
        "user_data_32 whole NOT NULL",
        "ledger whole NOT NULL",
        "code small NOT NULL",
        "flags small NOT NULL",
        "postings whole NOT NULL",
        "commit_number whole NOT NULL",
        "created_flags small NOT NULL",
    ],
    "transfers": [
        "timestamp whole PRIMARY KEY",
        "id wide NOT NULL UNIQUE",
        "debit_account_id wide NOT NULL",
        "credit_account_id wide NOT NULL",
        "amount wide NOT NULL",
        "pending_id wide NOT NULL",
        "user_data_128 wide NOT NULL",
        "user_data_64 wide NOT NULL",
        "user_data_32 whole NOT NULL",
        "timeout whole NOT NULL",
        "ledger whole NOT NULL",
        "code small NOT NULL",
        "flags small NOT NULL",
        "commit_number whole NOT NULL",
        "state text",
        "expires_at whole",
        "ended_at whole",
        "ended_by wide",
    ],
    "postings": [
        "account_id wide NOT NULL",
        "timestamp whole NOT NULL",
        "number whole NOT NULL",
        "transfer_id wide NOT NULL",
        "counterparty_id wide NOT NULL",
        "debit wide NOT NULL",
        "credit wide NOT NULL",
        "debits_posted wide NOT NULL",
        "credits_posted wide NOT NULL",
        "balance wide NOT NULL",
        "PRIMARY KEY (account_id, timestamp)",
    ],
    "balances": [
        "account_id wide NOT NULL",
        "timestamp whole NOT NULL",
        "debits_pending wide NOT NULL",
        "debits_posted wide NOT NULL",
        "credits_pending wide NOT NULL",
        "credits_posted wide NOT NULL",
        "PRIMARY KEY (account_id, timestamp)",
    ],
    "refused": [
        "commit_number whole NOT NULL",
        "place small NOT NULL",
        "operation text NOT NULL",
        "result text NOT NULL",
        "id wide NOT NULL",
        "event text NOT NULL",
        "PRIMARY KEY (commit_number, place)",
    ],
}
# Rows of these lie in the order of their keys (SQLite).
BY_KEY = ("postings", "balances", "refused")

# What a file of names gives: no part of the history.
NAMES = [
    "kind text NOT NULL",
    "number wide NOT NULL",
    "name text NOT NULL",
    "places small NOT NULL",
    "PRIMARY KEY (kind, number)",
]

# What each row is found by.
KEYS = {
    "position": ["one"],
    "entries": ["commit_number"],
    "sessions": ["session"],
    "accounts": ["timestamp"],
    "transfers": ["timestamp"],
    "postings": ["account_id", "timestamp"],
    "balances": ["account_id", "timestamp"],
    "refused": ["commit_number", "place"],
}

HELD = "flags & 10 <> 0"  # of a transfer without postings: one that is pending, or a void

INDEXES = [
    "CREATE INDEX accounts_by_ledger ON accounts(ledger)",
    "CREATE INDEX entries_by_client ON entries(client)",
    "CREATE INDEX pending_by_expiry ON transfers(expires_at) WHERE state = 'pending'",
    "CREATE INDEX pending_by_debit ON transfers(debit_account_id) WHERE state = 'pending'",
    "CREATE INDEX pending_by_credit ON transfers(credit_account_id) WHERE state = 'pending'",
    f"CREATE INDEX held_by_debit ON transfers(debit_account_id, timestamp) WHERE {HELD}",
    f"CREATE INDEX held_by_credit ON transfers(credit_account_id, timestamp) WHERE {HELD}",
    *(
        f"CREATE INDEX {table}_by_user_data_{bits} ON {table}(user_data_{bits}, timestamp)"
        f" WHERE user_data_{bits} <> 0"
        for table in ("accounts", "transfers")
        for bits in (128, 64, 32)
    ),
    "CREATE INDEX refused_by_id ON refused(id)",
    "CREATE INDEX refused_by_reason ON refused(operation, result, commit_number)",
]

SUMS = ("debits_pending", "debits_posted", "credits_pending", "credits_posted")

STATEMENT = """
CREATE VIEW statement AS
SELECT p.account_id, p.number, {time} AS time, p.counterparty_id, p.debit, p.credit, p.balance,
    p.transfer_id, p.timestamp
FROM postings AS p"""

PENDING_TRANSFERS = """
CREATE VIEW pending_transfers AS
SELECT t.id, {expiry} AS expires, t.debit_account_id, t.credit_account_id, t.amount, t.ledger,
    t.code, {time} AS time, coalesce(t.expires_at <= {now}, 1 = 0) AS overdue, t.expires_at,
    t.timestamp
FROM transfers AS t WHERE t.state = 'pending'
ORDER BY t.expires_at IS NULL, t.expires_at, t.timestamp"""

REFUSALS = """
CREATE VIEW refusals AS
SELECT operation, result, count(*) AS events, min(commit_number) AS first_commit,
    max(commit_number) AS last_commit
FROM refused GROUP BY operation, result"""

RETRIES = """
CREATE VIEW retries AS
SELECT r.id, r.operation, r.commit_number, r.place, {time} AS time
FROM refused AS r JOIN entries AS e ON e.commit_number = r.commit_number
WHERE r.result = 'exists'"""

SESSION_LIST = """
CREATE VIEW session_list AS
SELECT s.session, s.client, {registered} AS registered, s.requests, s.last_commit, {last} AS last,
    s.evicted_by, {evicted} AS evicted, e.time AS registered_at, l.time AS last_at,
    v.time AS evicted_at
FROM sessions AS s
JOIN entries AS e ON e.commit_number = s.session
JOIN entries AS l ON l.commit_number = s.last_commit
LEFT JOIN entries AS v ON v.commit_number = s.evicted_by"""

EVICTIONS = """
CREATE VIEW evictions AS
SELECT s.evicted_by AS commit_number, {evicted} AS time, s.session, s.client,
    v.client AS by_client, s.requests, s.last_commit
FROM sessions AS s JOIN entries AS v ON v.commit_number = s.evicted_by"""


def _sqlite_time(column: str) -> str:
    """The text of a time in nanoseconds, exact."""
    return (
        f"strftime('%Y-%m-%dT%H:%M:%S', {column} / 1000000000, 'unixepoch')"
        f" || printf('.%09dZ', {column} % 1000000000)"
    )


def _postgres_time(column: str) -> str:
    return (
        f"to_char(to_timestamp({column} / 1000000000) AT TIME ZONE 'UTC',"
        " 'YYYY-MM-DD\"T\"HH24:MI:SS')"
        f" || '.' || lpad(({column} % 1000000000)::text, 9, '0') || 'Z'"
    )


SQLITE_NOW = "CAST(strftime('%s', 'now') AS INTEGER) * 1000000000"
POSTGRES_NOW = "floor(extract(epoch FROM now()))::bigint * 1000000000"
LIMB = 10_000_000_000  # a part of a number: ten decimal digits


def _limb(column: str, at: int) -> str:
    """Ten digits of a number, the lowest ones at 0."""
    if at > 1:
        integer = "0"
    else:
        integer = f"{column} / {LIMB}" if at else f"{column} % {LIMB}"
    text = f"CAST(substr({column}, {-10 * (at + 1)}, 10) AS INTEGER)"
    return f"CASE typeof({column}) WHEN 'integer' THEN {integer} ELSE {text} END"


def _sqlite_trial_balance() -> str:
    """Sums of four limbs of ten digits each, and their carries: exact for sums of any length.
    `sum` over TEXT would be a REAL, and over great INTEGERs an overflow."""
    limbs = ",\n".join(
        f"    sum({_limb(column, at)}) AS {column}_{at}" for column in SUMS for at in range(4)
    )
    carried, shown = [], []
    for column in SUMS:
        carry = f"{column}_0"
        carried.append(f"    {column}_0 % {LIMB} AS {column}_0")
        for at in range(1, 4):
            carry = f"({column}_{at} + {carry} / {LIMB})"
            digits = carry if at == 3 else f"{carry} % {LIMB}"
            carried.append(f"    {digits} AS {column}_{at}")
        low, next_one = f"{column}_0", f"{column}_1"
        is_integer = (
            f"{column}_3 = 0 AND {column}_2 = 0 AND ({next_one} < 922337203"
            f" OR ({next_one} = 922337203 AND {low} <= 6854775807))"
        )
        text = f"ltrim(printf('%d%010d%010d%010d', {column}_3, {column}_2, {next_one}, {low}), '0')"
        shown.append(
            f"    CASE WHEN {is_integer}\n        THEN {next_one} * {LIMB} + {low}"
            f" ELSE {text} END AS {column}"
        )
    return (
        "CREATE VIEW trial_balance AS\nWITH limbs AS (SELECT ledger, count(*) AS accounts,\n"
        + limbs
        + "\nFROM accounts GROUP BY ledger), carried AS (SELECT ledger, accounts,\n"
        + ",\n".join(carried)
        + "\nFROM limbs), sums AS (SELECT ledger, accounts,\n"
        + ",\n".join(shown)
        + "\nFROM carried)\nSELECT *, debits_pending = credits_pending"
        " AND debits_posted = credits_posted AS balances FROM sums"
    )


POSTGRES_TRIAL_BALANCE = (
    "CREATE VIEW trial_balance AS SELECT ledger, count(*) AS accounts, "
    + ", ".join(f"sum({it}) AS {it}" for it in SUMS)
    + ", sum(debits_pending) = sum(credits_pending)"
    " AND sum(debits_posted) = sum(credits_posted) AS balances FROM accounts GROUP BY ledger"
)

SQLITE_KINDS = {"small": "INTEGER", "whole": "INTEGER", "wide": "", "text": "TEXT"}
POSTGRES_KINDS = {"small": "integer", "whole": "bigint", "wide": "numeric(39)", "text": "text"}


def columns(table: str) -> List[str]:
    """The names of a table's columns."""
    return [it.split()[0] for it in TABLES[table] if not it.startswith("PRIMARY KEY")]


def _column(column: str, kinds: Dict[str, str]) -> str:
    if column.startswith("PRIMARY KEY"):
        return column
    name, kind, *rest = column.split()
    return " ".join(it for it in (name, kinds[kind], *rest) if it)


def _table(table: str, kinds: Dict[str, str]) -> str:
    listed = NAMES if table == "names" else TABLES[table]
    rows = ",\n    ".join(_column(it, kinds) for it in listed)
    return f"CREATE TABLE {table} (\n    {rows}\n)"


ACCOUNT_TRANSFERS = """
CREATE VIEW account_transfers AS
SELECT p.account_id, CASE WHEN t.debit_account_id = p.account_id THEN 'debit' ELSE 'credit' END
    AS side, t.*
FROM postings AS p JOIN transfers AS t ON t.timestamp = p.timestamp
UNION ALL SELECT debit_account_id, 'debit', t.* FROM transfers AS t WHERE t.flags & 10 <> 0
UNION ALL SELECT credit_account_id, 'credit', t.* FROM transfers AS t WHERE t.flags & 10 <> 0"""


# The digits of a shown number: 39 of 128 bits and the places, in groups of three.
WIDTH = 48
ZEROS = f"'{WIDTH * '0'}'"


def _padded(text: str, is_sqlite: bool) -> str:
    """Digits with zeros before them."""
    return (
        f"substr({ZEROS} || {text}, -{WIDTH})"
        if is_sqlite
        else f"right({ZEROS} || {text}, {WIDTH})"
    )


def _digits(column: str, is_sqlite: bool) -> str:
    """The digits of a number, without its sign."""
    text = f"CAST({column} AS TEXT)" if is_sqlite else f"{column}::text"
    return _padded(f"ltrim({text}, '-')", is_sqlite)


def _decimal(column: str, is_sqlite: bool) -> str:
    """A number with commas, a point and its unit, as text; NULL for a ledger without a name."""
    digits = _digits(column, is_sqlite)
    padded = _padded(f"substr({digits}, 1, {WIDTH} - l.places)", is_sqlite)
    groups = " || ',' || ".join(f"substr({padded}, {at}, 3)" for at in range(1, WIDTH, 3))
    sign = f"CASE WHEN CAST({column} AS TEXT) LIKE '-%' THEN '-' ELSE '' END"
    part = (
        f"CASE WHEN l.places > 0 THEN '.' || substr({digits}, {WIDTH + 1} - l.places) ELSE '' END"
    )
    shown = f"coalesce(nullif(ltrim({groups}, '0,'), ''), '0')"
    return f"CASE WHEN l.name IS NOT NULL THEN {sign} || {shown} || {part} || ' ' || l.name END"


def _named(view: str, kept: str, amounts: List[str], more: str) -> Callable[[bool], str]:
    """A view with names, and with each amount as it is written: the exact one is next to it."""

    def made(is_sqlite: bool) -> str:
        written = [f"{_decimal(it, is_sqlite)} AS {it.split('.')[1]}_written" for it in amounts]
        return f"CREATE VIEW {view} AS SELECT {', '.join([kept, *amounts, *written])}\n{more}"

    return made


def _join(kind: str, alias: str, column: str) -> str:
    return f"LEFT JOIN names AS {alias} ON {alias}.kind = '{kind}' AND {alias}.number = {column}"


NAMED_VIEWS = [
    _named(
        "named_accounts",
        "a.id, n.name, a.ledger, a.code, c.name AS code_name, a.flags",
        [f"a.{it}" for it in SUMS],
        f"FROM accounts AS a {_join('account', 'n', 'a.id')} {_join('code', 'c', 'a.code')}"
        f" {_join('ledger', 'l', 'a.ledger')}",
    ),
    _named(
        "named_transfers",
        "t.id, t.debit_account_id, d.name AS debit_name, t.credit_account_id,"
        " e.name AS credit_name, t.ledger, t.code, c.name AS code_name, t.state, t.timestamp",
        ["t.amount"],
        f"FROM transfers AS t {_join('account', 'd', 't.debit_account_id')}"
        f" {_join('account', 'e', 't.credit_account_id')} {_join('code', 'c', 't.code')}"
        f" {_join('ledger', 'l', 't.ledger')}",
    ),
    _named(
        "named_statement",
        "p.account_id, n.name, p.number, p.timestamp, p.counterparty_id, o.name AS"
        " counterparty_name, p.transfer_id, t.code, c.name AS code_name",
        ["p.debit", "p.credit", "p.balance"],
        "FROM postings AS p JOIN accounts AS a ON a.id = p.account_id"
        f" JOIN transfers AS t ON t.timestamp = p.timestamp {_join('code', 'c', 't.code')}"
        f" {_join('account', 'n', 'p.account_id')} {_join('account', 'o', 'p.counterparty_id')}"
        f" {_join('ledger', 'l', 'a.ledger')}",
    ),
    _named(
        "named_trial_balance",
        "b.ledger, l.name, b.accounts, b.balances",
        [f"b.{it}" for it in SUMS],
        f"FROM trial_balance AS b {_join('ledger', 'l', 'b.ledger')}",
    ),
]


def _plain_views(shown: Callable[[str], str], now: str) -> List[str]:
    """The views that both have, by what shows a time, and what the time is now."""
    return [
        STATEMENT.format(time=shown("p.timestamp")),
        PENDING_TRANSFERS.format(time=shown("t.timestamp"), expiry=shown("t.expires_at"), now=now),
        REFUSALS,
        RETRIES.format(time=shown("e.time")),
        SESSION_LIST.format(
            registered=shown("e.time"), last=shown("l.time"), evicted=shown("v.time")
        ),
        EVICTIONS.format(evicted=shown("v.time")),
        ACCOUNT_TRANSFERS,
    ]


def sqlite_schema() -> List[str]:
    """The statements that make the tables and views in SQLite."""
    tables = [
        _table(it, SQLITE_KINDS) + (" WITHOUT ROWID" if it in BY_KEY else "")
        for it in (*TABLES, "names")
    ]
    named = [it(True) for it in NAMED_VIEWS]
    return [
        *tables,
        *INDEXES,
        _sqlite_trial_balance(),
        *_plain_views(_sqlite_time, SQLITE_NOW),
        *named,
    ]


def postgres_schema() -> List[str]:
    """The statements that make the tables and views in PostgreSQL."""
    tables = [_table(it, POSTGRES_KINDS) for it in (*TABLES, "names")]
    named = [it(False) for it in NAMED_VIEWS]
    return [
        *tables,
        *INDEXES,
        POSTGRES_TRIAL_BALANCE,
        *_plain_views(_postgres_time, POSTGRES_NOW),
        *named,
    ]


VIEWS = (
    "statement",
    "trial_balance",
    "pending_transfers",
    "refusals",
    "retries",
    "session_list",
    "evictions",
    "account_transfers",
    "named_accounts",
    "named_transfers",
    "named_statement",
    "named_trial_balance",
)
