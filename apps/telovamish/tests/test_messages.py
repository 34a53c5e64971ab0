"""What is said of a wrong text: the place, the word there, its line, and what may be there. Each row
has its reason as its name."""
from __future__ import annotations

import pytest

from telovamish.filling import Known, Live
from telovamish.texts import Text, Wrong

FIELDS = "debit_account_id, credit_account_id"


def message(text: str, known: Known) -> list[str]:
    """The lines of the fault of a text, without the command's name."""
    read = Text(known)
    try:
        read.feed(text.encode())
        while statement := read.next():
            known.note(statement.pair)
        read.end()
    except Wrong as why:
        return str(why).removeprefix("telovamish: ").rstrip("\n").split("\n")
    return []


def rows(*cases: tuple[str, str, str]):
    """Cases by name: a text, and the first line of its fault without its place."""
    return pytest.mark.parametrize(
        "text, said", [pytest.param(text, said, id=name) for name, text, said in cases]
    )


WORDS = rows(
    ("misspelt-operation", "create_acounts;", "unknown operation 'create_acounts'; did you mean create_accounts?"),
    ("operation-of-another-case", "REGISTER;", "unknown operation 'REGISTER'; did you mean register?"),
    ("misspelt-field", "create_accounts ledgre=1;", "unknown field 'ledgre'; did you mean ledger?"),
    ("misspelt-flag", "create_accounts flags=linkd;", "unknown flag 'linkd'; did you mean linked?"),
    ("no-word-is-near", "zzzz;", "unknown word 'zzzz'"),
    ("word-of-psql", "SELECT 1;", "unknown word 'SELECT'"),
    ("query-of-tigerbeetle", "query_accounts;", "query_accounts is no operation here: the books answer it: telovamish --books TABLES, tb-sql ask (docs/use/READING.md)"),
    ("changes-of-tigerbeetle", "get_change_events;", "get_change_events is no operation here: tbd dump FILE | telovamish audit has them (docs/use/READING.md)"),
    ("byte-order-mark", "\ufeffregister;", "found a byte order mark (U+FEFF): save the text as UTF-8 without it"),
    ("no-break-space", "register;\u00a0", "found '<U+00A0>'"),
    ("comment-of-sql", "-- x\nregister;", "found '--'"),
    ("braces-of-json", '{"id": 1}', "found '{\"id\":'"),
)  # fmt: skip
PLACES = rows(
    ("field-twice", "create_accounts id=1 id=2;", "id was given before in this event; ',' comes between events"),
    ("client-twice", "client=1 client=1 register;", "client was given before in this statement"),
    ("comma-between-flags", "create_accounts flags=linked,history;", "flags are joined by '|': flags=..|history"),
    ("flag-of-transfers", "create_accounts flags=pending;", "pending is a flag of transfers only"),
    ("flag-of-accounts", "create_transfers flags=history;", "history is a flag of accounts only"),
    ("field-of-transfers", "create_accounts amount=1;", "'amount' is not allowed here"),
    ("field-of-accounts-in-a-lookup", "lookup_accounts ledger=1;", "'ledger' is not allowed here"),
    ("client-after-its-operation", "register client=1;", "'client' comes before register, or ';' is missing before it"),
    ("no-semicolon-before-an-operation", "register register;", "';' is missing before 'register'"),
    ("no-semicolon-before-a-client", "lookup_accounts id=1 client=1;", "';' is missing before 'client'"),
    ("register-with-a-session", "session=5 register;", "a register has no session and no request"),
    ("register-with-a-request", "request=5 register;", "a register has no session and no request"),
    ("text-ends-in-a-statement", "lookup_accounts id=1", "the text ends within a statement"),
    ("no-value", "lookup_accounts id=;", "found ';'"),
    ("no-equals-sign", "lookup_accounts id 1;", "found '1'"),
    ("two-semicolons", "register;;", "found ';'"),
    ("comma-at-the-end", "lookup_accounts id=1,;", "found ';'"),
)  # fmt: skip
NUMBERS = rows(
    ("client-0", "client=0 register;", "client cannot be 0"),
    ("client-0-in-hex", "client=0x00 register;", "client cannot be 0"),
    ("request-0", "request=0 lookup_accounts;", "request cannot be 0"),
    ("negative", "lookup_accounts id=-1;", "'-1' is no whole number"),
    ("fraction-of-an-id", "lookup_accounts id=1.5;", "'1.5' is no whole number"),
    ("digits-with-an-underscore", "lookup_accounts id=1_000;", "'1_000' is no whole number"),
    ("hex-of-another-case", "lookup_accounts id=0X1;", "'0X1' is no whole number"),
    ("code-of-17-bits", "create_accounts code=65536;", "'65536' is too large for code"),
    ("ledger-of-33-bits", "create_accounts ledger=4294967296;", "'4294967296' is too large for ledger"),
    ("id-of-129-bits", "lookup_accounts id=0x100000000000000000000000000000000;", "'0x100000000000000000000000000000000' is too large for id"),
    ("at-of-65-bits", "at=18446744073709551616 register;", "'18446744073709551616' is too large for at"),
    ("day-that-does-not-exist", "at=2026-02-30 register;", "'2026-02-30' is no date from 1970-01-01 to 2262-04-11"),
    ("date-before-1970", "at=1969-12-31 register;", "'1969-12-31' is no date from 1970-01-01 to 2262-04-11"),
    ("date-without-a-zone", "at=2026-11-26T10:00 register;", "'2026-11-26T10:00' is no date from 1970-01-01 to 2262-04-11"),
    ("date-as-an-id", "lookup_accounts id=2026-11-26;", "'2026-11-26' is no whole number"),
)  # fmt: skip


@WORDS
def test_a_word_that_is_not_known(text: str, said: str) -> None:
    assert message(text, Live(1))[0].split(": ", 1)[1] == said


@PLACES
def test_a_word_in_a_wrong_place(text: str, said: str) -> None:
    assert message(text, Live(1))[0].split(": ", 1)[1] == said


@NUMBERS
def test_a_wrong_number(text: str, said: str) -> None:
    assert message(text, Live(1))[0].split(": ", 1)[1] == said


@rows(
    ("no-client", "register;", "a client comes first: write client=N before register"),
    ("no-session", "client=7 lookup_accounts;", "client 7 has no session here: write session=N before lookup_accounts"),
    ("session-after-a-register", "client=7 register; lookup_accounts;", "client 7 has no session here: write session=N before lookup_accounts"),
)  # fmt: skip
def test_what_a_script_does_not_fill_in(text: str, said: str) -> None:
    """A script knows of sessions only what its statements say."""
    assert message(text, Known())[0].split(": ", 1)[1] == said


@pytest.mark.parametrize(
    "text, place",
    [
        pytest.param("registe;", "line 1, column 1", id="first-letter-of-a-misspelt-word"),
        pytest.param("flags; register;", "line 1, column 1", id="word-in-a-wrong-place"),
        pytest.param("register;\n\n  wrong;", "line 3, column 3", id="third-line"),
        pytest.param("register; # a comment\nwrong;", "line 2, column 1", id="after-a-comment"),
        pytest.param("lookup_accounts id=1,\n\tid=x;", "line 2, column 5", id="tab-is-a-column"),
        pytest.param("# ü\nregister; ü", "line 2, column 11", id="bytes-are-counted"),
        pytest.param("# ü ü", "", id="any-byte-in-a-comment"),
        pytest.param("", "", id="empty-text"),
        pytest.param(
            "create_accounts code=655360;", "line 1, column 26", id="number-as-far-as-it-fits"
        ),
        pytest.param("at=2026-11-31 register;", "line 1, column 13", id="date-as-far-as-it-exists"),
        pytest.param("lookup_accounts id=12x;", "line 1, column 22", id="digit-that-is-none"),
    ],
)
def test_the_place_of_a_fault(text: str, place: str) -> None:
    found = message(text, Live(1))
    assert (found[0].split(": ")[0] if found else "") == place


@pytest.mark.parametrize(
    "text, shown, under, expected",
    [
        pytest.param(
            "register x;", "  register x;", 11, "expected ';'", id="only-a-semicolon-follows"
        ),
        pytest.param(
            "lookup_accounts id=1 x;", "  lookup_accounts id=1 x;", 23, "expected ',' or ';'",
            id="a-lookup-has-ids-only",
        ),
        pytest.param(
            "create_acounts;", "  create_acounts;", 2, "expected at, client, session, request, register, "
            "create_accounts, create_transfers, lookup_accounts or lookup_transfers",
            id="a-misspelt-word-is-marked-at-its-first-letter",
        ),
        pytest.param(
            "\tlookup_accounts x;", "  \tlookup_accounts x;", 19, "expected id or ';'",
            id="a-tab-stays-one",
        ),
        pytest.param(
            "lookup_accounts id=\a;", "  lookup_accounts id=?;", 21,
            "expected a number up to 2^128 - 1", id="no-control-byte-reaches-the-terminal",
        ),
        pytest.param(
            "create_accounts flags=x;", "  create_accounts flags=x;", 24,
            "expected linked, debits_must_not_exceed_credits, credits_must_not_exceed_debits, "
            "history, imported, closed or a number up to 65535", id="flags-by-their-bits",
        ),
    ],
)  # fmt: skip
def test_the_line_and_what_may_be_there(text: str, shown: str, under: int, expected: str) -> None:
    _, line, mark, last = message(text, Live(1))
    assert (line, mark.rstrip("^").replace("\t", " "), last.strip()) == (
        shown, " " * under, expected,
    )  # fmt: skip


def test_a_long_line_is_cut_around_the_place() -> None:
    text = f"lookup_accounts {', '.join(f'id={it}' for it in range(1, 100))}, x={'y' * 99};"
    _, line, mark, _ = message(text, Live(1))
    assert line.startswith("  ...") and line.endswith("...") and len(line) <= 110
    assert line[mark.index("^") :].startswith("x=y")
    assert "id=97, id=98, id=99, " in line
