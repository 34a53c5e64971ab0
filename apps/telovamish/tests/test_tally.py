"""What is refused among the statements of a text, and `--strict`."""
from __future__ import annotations

import pytest
from conftest import ran

ACCOUNTS = "create_accounts id=1 ledger=7 code=1, id=2 ledger=7 code=1;"
GOOD = "create_transfers id=11 debit_account_id=1 credit_account_id=2 amount=5 ledger=7 code=1;"
FAILS = "create_transfers id=12 debit_account_id=1 credit_account_id=9 amount=5 ledger=7 code=1;"
REFUSED = "client=9 session=5 request=3 lookup_accounts id=1;"
LAST = "lookup_accounts id=2;"

CASES = [
    pytest.param([ACCOUNTS, GOOD, LAST], "", "", id="all-done"),
    pytest.param([ACCOUNTS, GOOD, GOOD, LAST], "", "", id="exists"),
    pytest.param(
        [ACCOUNTS, FAILS, LAST],
        "1 of 3 events failed",
        "line 2, column 1: event 0, id 12: credit_account_not_found",
        id="a-failed-event",
    ),
    pytest.param(
        [ACCOUNTS, REFUSED, LAST],
        "1 of 3 statements refused",
        "line 2, column 1: refused: no_session: the client has no session: register",
        id="a-refusal",
    ),
    pytest.param(
        [REFUSED, REFUSED, FAILS],
        "2 of 3 statements refused, 1 of 1 event failed",
        "line 1, column 1: refused: no_session: the client has no session: register",
        id="both",
    ),
    pytest.param(["register;", LAST], "", "", id="no-money"),
]


@pytest.mark.parametrize("form", ["run", "--command"])
@pytest.mark.parametrize("lines, said, strict", CASES)
def test_how_much_was_refused_is_said_at_the_end(tbs, form, lines, said, strict):
    text = "\n".join(lines)
    words, given = (["run"], text.encode()) if form == "run" else (["--command", text], b"")
    status, _, errors = ran(*words, given=given, env={"TBS": tbs})
    assert (status, errors) == (0, f"telovamish: {said}\n" if said else "")


@pytest.mark.parametrize("as_json", [[], ["--json"], ["--quiet"]], ids=["table", "json", "quiet"])
@pytest.mark.parametrize("lines, said, strict", CASES)
def test_a_strict_text_ends_with_the_first(tbs, as_json, lines, said, strict):
    status, out, errors = ran(
        "run", "--strict", *as_json, given="\n".join(lines).encode(), env={"TBS": tbs}
    )
    if not strict:
        assert (status, errors) == (0, "")
        return
    assert (status, errors) == (3, f"telovamish: {strict}. What follows it is not sent\n")
    assert b"id  debits_posted" not in out  # the last statement


def test_a_strict_file_is_named(tbs, tmp_path):
    first, second = tmp_path / "first", tmp_path / "second"
    first.write_text(f"{ACCOUNTS}\n{FAILS}")
    second.write_text(LAST)
    status, out, errors = ran("run", "--strict", str(first), str(second), env={"TBS": tbs})
    assert (status, errors.startswith(f"telovamish: {first}: line 2, column 1: ")) == (3, True)
    assert b"debits_posted" not in out


def test_it_is_said_although_the_text_ends_in_a_fault(tbs):
    text = f"{ACCOUNTS} {FAILS} wrong;"
    status, _, errors = ran("run", given=text.encode(), env={"TBS": tbs})
    assert status == 2
    assert "unknown word 'wrong'" in errors and "1 of 3 events failed\n" in errors
