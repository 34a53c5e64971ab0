"""What tb-sql adds: names and decimal places in replies, and answers by tables of the books."""
from __future__ import annotations

import json
import os
import subprocess
import sys

import pytest
from conftest import APP, ran
from terminals import Terminal

TB_SQL = APP.parent / "books" / "tb-sql"
NAMES = """[ledger.700]
name = "EUR"
places = 2
[code]
10 = "customer deposit"
[account]
1 = "House"
"""
TRANSFER = "debit_account_id=1 credit_account_id=2 ledger=700 code=10"
HISTORY = f"""client=7 session=0 register;
client=7 session=1 create_accounts id=1 ledger=700 code=10 flags=history, id=2 ledger=700 code=10;
create_transfers id=11 amount=188125 {TRANSFER}, id=12 amount=5 {TRANSFER};
lookup_transfers id=11, id=12; lookup_accounts id=2;
"""
TABLE = """\
id  debit_account_id  credit_account_id                 amount  ledger   code
--  ----------------  -----------------  ---------------------  -------  -------------------
11  1 House                           2  1,881.25 EUR (188125)  700 EUR  10 customer deposit
12  1 House                           2      0.05 EUR      (5)  700 EUR  10 customer deposit
"""


@pytest.fixture
def names(tmp_path):
    path = tmp_path / "books.toml"
    path.write_text(NAMES)
    return str(path)


@pytest.fixture
def env(tbs, tbd):
    return {"TBS": tbs, "TBD": tbd, "COLUMNS": "160"}


@pytest.fixture
def dump(tmp_path, tbs):
    """A history as a dump."""
    script = ran("script", given=HISTORY.encode())[1]
    path = tmp_path / "a.dump"
    path.write_bytes(subprocess.run([tbs, "dump", "2"], input=script, capture_output=True).stdout)
    return path


@pytest.fixture
def books(tmp_path, env, dump, names):
    """The tables of the history."""
    path = str(tmp_path / "books.sqlite")
    load([path, "--names", names], env, dump.read_bytes())
    return path


def load(words, env, given=b""):
    words = [sys.executable, str(TB_SQL), "load", *words, "--quiet"]
    subprocess.run(words, input=given, check=True, env={**os.environ, **env})


def cut(out):
    """The lines of a table up to the column of times."""
    lines = out.decode().splitlines()
    end = next(it.find("timestamp") for it in lines if "timestamp" in it)
    return "".join(f"{it[:end].rstrip()}\n" for it in lines)


def test_names_in_tables(env, names):
    status, out, errors = ran("run", "--names", names, given=HISTORY.encode(), env=env)
    assert (status, errors) == (0, "")
    assert TABLE in cut(out)
    status, out, _ = ran(
        "run", "--names", names, given=HISTORY.encode(), env={**env, "COLUMNS": "40"}
    )
    assert b"amount             1,881.25 EUR (188125)\nledger             700 EUR\n" in out
    assert b"debits_posted   0.00 EUR (0)\ncredits_posted  1,881.30 EUR (188130)\n" in out
    plain = ran("run", given=HISTORY.encode(), env=env)[1]
    assert b"EUR" not in plain and b"188125" in plain


def test_names_in_json(env, names, dump, tbs):
    """Further fields; all others are as without names."""
    replies = subprocess.run([tbs, "replay"], input=dump.read_bytes(), capture_output=True).stdout
    for form, given, key in (
        (["replies"], replies, "results"),
        (["audit"], dump.read_bytes(), "event"),
        (["run", "--json"], HISTORY.encode(), "results"),
    ):
        with_names = lines_of(ran(*form, "--names", names, given=given, env=env))
        plain = lines_of(ran(*form, given=given, env=env))
        found = [it for line in with_names for it in records_of(line.get(key, []))]
        (one,) = [it for it in found if it.get("amount") == "188125"]
        wanted = {"amount_written": "1,881.25 EUR", "ledger_name": "EUR", "debit_name": "House"}
        assert wanted.items() <= one.items() and one["code_name"] == "customer deposit", form
        assert "credit_name" not in one
        for line, old in zip(with_names, plain, strict=True):
            for it, before in zip(records_of(line.get(key, [])), records_of(old.get(key, []))):
                assert {**it, **before, "timestamp": 0} == {**it, "timestamp": 0}, form


def lines_of(ended):
    status, out, errors = ended
    assert (status, errors) == (0, "")
    return [json.loads(it) for it in out.splitlines()]


def records_of(found):
    return found if isinstance(found, list) else [found]


def test_a_wrong_file_of_names(env, tmp_path):
    path = tmp_path / "wrong.toml"
    path.write_text(NAMES.replace("places = 2", "places = -2"))
    wanted = f"telovamish: {path}, line 3, key ledger.700.places: places are 0 to 38\n"
    for form in (["run"], ["replies"], ["audit"], ["repl", "--command", "register;"]):
        assert ran(*form, "--names", str(path), env=env) == (2, b"", wanted), form
    status, _, errors = ran("run", "--names", str(tmp_path / "none"), env=env)
    assert (status, errors) == (1, f"telovamish: {tmp_path}/none: No such file or directory\n")


def test_questions(books, env):
    text = """get_account_transfers account_id=1 limit=2;  # both
    query_accounts code=10 flags=reversed;
    get_account_balances account_id=1 flags=debits|reversed timestamp_max=1970-01-01;
    query_transfers limit=0"""
    status, out, errors = ran("--books", books, "--command", text, env=env)
    assert (status, errors) == (0, "")
    assert TABLE in cut(out)
    lines = [it for it in out.decode().splitlines() if "at commit" in it]
    assert lines == [f"{it}, at commit 5" for it in ("2 rows", "2 rows", "2 rows", "0 rows")]
    assert b"1,881.30 EUR (188130)" in out.split(b"query")[0]
    status, out, _ = ran("run", "--json", "--books", books, given=text.encode(), env=env)
    found = [json.loads(it) for it in out.splitlines()]
    assert [it["commit"] for it in found] == ["5"] * 4
    assert [it["id"] for it in found[1]["results"]] == ["2", "1"]
    assert found[0]["results"][0]["amount_written"] == "1,881.25 EUR"


@pytest.mark.parametrize(
    "text, says",
    [
        ("\n get_account_transfers id=1;", "line 2: get_account_transfers has no field id"),
        ("query_accounts limit;", "line 1: 'limit' is no field of its own, as limit=10"),
        (
            "query_accounts\nlimit=x;",
            "line 1: limit must be a number from 0 to 4294967295, not 'x'",
        ),
        ("query_accounts; query_account;", "line 1, column 17: unknown operation"),
        ("query_accounts;\nregister;", "--books has tables and no ledger: name one by --file"),
    ],
)  # fmt: skip
def test_a_wrong_question(books, env, text, says):
    status, _, errors = ran("run", "--books", books, given=text.encode(), env=env)
    assert (status, says in errors) == (2, True), errors


def test_wrong_tables(env, tmp_path):
    status, out, errors = ran("--books", str(tmp_path / "none"), "--command", "x", env=env)
    assert (status, out) == (1, b"") and "tb-sql load makes it" in errors
    (tmp_path / "text").write_text("no tables")
    status, out, errors = ran("--books", str(tmp_path / "text"), "--command", "x", env=env)
    assert out == b"" and "file is not a database" in errors, errors


def test_what_was_just_written_is_read(env, tmp_path):
    """A question waits for the last commit that its ledger replied with; statements before it were
    served, and none after it."""
    ledger, books = str(tmp_path / "a.tbk"), str(tmp_path / "books.sqlite")
    accounts = "create_accounts id=1 ledger=700 code=10, id=2 ledger=700 code=10;"
    assert ran("--file", ledger, "--command", accounts, env=env)[0] == 0
    load([books, "--ledger", ledger], env)
    follow = subprocess.Popen(
        [sys.executable, str(TB_SQL), "load", books, "--ledger", ledger, "--follow", "--quiet"],
        env={**os.environ, **env},
    )
    try:
        text = f"query_transfers; create_transfers id=11 amount=5 {TRANSFER};query_transfers;exit"
        words = ["--file", ledger, "--books", books, "--command", text.removesuffix("exit")]
        status, out, errors = ran(*words, env=env)
    finally:
        follow.terminate()
        follow.wait()
    assert (status, errors) == (0, "")
    lines = [it for it in out.decode().splitlines() if "row" in it or "created" in it]
    assert lines == ["0 rows, at commit 2", "1 of 1 transfer created", "1 row, at commit 3"]


def test_without_tb_sql(names):
    """One line says what is missing."""
    code = "import sys; sys.modules['tb_sql'] = None; from telovamish.commands import main; main()"
    path = os.pathsep.join((str(APP / "src"), str(APP.parent.parent / "clients/python/src")))
    it = subprocess.run(
        [sys.executable, "-c", code, "replies", "--names", names],
        env={**os.environ, "PYTHONPATH": path},
        capture_output=True,
        input=b"",
    )
    assert it.returncode == 1 and it.stderr.count(b"\n") == 1
    assert it.stderr.startswith(b"telovamish: --names and --books need tb-sql: install")


def test_at_a_terminal(books, env, state):
    it = Terminal("--books", books, state=state, env=env)
    it.wait("> ")
    it.type("get_account_tr\t account_\t1 li\t1;\r")
    it.wait("1,881.25 EUR (188125)")
    it.wait("1 row, at commit 5")
    it.wait("\n> ")
    it.enter("query_accounts flags=debits", "telovamish: line 1: no flag 'debits': reversed")
    it.wait("\n> ")
    it.enter("lookup_accounts id=1;", "telovamish: --books has tables and no ledger")
    it.wait("\n> ")
    it.type("exit\r")
    assert it.ended() == 0
