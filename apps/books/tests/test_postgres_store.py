"""The same tables in PostgreSQL: each value is that of the file of SQLite. Makes a server of its
own in a folder, as postgres if this user is root."""

import contextlib
import itertools
import os
import pathlib
import pwd
import re
import shutil
import subprocess
import tempfile

import pytest

from helpers.drawn import drawn
from helpers.histories import NAMES, history
from helpers.made import MAX, Made, account, transfer
from helpers.sample import sample
from helpers.tables import TOP, Tables, entered
from tb_sql.errors import Failed, Refused, Stop
from tb_sql.loading import Loading
from tb_sql.pages.queries import Tables as Read
from tb_sql.pages.server import make_app
from tb_sql.pages.site import Site
from tb_sql.postgres_store import PostgresStore
from tb_sql.reading import PostgresReading, SqliteReading
from tb_sql.schema import TABLES, VIEWS
from tb_sql.sqlite_store import SqliteStore

psycopg = pytest.importorskip("psycopg")
PROGRAMS = sorted(pathlib.Path("/usr/lib/postgresql").glob("*/bin"))
pytestmark = [
    pytest.mark.slow(reason="a server of PostgreSQL", seconds=40),
    pytest.mark.skipif(not PROGRAMS, reason="PostgreSQL is not installed"),
]
NUMBERS = itertools.count()


def run(*words):
    """Runs a program of PostgreSQL, which refuses root."""
    owner = ["runuser", "-u", "postgres", "--"] if os.getuid() == 0 else []
    subprocess.run([*owner, *map(str, words)], check=True, stdout=subprocess.DEVNULL)


@pytest.fixture(scope="module")
def folder():
    """The folder of a server of PostgreSQL."""
    folder = pathlib.Path(tempfile.mkdtemp())
    if os.getuid() == 0:
        owner = pwd.getpwnam("postgres")
        os.chown(folder, owner.pw_uid, owner.pw_gid)
    bin, data = PROGRAMS[-1], folder / "data"
    run(bin / "initdb", "-D", data, "-A", "trust", "-U", "postgres", "--no-sync", "-E", "UTF8")
    options = f"-k {folder} -c listen_addresses='' -c fsync=off"
    run(bin / "pg_ctl", "-D", data, "-w", "-o", options, "-l", data / "log", "start")
    yield folder
    run(bin / "pg_ctl", "-D", data, "-m", "immediate", "-w", "stop")
    shutil.rmtree(folder)


class Both(Tables):
    """A file of tables, and a database of PostgreSQL."""

    def __init__(self, room, folder):
        super().__init__(room)
        self.folder = folder
        self.url = self.made()

    def made(self, options=""):
        """The address of a new database."""
        name = f"test_{next(NUMBERS)}"
        with contextlib.closing(psycopg.connect(self.address("postgres"), autocommit=True)) as it:
            it.execute(f"CREATE DATABASE {name} {options}")
        return self.address(name)

    def address(self, name):
        return f"postgresql://postgres@/{name}?host={self.folder}"

    def connect(self):
        return contextlib.closing(
            psycopg.connect(self.url, autocommit=True, client_encoding="UTF8")
        )

    def load_both(self, made):
        self.load(made)
        return self.load_there(made)

    def load_there(self, made, count=None):
        return entered(PostgresStore(self.url), made.steps[:count])

    def check_same(self):
        """The rows of all tables and views are the same."""
        here, there = SqliteReading(self.path), PostgresReading(self.url)
        try:
            for name in (*TABLES, *VIEWS, "names"):
                rows = [
                    sorted(map(str, map(list, it.each(f"SELECT * FROM {name}")[1])))
                    for it in (here, there)
                ]
                assert rows[0] == rows[1], name
        finally:
            here.close()
            there.close()


@pytest.fixture
def both(tmp_path, folder):
    return Both(tmp_path, folder)


@pytest.fixture
def reader(both):
    """The address for the role of the page docs/use/READING.md, made by the words there."""
    page = (TOP / "docs/use/READING.md").read_text(encoding="utf-8")
    block = next(it for it in page.split("```sql\n")[1:] if "CREATE ROLE" in it)
    both.load_both(history())
    with both.connect() as it:
        it.execute(block.split("```")[0])
    yield both.url.replace("postgres@", "books_reader@")
    with both.connect() as it:
        it.execute("DROP OWNED BY books_reader; DROP ROLE books_reader")


@pytest.mark.parametrize("seed", range(5))
def test_drawn(both, tbs, seed):
    """Drawn histories; with names, so that the views with them have rows."""
    steps = drawn(tbs, seed)
    entered(PostgresStore(both.url), steps)
    entered(SqliteStore(both.path, is_kept=False), steps)
    for store in (PostgresStore(both.url), SqliteStore(both.path)):
        store.write_names([(kind, 1, name, places) for kind, _, name, places in NAMES])
        store.close()
    both.check_same()


@pytest.mark.parametrize(
    "address",
    [
        "/",
        "/accounts",
        "/accounts?sort=balance",
        "/accounts?ledger=700&code=10&user_data=7",
        "/account/1",
        "/account/1/2026-09",
        "/trial-balance?at=2026-09-21",
        "/transfers",
        "/transfer/2000",
        "/pending",
        "/refusals",
        "/sessions",
        "/search?id=29",
        "/refusals/create_transfers/exceeds_credits",
        "/accounts?sort=id&page=1",
        "/query_transfers?limit=3",
        "/get_account_transfers?account_id=1&flags=debits",
        "/csv/statement.csv",
        "/csv/trial_balance.csv",
        "/csv/trial_balance.csv?at=2026-09-21",
        "/csv/named_trial_balance.csv?at=2026-09-21&spreadsheet=1",
        "/csv/named_statement.csv",
        "/csv/transfers.csv?from=2026-09-21&to=2026-09-21",
    ],
)
def test_a_page_by_a_role_that_reads(both, reader, address):
    """It is that of SQLite."""
    sites = [make_app(Site(it)).test_client() for it in (both.path, reader)]
    here, there = (it.get(address, base_url="http://localhost") for it in sites)
    assert there.status_code == here.status_code
    assert there.get_data(as_text=True) == here.get_data(as_text=True)


@pytest.mark.parametrize(
    "text", ["DELETE FROM accounts", "UPDATE position SET time = 1", "DROP VIEW statement"]
)
def test_a_role_that_reads_does_not_write(reader, text):
    with contextlib.closing(psycopg.connect(reader, autocommit=True)) as it:
        with pytest.raises(psycopg.errors.InsufficientPrivilege):
            it.execute(text)


def test_pages_do_not_write(reader):
    with contextlib.closing(Read(reader)) as tables:
        with pytest.raises(Failed):
            tables.all("CREATE TABLE mine (one int)")


def test_history(both):
    both.load_both(history())
    both.check_same()


def test_sample(both):
    both.load_both(sample(days=6))
    both.check_same()


def test_in_parts(both):
    made = history()
    for count in (10, 30, 31, None):
        both.load_there(made, count=count)
    both.load(made)
    both.check_same()
    assert both.load_there(made).entries == 0


def test_great_sums(both):
    """The sums of a ledger above 128 bits: the view's sum is exact."""
    audit = Made().register().accounts(*(account(it) for it in range(1, 5)))
    audit.transfers(transfer(11, 1, 2, MAX), transfer(12, 3, 4, MAX))
    both.load_both(audit)
    both.check_same()
    with both.connect() as it:
        assert it.execute("SELECT debits_posted FROM trial_balance").fetchall() == [(2 * MAX,)]


@pytest.mark.parametrize("encoding", ["SQL_ASCII", "LATIN1"])
def test_encodings(both, encoding):
    """A load goes on in a database of any encoding, as that of initdb in the locale C."""
    audit = Made().register().accounts(account(1), account(2))
    longer = Made().register().accounts(account(1), account(2))
    longer.transfers(transfer(11, 1, 2, 5, result="exceeds_credits"))
    both.load(longer)
    both.url = both.made(f"ENCODING '{encoding}' TEMPLATE template0 LOCALE 'C'")
    both.load_there(audit)
    assert both.load_there(longer).entries == 1
    both.check_same()


def test_another_history(both):
    both.load_there(Made().register().accounts(account(1)))
    with pytest.raises(Refused) as raised:
        both.load_there(Made().register().accounts(account(2)))
    assert "entry 2 is another one" in str(raised.value)


def test_lost_connection(both):
    """One that breaks while rows are read, for example because the server is stopped, is one
    line."""
    audit = Made().register().accounts(account(1), account(2))
    both.load_there(audit)
    store = PostgresStore(both.url)
    loading = Loading(store)
    with contextlib.closing(psycopg.connect(both.url, autocommit=True)) as it:
        it.execute(
            "SELECT pg_terminate_backend(pid, 60000) FROM pg_stat_activity"
            " WHERE datname = current_database() AND pid <> pg_backend_pid()"
        )
    audit.transfers(transfer(11, 1, 2, 5))
    with pytest.raises(Failed):
        loading.read(iter(audit.steps))
    store.close()
    both.load_both(audit)
    both.check_same()


def test_two_first_loads_at_once(both):
    audit = Made().register().accounts(account(1))
    store = PostgresStore(both.url)
    loading = Loading(store)
    both.load_both(audit)
    with pytest.raises(Failed) as raised:
        loading.read(iter(audit.steps))
    store.close()
    assert "another load writes to it" in str(raised.value)
    both.check_same()


@pytest.mark.parametrize("change", ["UPDATE position SET head = '{'", "DELETE FROM position"])
def test_an_edited_position(both, change):
    both.load_there(Made().register())
    with both.connect() as it:
        it.execute(change)
    with pytest.raises(Refused, match="has no position in a history"):
        both.load_there(Made().register())


@pytest.mark.parametrize(
    "kind, wanted",
    [
        ("no database", 'database "none" does not exist'),
        ("no server", "No such file or directory Is the server running"),
        ("another table", '"schema" does not exist'),
    ],
)
def test_faults_are_one_line(both, kind, wanted):
    """Those with a place, a detail, a context or a hint are."""
    with both.connect() as it:
        it.execute("CREATE TABLE position (one int)")
    if kind == "no database":
        both.url = both.address("none")
    elif kind == "no server":
        both.url = both.url.replace(str(both.folder), str(both.folder / "none"))
    with pytest.raises(Stop, match=re.escape(wanted)) as raised:
        both.load_there(Made().register())
    assert "\n" not in str(raised.value)


def test_command(both):
    status, said, fault = both.said("load", both.address("none"), "--quiet")
    assert (status, said, fault.count("\n")) == (1, "", 1), fault
    ended = both.command("load", both.url, made=Made().register())
    assert ended[0] == 0, ended
    assert "Traceback" not in ended[2]
