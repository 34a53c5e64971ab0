"""The lines that pages show are run over the built programs, and print what the pages show.

Those that take a minute are in test_long_blocks.py. Blocks of other pages are run elsewhere: those
of TELOVAMISH in apps/telovamish/tests, of OPERATING over installed packages by packaging/try, and
those of the clients' pages by their own tests.
"""

import json
import re
import shlex
import sqlite3
import subprocess

import pytest

from ..cluster.processes import REPLICA, free_ports
from ..conftest import ROOT
from .clones import blocks, lines, until

PLACE = {"LOG": "etcd://m1/ledger", "POSITION": "7", "..": "-- tb_script run 64"}


def test_the_statements_of_readme_are_those_of_the_example():
    (shown,) = blocks("README.md", "text")
    for line in shown.splitlines():
        assert f"at=10 {line}\n" in (ROOT / "examples/retry.text").read_text()


def test_the_console_block_of_readme(clone):
    clone.build("tbs")
    (block,) = blocks("README.md", "console")
    line, printed = block.removeprefix("$ ").split("\n", 1)
    assert clone.run(line) == printed


def test_the_line_of_tbs(clone):
    clone.build("tbs")
    (block,) = blocks("docs/use/TBS.md", "sh")
    assert clone.run(block) == ""
    assert (clone.folder / "first.out").stat().st_size > 0


def test_the_lines_of_tbd(clone):
    clone.build("tbd")
    version, twice, _ = lines(blocks("docs/use/TBD.md", "sh")[0])
    assert clone.run(version).startswith("tbd ")
    made = f"tbd: made {clone.folder}/ledger.tbk\n"
    printed = clone.run(twice.replace("/tmp/", f"{clone.folder}/"), made).splitlines()
    half = len(printed) // 2
    assert half and printed[:half] == printed[half:]


def test_the_listener_and_a_client(clone):
    clone.build("tbd")
    listener = next(it for it in blocks("docs/use/CLIENTS.md", "sh") if "tb-listen" in it)
    client = blocks("docs/use/CLIENTS.md", "python")[1]
    (clone.folder / "client.py").write_text(client)
    with clone.started(listener):
        until((clone.folder / "ledger.sock").exists)
        assert clone.run("/usr/bin/python3 client.py") == "[]\n"


def test_one_program_over_a_file_and_over_sockets(clone):
    """The program of CLIENTS, in which a line of its table takes the place of the first."""
    clone.build("tbd")
    page = (ROOT / "docs/use/CLIENTS.md").read_text()
    program = blocks("docs/use/CLIENTS.md", "python")[0]
    file, *sockets = re.findall(r"`(with tb\.\w+\(.*?\) as ledger:)`", page)
    assert file in program and len(sockets) == 3
    (clone.folder / "client.py").write_text(program)
    run = "/usr/bin/python3 client.py"
    assert clone.run(run, f"tbd: made {clone.folder}/books.tbk\n") == "10\n"
    assert clone.run(run) == "10\n"  # the transfer exists
    (port,) = free_ports(1)
    places = f"--unix ledger.sock --tcp 127.0.0.1:{port}"
    with clone.started(f"server/out/tb-listen {places} -- tbd run ledger.tbk 64"):
        until((clone.folder / "ledger.sock").exists)
        for line in sockets:
            there = re.sub(r"10\.0\.0\.[123]", "127.0.0.1", line).replace("3001", str(port))
            (clone.folder / "client.py").write_text(program.replace(file, there))
            assert clone.run(run) == "10\n"


def test_the_first_lines_of_clients(clone):
    clone.build("tbd")
    (program,) = blocks("clients/README.md", "python")
    (clone.folder / "client.py").write_text(program)
    run = "/usr/bin/python3 client.py"
    assert clone.run(run, f"tbd: made {clone.folder}/books.tbk\n") == "2\n"


def test_the_status_of_the_listener(clone):
    """What its status socket writes has the fields of the page; the file of clients is read."""
    clone.build("tbd")
    (ranges,) = blocks("docs/use/LISTENER.md", "text")
    (clone.folder / "ranges").write_text(ranges.replace("user         alice", "user  root"))
    words = "--unix ledger.sock --status status.sock --clients ranges"
    with clone.started(f"server/out/tb-listen {words} -- tbd run ledger.tbk 64"):
        until((clone.folder / "status.sock").exists)
        asked = "import socket; it = socket.socket(socket.AF_UNIX); it.connect('status.sock'); "
        said = clone.run(f'/usr/bin/python3 -c "{asked}print(it.makefile().read())"')
    (shown,) = blocks("docs/use/LISTENER.md", "json")
    assert list(json.loads(said)) == list(json.loads(shown))


@pytest.fixture
def books(clone):
    """The lines of READING up to the first statement: what they print, while the ledger is
    served."""
    clone.build("tbs", "tbd")
    (names,) = blocks("docs/use/READING.md", "toml")
    (clone.folder / "books.toml").write_text(names)
    served, *others = lines(blocks("docs/use/READING.md", "sh")[0])
    replies = clone.folder / "replies"
    # The last reply is that of a lookup of one account.
    with clone.started(f"{served}\nwait"):
        until(lambda: replies.exists() and replies.stat().st_size % 48 == 32)
        yield clone, "".join(map(clone.run, others))


def test_a_statement_of_a_live_file(books):
    _, printed = books
    shown = blocks("docs/use/READING.md", "text")[0].splitlines()
    assert [it.rstrip() for it in printed.splitlines()] == shown


def test_questions_and_checks_of_the_books(books):
    clone, _ = books
    question = next(it for it in blocks("docs/use/READING.md", "sh") if "tb-sql ask" in it)
    assert "House" in clone.run(question)
    checked = clone.run("tb-sql check ledger.sqlite --ledger ledger.tbk")
    assert checked == blocks("docs/use/READING.md", "text")[1]


def test_the_statements_of_sql(books):
    clone, _ = books
    text = next(it for it in blocks("docs/use/READING.md", "sql") if "SELECT * FROM" in it)
    with sqlite3.connect(clone.folder / "ledger.sqlite") as it:
        found = [len(it.execute(one).fetchall()) for one in text.split(";\n") if one.strip()]
    # No transfer is of November, and the ledger balances.
    assert found == [0, 1, 0]


def test_an_answer_in_json(books):
    clone, _ = books
    (question,) = (it for it in blocks("docs/use/READING.md", "sh") if it.startswith("curl"))
    with clone.started("exec tb-sql serve ledger.sqlite --port 0") as it:
        at = re.search(rb"http://[\d.]+:\d+", it.stdout.readline())[0].decode()
        said = json.loads(
            clone.run(question.replace("curl 'http://127.0.0.1:8642", f"curl -sS '{at}"))
        )
    assert said["commit"] == "4" and len(said["results"]) == 1


def test_the_live_audit(books):
    clone, _ = books
    question = next(it for it in blocks("docs/use/READING.md", "sh") if "audit --follow" in it)
    with clone.started(question) as it:
        assert json.loads(it.stdout.readline()) == {"profile": 1, "clients_max": 2}


def replica_lines():
    found = [it for block in blocks("docs/use/CLUSTER.md", "sh") for it in lines(block)]
    return [it for it in found if it.startswith("tb-replica")]


@pytest.mark.parametrize("line", replica_lines())
def test_the_words_of_tb_replica(line):
    """Each line of CLUSTER has words that the program takes: only what is wrong at their end is
    refused."""
    words = shlex.split(" ".join(PLACE.get(it, it) for it in line.split()))[1:]
    if words[0].startswith("-"):
        words = [*words[: words.index("--")], "--", "tbd", "run", "64"]
        wanted = "COMMAND does not end in follow CLIENTS_MAX [PROFILE]"
    elif "--" in words:
        words = words[: words.index("--")]
        wanted = "the following arguments are required: COMMAND"
    else:
        words, wanted = [*words, "surplus"], "unrecognized arguments: surplus"
    ran = subprocess.run([REPLICA, *words], capture_output=True, text=True, timeout=60)
    assert (ran.returncode, ran.stderr.splitlines()[-1]) == (2, f"tb-replica: error: {wanted}")


def test_a_backup_of_operating(clone):
    """The lines of a backup; packaging/try runs the others over installed packages."""
    clone.build("tbs", "tbd")
    clone.run("tbd run ledger.tbk 2 < examples/first.script > replies", "tbd: made ledger.tbk\n")
    (clone.folder / "backup").mkdir()
    block = next(it for it in blocks("docs/use/OPERATING.md", "sh") if it.startswith("tbd backup"))
    there = block.replace("/var/lib/telovamish/", "").replace("/backup/", "backup/")
    printed = [clone.run(it) for it in lines(there)]
    assert printed[1] == clone.run("tbd check ledger.tbk")


def test_a_line_that_fails_is_found(clone):
    with pytest.raises(AssertionError):
        clone.run("exit 3")
    with pytest.raises(AssertionError):
        clone.run("echo wrong >&2")
