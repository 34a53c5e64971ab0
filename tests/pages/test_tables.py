"""Tables of pages against the code: what tools/tables.py makes and compares, the names that a
closed connection is sent, and the faults of tbs with their exit statuses, each of which is brought
about."""

import re
import sys

import frames
import pytest
from frames import pair
from tabled import compared

from ..conftest import ROOT, ran

ALL = ["run", "dump", "replay", "storm"]
# The places where the code has the names of faults.
FAULTS = (
    "tb_records/src/faults.rt",
    "tb_records/src/dumps.rt",
    "tb_machine/src/serving.rt",
    "tb_edge_commands/src/commands.rt",
    "tb_edge_storm/src/faults.rt",
)


def test_the_table_of_names_and_layouts():
    status, output, errors = ran([sys.executable, ROOT / "tools/tables.py"])
    assert (status, errors) == (0, b""), output.decode()


def section(page, heading):
    """What a page has after a heading, up to the next one."""
    return re.split(r"\n##", (ROOT / page).read_text().split(f"{heading}\n")[1])[0]


def test_a_row_for_each_name_that_a_closed_connection_is_sent():
    rows = section("docs/use/CLIENTS.md", "### What a closed connection gets")
    named = re.findall(r"^\| ([A-Z][A-Za-z, ]+) \|", rows, re.M)
    shown = {it for names in named for it in names.split(", ")} - {"Name"}
    listener = "".join((ROOT / it).read_text() for it in compared.LISTENER)
    assert shown == {*compared.told(listener)}


def statuses():
    """The rows of the page: for each line its status, and its forms."""
    rows = re.findall(
        r"^\| (\d) \| ([A-Za-z, ]+) \| ([a-z, ]+) \|",
        section("docs/use/TBS.md", "## Exit statuses"),
        re.M,
    )
    found = [
        (name, int(status), ALL if forms == "all" else forms.split(", "))
        for status, names, forms in rows
        for name in names.split(", ")
    ]
    assert len({it[0] for it in found}) == len(found)
    return {name: (status, forms) for name, status, forms in found}


def test_a_row_for_each_fault_of_tbs():
    """ReplyNumbers is of replies, which tbs does not read."""
    texts = [(ROOT / "crates" / it).read_text() for it in FAULTS]
    code = {name for text in texts for name in re.findall(r'=> "(\w+)"', text)}
    assert set(statuses()) == code - {"ReplyNumbers"}


def brought_about():
    """A way to each fault of `run` and `replay` that wrong input has."""
    first = pair(10, 7, 0, 0, 2)
    head, register = frames.dump_head(1, 2), bytearray(first)
    register[8 + 29] = 1
    run = {
        "Short": first[:-1],
        "ClientZero": pair(10, 0, 0, 0, 2),
        "UnknownOperation": pair(10, 7, 0, 0, 3),
        "Reserved": bytes(register),
        "RegisterNumbers": pair(10, 7, 1, 0, 2),
        "RequestZero": pair(10, 7, 1, 0, 129),
        "BadLength": pair(10, 7, 1, 1, 129, b"1"),
        "TooMany": pair(10, 7, 1, 1, 129, length=8191 * 128),
        "TimeExhausted": pair(2**63, 7, 0, 0, 2),
    }
    replay = {
        "Head": b"",
        "Mark": head + frames.mark(3),
        "NotLegal": head + frames.dump_entry(2, 10, first[8:]),
    }
    yield from (pytest.param(["run", "2"], *it, id=it[0]) for it in run.items())
    yield from (pytest.param(["replay"], *it, id=it[0]) for it in replay.items())
    yield pytest.param(["run"], "Usage", b"", id="Usage")


@pytest.mark.parametrize("words, name, given", brought_about())
def test_the_exit_status_of_a_fault(tbs, words, name, given):
    status, forms = statuses()[name]
    assert words[0] in forms
    assert ran([tbs, *words], given)[::2] == (status, f"tbs: {name}\n".encode())


def test_the_exit_status_of_a_device(tbs):
    with open("/dev/full", "wb") as full:
        ended = ran([tbs, "run", "2"], pair(10, 7, 0, 0, 2), stdout=full)
    assert ended[::2] == (statuses()["Device"][0], b"tbs: Device\n")
