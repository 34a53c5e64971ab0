"""Each form of tbd with the descriptors 0, 1 and 2 closed, one at a time and together: no file is
ever open on one of them, so what is meant for a stream never reaches a file.

    python3 -m pytest tests/files/test_descriptors.py

A stream that is closed stays so: the program ends with status 1 if it reads or writes there, and
with 0 if it does not. A line that standard error does not take changes no status.
"""

import itertools
import os
import shutil
import subprocess
from pathlib import Path

import pytest

ROOT = Path(__file__).resolve().parent.parent.parent
SCRIPT = ROOT / "examples/first.script"
LOG = ROOT / "examples/first.log"
TORN = b"\xff" * 5  # no block: a write that a crash cut off
EMPTY = b"TBJRNL02" + bytes((90, 195, 150, 105))  # a journal without a record
SECONDS = 60
CLOSED = [them for count in (0, 1, 2, 3) for them in itertools.combinations(range(3), count)]
# each form: its words, its input, and whether it writes to standard output. Without an input it
# does not read
FORMS = {
    "run, a new file": (["run", "new", "4"], SCRIPT, True),
    "run": (["run", "ledger", "4"], SCRIPT, True),
    "run, progress": (["run", "ledger", "4", "--progress"], SCRIPT, True),
    "run, a torn end": (["run", "torn", "4"], SCRIPT, True),
    "follow": (["follow", "2"], LOG, True),
    "dump": (["dump", "ledger"], None, True),
    "dump, later entries": (["dump", "ledger", "--after", "1"], None, True),
    "check": (["check", "ledger"], None, True),
    "salvage": (["salvage", "torn", "new"], None, True),
    "backup": (["backup", "ledger", "new"], None, True),
    "version": (["--version"], None, True),
    "words that are wrong": (["run"], None, False),
}


def ran(words, folder, given=None, closed=()):
    """Status and output of a program over this input, with these descriptors closed."""

    def close():
        for it in closed:
            os.close(it)

    with open(given or os.devnull, "rb") as source:
        done = subprocess.run(
            words,
            cwd=folder,
            stdin=source,
            capture_output=True,
            timeout=SECONDS,
            preexec_fn=close,
            check=False,
        )
    return done.returncode, done.stdout


@pytest.fixture(name="tbd")
def fixture_tbd(program):
    return str(program("tbd").resolve())


@pytest.fixture(scope="module", name="made")
def fixture_made(program, tmp_path_factory):
    """A folder with a ledger of three entries, and the same with a torn end."""
    tbd, folder = str(program("tbd").resolve()), tmp_path_factory.mktemp("made")
    assert ran([tbd, "run", "ledger", "4"], folder, SCRIPT)[0] == 0
    (folder / "torn").write_bytes((folder / "ledger").read_bytes() + TORN)
    return folder


def is_whole(tbd, folder, name):
    """Whether a file is a ledger, or a journal without a record to its end."""
    data = (folder / name).read_bytes()
    return data == EMPTY or ran([tbd, "check", name], folder)[0] == 0


def tried(tbd, made, folder, form, closed):
    """Runs a form over a copy of the files: its status, once each file is found to be whole."""
    words, given, _ = FORMS[form]
    shutil.copytree(made, folder)
    status, _ = ran([tbd, *words], folder, given and folder / given, closed)
    records = (made / "ledger").read_bytes()
    assert (folder / "ledger").read_bytes() == records, closed
    assert (folder / "torn").read_bytes() in (records, records + TORN), closed
    assert not (folder / "new").exists() or is_whole(tbd, folder, "new"), closed
    return status


@pytest.mark.parametrize("form", FORMS)
def test_no_stream_reaches_a_file(tbd, made, tmp_path, form):
    words, given, writes = FORMS[form]
    for closed in CLOSED:
        folder = tmp_path / "".join(map(str, closed))
        status = tried(tbd, made, folder / "files", form, closed)
        faulty = given is not None and 0 in closed or writes and 1 in closed
        assert status == (2 if words == ["run"] else int(faulty)), closed
