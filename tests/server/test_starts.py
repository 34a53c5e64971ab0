"""From the start of the listener to the first request that is served."""

import os
import re
import signal
import subprocess
import time
from pathlib import Path

import pytest
import tb_client as tb
from tb_client import Session, Socket

from .running import LISTENER, SECONDS, STAND_IN, TBD, children, ended_with, is_starting, until


def slow(folder, when, seconds=3):
    """A server that takes some seconds more if a condition of the shell holds."""
    script = f'cd {folder}; {when} && sleep {seconds}; exec "$@"'
    return ["sh", "-c", script, "sh", TBD]


@pytest.fixture
def kept(start, folder):
    """A folder with a ledger that has one session."""
    listener = start()
    listener.session().close()
    assert listener.end() == 0
    return folder


def test_a_request_while_the_ledger_is_read(launch):
    """Nothing was done with it, and the client's side comes again until it is served."""
    listener = launch(command=["sh", "-c", 'sleep 3; exec "$@"', "sh", TBD])
    path = listener.path
    assert is_starting(path)
    # the second if its time is over while the reason comes
    with pytest.raises((tb.CannotConnect, tb.ReplyLost)):
        Session.register(Socket(path, timeout=0.5), attempts=1)
    with Session.register(Socket(path, timeout=SECONDS), attempts=1) as session:
        assert session.lookup_accounts([1]) == []
    assert listener.end() == 0
    assert listener.lines[-1] == f"tb_listen: listens on {path}\n"


def test_a_request_while_the_ledger_is_checked(launch, kept):
    listener = launch(command=slow(kept, "echo $* | grep -q ' check '"))
    assert is_starting(listener.path)
    with Session.register(Socket(listener.path, timeout=SECONDS)) as it:
        assert it.session == 2
    assert listener.end() == 0


@pytest.mark.parametrize("form", ["run", "check"])
def test_an_end_before_it_serves(launch, kept, form):
    """The server got no request: it is not waited for."""
    listener = launch(command=slow(kept, f"echo $* | grep -q ' {form} '", 60))
    assert is_starting(listener.path)
    began = time.monotonic()
    listener.process.terminate()
    assert (listener.process.wait(40), listener.process.stderr.read()) == (0, "")
    assert time.monotonic() - began < 40


def test_an_end_while_the_ledger_is_checked(launch, kept):
    listener = launch(command=["sh", "-c", "sleep 20", "run", kept / "ledger.tbk", "64"])
    until(lambda: children(listener.process.pid))
    listener.process.terminate()
    assert listener.process.communicate(timeout=5) == (None, "")
    assert listener.process.returncode == 0


@pytest.mark.parametrize("status", [0, 3, 101])
def test_an_end_without_a_name(start, status):
    listener = start(command=["sh", "-c", f"exit {status}"])
    line = f"tb_listen: sh ended with status {status}\n"
    assert (listener.ended(), listener.lines[-1]) == (status or 1, line)


@pytest.mark.parametrize("clients", ["64", "63"])
def test_a_file_that_another_server_has(start, folder, clients):
    first = start()
    first.session().close()
    (folder / "other").mkdir()
    second = start(folder=folder / "other", command=[TBD, "run", first.file, clients])
    assert second.ended() == 4
    assert second.lines[-1].startswith("tb_listen: tbd: Locked"), second.lines


@pytest.mark.parametrize(
    "name, rules, status, line",
    [
        ("notes.txt", ["64"], 5, "NotAJournal"),
        ("ledger.tbk", ["63"], 7, "OtherRules"),
        ("ledger.tbk", ["64", "2"], 7, "OtherRules"),
        ("ledger.tbk", ["65"], 2, "Usage"),
        ("ledger.tbk", ["0"], 2, "Usage"),
        ("none/ledger.tbk", ["64"], 1, "Device"),
        ("", ["64"], 1, "Device"),
    ],
    ids=["notes", "clients", "profile", "65", "0", "no-folder", "folder"],
)
def test_a_fault_of_a_start(start, kept, name, rules, status, line):
    """The listener ends with its status and line, and nothing of the file changes."""
    (kept / "notes.txt").write_text("what I have to do today\n")
    before = (kept / "ledger.tbk").read_bytes()
    listener = start(command=[TBD, "run", kept / name, *rules])
    assert listener.ended() == status
    assert listener.lines[-1].startswith(f"tb_listen: tbd: {line}"), listener.lines
    assert not os.path.exists(listener.path)
    assert (kept / "ledger.tbk").read_bytes() == before


def test_a_file_that_is_damaged(start):
    listener = start(command=STAND_IN)
    listener.session().close()
    listener.end()
    with open(listener.file, "r+b") as file:
        file.seek(16)
        file.write(b"\5")
    again = start(command=STAND_IN)
    line = "tb_listen: tbd: Damaged: record 1, at byte 16\n"
    assert (again.ended(), again.lines) == (6, [line])


def test_a_file_that_is_not_there_or_empty(start, folder):
    for _ in range(2):
        listener = start()
        assert (listener.end(), len(listener.lines)) == (0, 1)
        (folder / "ledger.tbk").write_bytes(b"")


@pytest.mark.parametrize("count", [0, 1, 8, 9, 10, 15, 16])
def test_a_file_that_was_torn_when_it_was_made(start, count):
    listener = start(command=STAND_IN)
    listener.end()
    whole = listener.file.read_bytes()
    assert len(whole) == 16
    listener.file.write_bytes(whole[:count])
    again = start(command=STAND_IN)
    with again.session() as session:
        assert (session.session, again.end()) == (1, 0)


def test_a_file_without_a_record(start, folder):
    """As a start that a crash cut short leaves it: the magic, and a closed latch."""
    (folder / "ledger.tbk").write_bytes(b"TBJRNL02\x5a\xc3\x96\x69")
    listener = start()
    with listener.session() as session:
        assert (session.session, listener.end()) == (1, 0)


NO_TIME = (1, "tb_listen: sh check FILE prints no last time\n")


@pytest.mark.parametrize(
    "script, wanted",
    [
        ("true", NO_TIME),
        ("echo last time", NO_TIME),
        ("echo last time 1x", NO_TIME),
        ("echo last time -1", NO_TIME),
        ("echo last time 123456789012345678901", NO_TIME),
        ("echo tbd: Usage >&2; exit 2", (2, "tb_listen: tbd: Usage\n")),
        ("exit 3", (3, "tb_listen: sh ended with status 3\n")),
        ("kill -KILL $$", (1, "tb_listen: sh ended by SIGKILL\n")),
    ],
)
def test_a_check_that_prints_no_time(start, kept, script, wanted):
    path = str(kept / "ledger.tbk")
    listener = start(command=["sh", "-c", script, "run", path, "64"])
    assert (listener.ended(), listener.lines[-1].replace(path, "FILE")) == wanted


@pytest.mark.parametrize(
    "words, at",
    [
        ("tbd run ledger 64", 2),
        ("tbd run ledger 64 2", 2),
        ("sh -c x tbd run ledger 64", 5),
        ("tbd run run 64", 2),
        ("tbd run ledger 64 --progress", 2),
        ("tbd run ledger 64 2 --progress", 2),
        ("tbd run ledger 64 --existing", 2),
        ("tbd run ledger 64 2 --progress --existing", 2),
        ("tbd run ledger 64 --progress 2", None),
        ("tbd run ./64 64", 2),
        ("tbd run ledger 64 x", None),
        ("tbs run 64", None),
        ("tbs run 64 1", None),
        ("tbd check ledger", None),
        ("tbd run ledger", None),
        ("run ledger 64", None),
        ("tbd run 64 64 1 1", None),
    ],
)
def test_the_word_that_is_the_file(folder, words, at):
    """The words of the check that comes before the first start say which word is taken for the
    file. A command without a file has no check."""
    for name in ("ledger", "run", "64"):
        (folder / name).write_text("x" * 99)  # a file of a few bytes has no entry to check
    (folder / "bin").mkdir()
    for name in ("tbd", "tbs", "sh", "run"):
        script = f'#!/bin/sh\necho {name} "$@" >> {folder}/words; exit 9\n'
        (folder / "bin" / name).write_text(script)
        (folder / "bin" / name).chmod(0o700)
    given = words.split()
    env = {**os.environ, "PATH": f"{folder}/bin:{os.environ['PATH']}"}
    listens = [LISTENER, "--unix", "it.sock", "--", *given]
    status, line = ended_with(listens, cwd=folder, env=env)
    assert (status, line) == (9, f"tb_listen: {given[0]} ended with status 9")
    checked = [*given[: at - 1], "check", given[at]] if at else given
    assert (folder / "words").read_text() == " ".join(checked) + "\n"


def handles(process, number):
    """Whether a process has a handler for a signal."""
    text = Path(f"/proc/{process.pid}/status").read_text()
    caught = int(re.search(r"^SigCgt:\s+(\w+)$", text, re.M)[1], 16)
    return caught >> (number - 1) & 1


@pytest.mark.parametrize("pause", [0.0, 0.01, 0.02, 0.05, 0.1, 0.2, 0.4])
@pytest.mark.parametrize("number", [signal.SIGINT, signal.SIGTERM], ids=lambda it: it.name)
def test_a_signal_while_it_starts(launch, folder, number, pause):
    """It ends at once with status 0, or by the signal if that comes before its first line of code.
    It prints nothing and leaves no socket."""
    listener = launch(command=["sh", "-c", "exec cat", "run"])
    until(lambda: handles(listener.process, signal.SIGTERM))
    time.sleep(pause)
    listener.process.send_signal(number)
    _, lines = listener.process.communicate(timeout=SECONDS)
    assert listener.process.returncode in (0, -number), lines
    lines = [it for it in lines.splitlines() if "listens on" not in it]
    assert [it for it in lines if "has stopped: Stopping; 0 requests" not in it] == []
    assert os.listdir(folder) == []


@pytest.mark.parametrize("pause", [0.0, 0.02, 0.05])
def test_a_hangup_while_it_starts(pause):
    """It does nothing, or ends the program before its first line of code."""
    listener = subprocess.Popen([LISTENER, "--nothing"], stderr=subprocess.PIPE, text=True)
    time.sleep(pause)
    listener.send_signal(signal.SIGHUP)
    _, lines = listener.communicate(timeout=SECONDS)
    assert (listener.returncode, lines.count("error: ")) in ((2, 1), (-signal.SIGHUP, 0))


def test_further_signals_while_it_ends(start):
    """They change nothing about its status."""
    listener = start()
    listener.session().close()
    for number in (signal.SIGTERM, signal.SIGTERM, signal.SIGINT, signal.SIGHUP):
        if listener.process.poll() is None:
            listener.process.send_signal(number)
    assert listener.ended() == 0
