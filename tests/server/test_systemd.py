"""What systemd gives and gets: readiness, sockets, and the words of the units."""

import contextlib
import os
import re
import shlex
import shutil
import socket
import subprocess
from pathlib import Path

import pytest
from tb_client import Session, Socket

from ..conftest import ROOT
from .running import LISTENER

PASSED = 'exec 3<&{}; LISTEN_FDS={} LISTEN_PID=$$ exec "$@"'


def test_ready_when_it_serves(start, folder):
    place = str(folder / "notify")
    with socket.socket(socket.AF_UNIX, socket.SOCK_DGRAM) as manager:
        manager.bind(place)
        manager.settimeout(20)
        listener = start(env={"NOTIFY_SOCKET": place})
        assert manager.recv(100) == b"READY=1"
        listener.end()
        assert manager.recv(100) == b"STOPPING=1"


def test_a_socket_that_was_passed(launch, folder):
    """It is not this program's to remove."""
    path = str(folder / "it")
    with socket.socket(socket.AF_UNIX) as place:
        place.bind(path)
        place.listen()
        file = place.fileno()
        before = ["bash", "-c", PASSED.format(file, 1), "bash"]
        listener = launch(before=before, pass_fds=[file], places=[])
        with Session.register(Socket(path, timeout=20)) as session:
            assert session.lookup_accounts([1]) == []
        assert listener.end() == 0
    assert f"tb_listen: listens on {path}\n" in listener.lines
    assert os.path.exists(path)


def idle(files):
    """A socket that does not listen."""
    return files.enter_context(socket.socket(socket.AF_UNIX))


def packets(files):
    return files.enter_context(socket.socket(type=socket.SOCK_DGRAM))


def sequence(files):
    it = files.enter_context(socket.socket(socket.AF_UNIX, socket.SOCK_SEQPACKET))
    it.bind("")  # at an address that the system chooses
    it.listen()
    return it


def joined(files):
    return [files.enter_context(it) for it in socket.socketpair()][0]


def null(files):
    return files.enter_context(open(os.devnull))


@pytest.mark.parametrize(
    "kind, count, why",
    [
        (idle, "1", "file 3, which was passed, is no socket"),
        (packets, "1", "file 3, which was passed, is no socket"),
        (sequence, "1", "file 3, which was passed, is no socket"),
        (joined, "1", "file 3, which was passed, is no socket"),
        (null, "1", "file 3, which was passed, is no socket"),
        (null, "some", "LISTEN_FDS is no number of sockets: some"),
    ],
)
def test_a_file_that_was_passed_and_is_no_listening_socket(kind, count, why):
    with contextlib.ExitStack() as files:
        file = kind(files).fileno()
        words = ["bash", "-c", PASSED.format(file, count), "bash", LISTENER, "--", "true"]
        how = {"capture_output": True, "text": True, "timeout": 20}
        ran = subprocess.run(words, pass_fds=[file], **how)
    assert (ran.returncode, ran.stderr.count("\n")) == (2, 1), ran.stderr
    assert why in ran.stderr


def units():
    """The units of the listener, wherever they are."""
    listed = subprocess.run(
        ["git", "ls-files", "*tb-listen*.service", "*tb-listen*.socket"],
        cwd=ROOT,
        capture_output=True,
        text=True,
        check=True,
    )
    return [ROOT / it for it in listed.stdout.split()]


def test_the_environment_reaches_the_server(start):
    """As the units set it, for the server's memory."""
    listener = start(env={"GLIBC_TUNABLES": "glibc.malloc.hugetlb=1"})
    environment = Path(f"/proc/{listener.server()}/environ").read_bytes().split(b"\0")
    assert b"GLIBC_TUNABLES=glibc.malloc.hugetlb=1" in environment


@pytest.mark.parametrize("unit", units(), ids=lambda it: it.name)
def test_a_unit_is_valid(unit, folder):
    """Where the listener is installed at its place."""
    assert shutil.which("systemd-analyze"), "systemd-analyze is needed"
    text = re.sub(r"(?m)^(Exec\w+=)\S+/tb-listen\b", rf"\1{LISTENER}", unit.read_text())
    for other in units():
        (folder / other.name).write_text(text if other == unit else other.read_text())
    words = ["systemd-analyze", "verify", str(folder / unit.name)]
    ran = subprocess.run(words, capture_output=True, text=True, timeout=60)
    assert [it for it in ran.stderr.splitlines() if f"{unit.name}:" in it] == []


SERVICES = [it for it in units() if it.suffix == ".service"]


@pytest.mark.parametrize("unit", SERVICES, ids=lambda it: it.name)
def test_the_words_of_a_unit(unit):
    """The listener takes them; only it hears a stop, for which it has time; systemd does not give
    up after five starts in ten seconds."""
    text = unit.read_text().replace("\\\n", " ")
    command = shlex.split(re.search(r"^ExecStart=(.*)$", text, re.M)[1])
    options = command[: command.index("--")]
    assert "--log-json" in options and "--status" in options
    assert "\nKillMode=mixed\n" in text
    assert "\nEnvironment=GLIBC_TUNABLES=glibc.malloc.hugetlb=1\n" in text
    assert "\nExecReload=/bin/kill -HUP $MAINPID\n" in text
    assert int(re.search(r"^RestartSec=([0-9]+)$", text, re.M)[1]) >= 2
    slow = float(options[options.index("--slow") + 1]) if "--slow" in options else 30
    assert int(re.search(r"^TimeoutStopSec=([0-9]+)$", text, re.M)[1]) > 2 * slow + 10
