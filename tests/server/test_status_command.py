"""`tb-listen status`: the state of a listener, for people and for health checks."""

import json
import socket
import subprocess
import threading

import pytest

from .running import LISTENER, TBD, is_starting


def asked(*words):
    ran = subprocess.run([LISTENER, "status", *words], capture_output=True, text=True, timeout=20)
    return ran.returncode, ran.stdout, ran.stderr


@pytest.fixture
def place(folder):
    return str(folder / "status")


def test_a_listener_that_is_ready(start, place):
    listener = start("--status", place)
    listener.session().close()
    status, page, line = asked(place)
    assert (status, line) == (0, "")
    rows = dict(it.split(maxsplit=1) for it in page.splitlines())
    assert rows["state"] == "ready"
    assert rows["requests"] == "register: 1 Reply"
    status, text, _ = asked("--json", place)
    found = json.loads(text)
    assert (status, found["state"], text.count("\n")) == (0, "ready", 1)
    assert found["requests"] == {"register": {"Reply": 1}}


def test_a_listener_that_is_starting(launch, place):
    listener = launch("--status", place, command=["sh", "-c", 'sleep 3; exec "$@"', "sh", TBD])
    assert is_starting(listener.path)
    assert asked(place)[0] == 1
    status, text, _ = asked(place, "--json")
    assert (status, json.loads(text)["state"]) == (1, "starting")


def test_no_listener(place):
    line = f"tb_listen: {place}: No such file or directory\n"
    assert asked(place) == (2, "", line)


def test_a_bare_name(start, folder, place):
    """It is a socket's, in the folder of the command."""
    start("--status", place)
    words = [LISTENER, "status", "status"]
    assert subprocess.run(words, cwd=folder, capture_output=True).returncode == 0


@pytest.mark.parametrize("data", [b"", b"x\n", b"{}\n", b'{"state": "well"}\n', b"[]\n"])
def test_an_answer_that_is_no_status(place, data):
    """What came is named, and nothing is printed for a program to read."""
    with socket.socket(socket.AF_UNIX) as other:
        other.bind(place)
        other.listen()
        serving = threading.Thread(target=lambda: answer(other, data))
        serving.start()
        status, page, line = asked(place, "--json")
        serving.join()
    assert (status, page) == (2, "")
    assert line.startswith(f"tb_listen: {place}: ") and line.count("\n") == 1


def answer(other, data):
    it, _ = other.accept()
    with it:
        it.sendall(data)


@pytest.mark.parametrize("words", [("a", "b"), ("--again",), ("",)], ids=["two", "option", "empty"])
def test_wrong_arguments(words):
    status, page, line = asked(*words)
    assert (status, page) == (2, "")
    assert "tb_listen: error: " in line


def test_a_page_that_cannot_be_written(start, place):
    start("--status", place)
    with open("/dev/full", "wb") as full:
        ran = subprocess.run([LISTENER, "status", place], stdout=full, stderr=subprocess.PIPE)
    line = b"tb_listen: standard output: No space left on device\n"
    assert (ran.returncode, ran.stderr) == (2, line)
