"""Lines on standard error as JSON."""

import json
import re

import pytest

from .running import ended

TIME = re.compile(r"\d{4}-\d\d-\d\dT\d\d:\d\d:\d\d\.\d{3}\+00:00")
LONGEST = 4096  # bytes of a line


def test_lines_of_a_start(launch):
    listener = launch("--log-json")
    made, it = json.loads(listener.line()), json.loads(listener.line())
    assert listener.end() == 0
    assert (it["level"], it["program"]) == ("info", "tb_listen")
    assert "tbd: made" in made["text"]
    assert "listens on" in it["text"]
    assert TIME.fullmatch(it["time"])


def test_the_level_of_the_reason_for_which_it_ends(folder):
    it = json.loads(ended("--log-json", "--unix", folder / "it")[1])
    assert (it["level"], it["text"]) == ("error", "true ended with status 0")


def test_the_level_of_a_restart(launch):
    listener = launch("--log-json")
    listener.line_with("listens on")
    listener.kill_server()
    it = json.loads(listener.line())
    assert it["level"] == "warning"
    assert "by SIGKILL, and is started again" in it["text"]


@pytest.mark.parametrize("letter, count", [("x", 9999), ("\U0001f600", 999)], ids=["x", "emoji"])
def test_a_long_line(launch, letter, count):
    """It is cut, and stays an object."""
    script = f"import os, sys; os.write(2, ({letter!r} * {count} + '\\n').encode()); os.abort()"
    listener = launch("--log-json", command=["/usr/bin/python3", "-SEc", script])
    line = listener.line()
    assert len(line.encode()) <= LONGEST
    it = json.loads(line)
    begin = "/usr/bin/python3 ended by SIGABRT ("
    assert it["level"] == "warning"
    assert re.match(re.escape(begin) + re.escape(letter) + "+", it["text"])
