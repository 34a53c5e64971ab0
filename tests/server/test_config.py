"""Arguments: which are wrong, which are right, and pages that cannot be written."""

import re
import subprocess

import pytest

from .running import LISTENER, ended_with

SECONDS = "is no number of seconds from 0.001 to 1000000"
SECOND_VALUES = ["", "0", "-1", "0.0001", "1000001", "nan", "inf", "x"]
WRONG = {
    "--tcp": (
        [
            "",
            "3001",
            ":3001",
            "localhost",
            "localhost:",
            "localhost:x",
            "localhost:-1",
            "localhost:65536",
            "localhost:1.5",
            "::1:3001",
            "[]:3001",
            "[::1:3001",
            "::1]:3001",
            "a[b]:1",
            "a:\u0663",
        ],
        "is no HOST:PORT",
    ),
    "--connections": (
        ["", "0", "-1", "1.5", "65536", "ten", "\u0663", "0x10", "9" * 20],
        "is no number from 1 to 65535",
    ),
    "--idle": (SECOND_VALUES, SECONDS),
    "--slow": (SECOND_VALUES, SECONDS),
    "--ahead": (
        ["", "-1", "-0.001", "10000000001", "nan", "inf", "x"],
        "is no number of seconds from 0 to 10000000000",
    ),
}
VALUES = {"HOST:PORT": "127.0.0.1:1", "N": "1", "SECONDS": "1", "BYTES": "4194304"}
ONCE = {
    "--unix": "PATH",
    "--tcp": "HOST:PORT",
    "--connections": "N",
    "--certificate": "FILE",
    "--key": "FILE",
    "--client-ca": "FILE",
    "--clients": "FILE",
    "--connections-per-peer": "N",
    "--sessions-per-range": "N",
    "--requests-per-second": "N",
    "--memory": "BYTES",
    "--status": "PATH",
    "--metrics": "HOST:PORT",
    "--idle": "SECONDS",
    "--slow": "SECONDS",
    "--ahead": "SECONDS",
    "--config": "FILE",
}


def ended(*given):
    return ended_with([LISTENER, *given])


@pytest.mark.parametrize(
    "given, why",
    [
        ((), "the following arguments are required: COMMAND"),
        (("--",), "the following arguments are required: COMMAND"),
        (("--", ""), "an empty word is no COMMAND"),
        (("--unix", "", "--", "true"), "argument --unix: an empty word is no path"),
        (("--again", "--", "true"), "unrecognized arguments: --again"),
        (("--idl=5", "--", "true"), "unrecognized arguments: --idl=5"),
        (("--idle", "5", "--idle", "5", "--", "true"), "argument --idle: give it once"),
        (("--unix", "a", "--unix=b", "--", "true"), "argument --unix: give it once"),
    ],
    ids=lambda it: " ".join(it) if isinstance(it, tuple) else "",
)
def test_wrong_arguments(given, why):
    assert ended(*given) == (2, f"tb_listen: error: {why}")


@pytest.mark.parametrize(
    "option, value, why",
    [(option, value, why) for option, (values, why) in WRONG.items() for value in values],
)
def test_a_wrong_value(option, value, why):
    line = f"tb_listen: error: argument {option}: {value!r} {why}"
    assert ended(f"{option}={value}", "--", "true") == (2, line)


@pytest.mark.parametrize(
    "given",
    [
        ("--connections", "65535"),
        ("--idle", "1e6"),
        ("--slow", "0.001"),
        ("--ahead", "1e10"),
        ("--tcp", "[::1]:0"),
        ("--allow-uid", "0", "--allow-uid", "0"),
    ],
    ids=" ".join,
)
def test_a_right_value(folder, given):
    """It is no wrong argument: the command runs, or the line has another reason."""
    status, line = ended("--unix", str(folder / "it"), *given, "--", "true")
    assert (status, "error: " in line) == (1, False), line


def test_options_of_the_command_are_its_own(folder):
    command = ["sh", "-c", 'echo "tbs: $*" >&2; exit 9', "sh", "--idle", "x"]
    assert ended("--unix", str(folder / "it"), "--", *command) == (9, "tb_listen: tbs: --idle x")


@pytest.mark.parametrize("option, kind", ONCE.items(), ids=list(ONCE))
def test_a_second_value(option, kind):
    """It is refused, also if it is the same."""
    value = VALUES.get(kind, "a")
    status, line = ended(option, value, option, value, "--", "true")
    assert (status, f"argument {option}: give it once" in line) == (2, True), line


def help_page():
    ran = subprocess.run([LISTENER, "--help"], capture_output=True, text=True, timeout=20)
    assert (ran.returncode, ran.stderr) == (0, "")
    return ran.stdout


def test_the_help_page_has_each_option():
    options = dict(re.findall(r"^  (--\S+) (\S+)", help_page(), re.M))
    assert options == {**ONCE, "--allow-uid": "USER"}


@pytest.mark.parametrize(
    "option, value",
    [("--connections", "256"), ("--idle", "300"), ("--slow", "30"), ("--ahead", "0")],
)
def test_the_help_page_has_each_default(option, value):
    part = help_page().partition(f"  {option} ")[2].partition("\n  --")[0]
    assert f"({value})" in part


@pytest.mark.parametrize("word", ["--help", "--version"])
def test_a_page_that_cannot_be_written(word):
    with open("/dev/full", "wb") as full:
        ran = subprocess.run([LISTENER, word], stdout=full, stderr=subprocess.PIPE)
    line = b"tb_listen: standard output: No space left on device\n"
    assert (ran.returncode, ran.stderr) == (1, line)


def closed(words, *given):
    """Runs the listener with some of its outputs closed."""
    script = ["sh", "-c", f'exec "$@" {words}', "sh", LISTENER, *given]
    return subprocess.run(script, stderr=subprocess.PIPE)


def test_a_page_for_an_output_that_is_closed():
    ran = closed(">&-", "--version")
    assert (ran.returncode, ran.stderr) == (1, b"tb_listen: standard output is closed\n")


@pytest.mark.parametrize(
    "given", [("--none",), ("--log", "etcd://a/b", "--copy", "c", "x")], ids=" ".join
)
def test_a_line_that_cannot_be_written(given):
    """The exit status is the same."""
    with open("/dev/full", "wb") as full:
        assert subprocess.run([LISTENER, *given], stderr=full).returncode == 2


def test_a_line_for_an_output_that_is_closed():
    assert closed(">&- 2>&-", "--none").returncode == 2
