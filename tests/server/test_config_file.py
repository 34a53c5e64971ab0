"""Options from a file in TOML: --config FILE."""

import json
import os

import pytest

from .running import LISTENER, ended_with
from .wire import connected, received, register


def written(folder, **options):
    """A file of options, each by its name. JSON's strings, numbers and lists are TOML's too."""
    file = folder / "it.toml"
    lines = (f"{name.replace('_', '-')} = {json.dumps(it)}\n" for name, it in options.items())
    file.write_text("".join(lines))
    return file


@pytest.fixture
def by_file(folder):
    """How a listener ends whose options are in a file of these lines."""

    def ended(text, *more):
        file = folder / "it.toml"
        file.write_text(text)
        words = [LISTENER, "--unix", str(folder / "it"), "--config", str(file), *more]
        status, line = ended_with([*words, "--", "true"])
        return status, line.replace(str(file), "FILE")

    return ended


def test_all_options_in_a_file(folder):
    """The command too. The listener takes them as it takes arguments."""
    command = ["sh", "-c", 'echo "tbs: $*" >&2; exit 9', "sh", "--idle", "x"]
    file = written(folder, unix=str(folder / "it"), command=command, log_json=True)
    status, line = ended_with([LISTENER, "--config", str(file)])
    assert (status, json.loads(line)["text"]) == (9, "tbs: --idle x")


def test_what_a_file_changes(start, folder):
    """The limit on connections, and the time that a client may take."""
    file = written(folder, connections=1, idle=2)
    listener = start("--config", file)
    first = listener.connect()
    first.sendall(register(1))
    assert len(first.recv(48)) == 48
    assert received(listener.connect()) == b"tb_listen: Busy\n"
    assert received(first) == b"tb_listen: Idle\n"


def test_an_argument_goes_before_the_file(start, folder):
    listener = start("--config", written(folder, idle=0.5), "--idle", "60")
    with listener.connect() as it:
        it.settimeout(1.5)
        with pytest.raises(TimeoutError):
            it.recv(1)


def test_users_as_a_list(start, folder):
    """An option that may be repeated has a list. Other users may then connect."""
    listener = start("--config", written(folder, allow_uid=["nobody", "1"]))
    assert os.stat(listener.path).st_mode & 0o777 == 0o666
    with connected(listener.path) as it:
        it.sendall(register(1))
        assert len(it.recv(48)) == 48


@pytest.mark.parametrize(
    "text, line",
    [
        ("idle = 5\nagain = 1\n", "FILE, line 2: no option is called 'again'"),
        ("[limits]\nidle = 5\n", "FILE, line 1: no option is called 'limits'"),
        ("config = 'x'\n", "FILE, line 1: no option is called 'config'"),
    ],
    ids=["name", "table", "config"],
)
def test_an_unknown_name(by_file, text, line):
    assert by_file(text) == (1, f"tb_listen: {line}")


@pytest.mark.parametrize(
    "text",
    ["idle 5\n", "idle =\n", "idle = 5\nidle = 5\n", "idle = 5\nunix = 'a\n", "\xff = 1\n"],
    ids=["no-equals", "no-value", "twice", "no-end", "no-name"],
)
def test_a_line_that_is_no_toml(by_file, text):
    status, line = by_file(text)
    number = text.count("\n")
    assert status == 1
    assert line.startswith((f"tb_listen: FILE, line {number}: ", "tb_listen: FILE: ")), line


@pytest.mark.parametrize(
    "text, why",
    [
        ("idle = 0\n", "idle: '0' is no number of seconds from 0.001 to 1000000"),
        ("idle = nan\n", "idle: 'NaN' is no number of seconds from 0.001 to 1000000"),
        ("connections = 65536\n", "connections: '65536' is no number from 1 to 65535"),
        ("connections = 1.5\n", "connections: '1.5' is no number from 1 to 65535"),
        ("tcp = '3001'\n", "tcp: '3001' is no HOST:PORT"),
    ],
    ids=["idle", "nan", "connections", "part", "tcp"],
)
def test_a_wrong_value(by_file, text, why):
    assert by_file(text) == (1, f"tb_listen: FILE: {why}")


@pytest.mark.parametrize("text", ["connections = true\n", "log-json = 1\n", "idle = [1, 2]\n"])
def test_a_value_of_another_kind(by_file, text):
    status, line = by_file(text)
    assert (status, line.startswith("tb_listen: FILE: ")) == (1, True), line
    assert text.partition(" ")[0] in line


def test_a_file_that_is_not_there(folder):
    words = [LISTENER, "--config", str(folder / "none"), "--", "true"]
    line = f"tb_listen: {folder}/none: No such file or directory"
    assert ended_with(words) == (1, line)


def test_a_device_for_a_file():
    words = [LISTENER, "--config", "/dev/zero", "--", "true"]
    line = "tb_listen: /dev/zero is a pipe or a device, not a file"
    assert ended_with(words) == (1, line)
