"""Who gets in: addresses, users of the Unix socket, and the file of client ids."""

import contextlib
import os
import pwd
import resource
import subprocess
import sys

import pytest

from .running import ended
from .wire import UPPER, received, register

NOBODY = pwd.getpwnam("nobody").pw_uid


def test_an_address_that_is_not_loopback(start):
    status, line = ended("--tcp", "0.0.0.0:0")
    assert status == 2
    assert "0.0.0.0 is no loopback address: give --client-ca FILE" in line
    assert start("--tcp", "0.0.0.0:0", "--insecure").end() == 0


@pytest.mark.parametrize(
    "host, is_loopback",
    [
        ("127.0.0.1", True),
        ("127.0.0.2", True),
        ("127.1", True),
        ("::1", True),
        ("::ffff:127.0.0.1", True),
        ("::ffff:7f00:2", True),
        ("0.0.0.0", False),
        ("0", False),
        ("10.0.0.1", False),
        ("::", False),
        ("::ffff:0.0.0.0", False),
        ("::ffff:10.0.0.1", False),
        ("::127.0.0.1", False),
        ("fe80::1%lo", False),
    ],
)
def test_which_addresses_are_loopback(host, is_loopback):
    """One that is not is refused before the listener tries to listen there."""
    place = f"[{host}]:0" if ":" in host else f"{host}:0"
    status, line = ended("--tcp", place)
    assert (status != 2, "is no loopback address" not in line) == (is_loopback,) * 2, line


@pytest.mark.parametrize(
    "options, why",
    [
        (("--certificate", "a"), "--certificate and --key need each other"),
        (("--client-ca", "a"), "--client-ca needs --certificate"),
        (("--unix", "a", "--certificate", "a", "--key", "b"), "--certificate is for TCP"),
        (("--allow-uid", "no such user"), "is no user of this computer"),
        (("--allow-uid", "0"), "error: --allow-uid is for a Unix socket: --unix PATH"),
    ],
)
def test_what_does_not_go_together(options, why):
    status, line = ended(*options)
    assert (status, why in line) == (2, True), line


@pytest.mark.parametrize(
    "text, why",
    [
        ("certificate a", "a line must be `certificate NAME NUMBER`"),
        ("person a 1", "a line must be `certificate NAME NUMBER`"),
        ("certificate a x", "line 1: 'x' is no number of 64 bits"),
        (f"certificate a {1 << 64}", "is no number of 64 bits"),
        ("certificate a -1", "is no number of 64 bits"),
        ("user nobody-there 1", "is no user of this computer"),
        ("certificate a 1\ncertificate a 2", "line 2: certificate a has a range already"),
        ("certificate a 1\ncertificate b 1", "line 2: 1 is another one's range already"),
        ("\udcff", "is no text"),
    ],
)
def test_a_wrong_file_of_client_ids(folder, text, why):
    file = folder / "clients"
    file.write_text(text, encoding="utf-8", errors="surrogateescape")
    status, line = ended("--clients", file)
    assert (status, why in line) == (1, True), line


@pytest.fixture(params=["pipe", "/dev/zero"])
def device(request, folder):
    """A place that is no file: a pipe, for whose other end no signal would end the wait, and a
    device."""
    if request.param != "pipe":
        return request.param
    os.mkfifo(folder / "pipe")
    return str(folder / "pipe")


def test_a_pipe_or_a_device_for_a_file(device, folder):
    why = f"{device} is a pipe or a device, not a file"
    assert ended("--clients", device) == (1, f"tb_listen: {why}")
    file = folder / "it"
    file.touch()
    tls = ("--certificate", device, "--key", file, "--tcp", "127.0.0.1:0")
    assert ended(*tls) == (1, f"tb_listen: {why}")


@pytest.mark.parametrize(
    "options",
    [
        ("--clients", "{}/none"),
        ("--clients", "{}"),
        ("--certificate", "{}/it", "--key", "{}/it", "--tcp", "127.0.0.1:0"),
        ("--status", "{}/none/status"),
    ],
    ids=" ".join,
)
def test_a_file_that_is_not_there_or_wrong(folder, options):
    (folder / "it").write_text("no certificate")
    status, line = ended(*(it.format(folder) for it in options))
    assert (status, line.startswith("tb_listen: ")) == (1, True), line


def test_a_long_file_of_client_ids(folder):
    """The time that it takes grows with its lines, and not with their square."""
    file = folder / "clients"
    file.write_text("".join(f"certificate c{number} {number}\n" for number in range(30_000)))
    before = resource.getrusage(resource.RUSAGE_CHILDREN)
    status, line = ended("--clients", file, "--unix", folder / "it")
    after = resource.getrusage(resource.RUSAGE_CHILDREN)
    assert (status, line) == (1, "tb_listen: true ended with status 0")
    assert after.ru_utime + after.ru_stime - before.ru_utime - before.ru_stime < 2


# Other users of the Unix socket


ASKS = """
import socket, sys
it = socket.socket(socket.AF_UNIX)
try:
    it.connect({path!r})
    it.sendall(bytes.fromhex({frame!r}))
    print(it.recv(64))
except OSError as error:
    print(error.strerror)
"""


def as_user(program, words):
    how = {"capture_output": True, "text": True, "timeout": 60, "user": NOBODY, "cwd": "/"}
    return subprocess.run([program, "-I", "-c", words], **how)


@pytest.fixture(scope="module")
def python():
    """A Python that another user may run: that of this test may be in a folder of its owner's."""
    if os.geteuid():
        pytest.skip("only root can be another user")
    for program in (sys.executable, "/usr/bin/python3"):
        with contextlib.suppress(OSError, subprocess.SubprocessError):
            if as_user(program, "").returncode == 0:
                return program
    pytest.fail("there is no Python that another user may run")


@pytest.fixture
def asks(python):
    """What another user gets that registers."""

    def asked(listener, client=1):
        os.chmod(listener.folder, 0o755)
        words = ASKS.format(path=listener.path, frame=register(client).hex())
        return as_user(python, words).stdout.strip()

    return asked


def test_another_user(start, asks):
    assert asks(start()) == "Permission denied"


def test_a_user_who_is_allowed(start, asks):
    assert asks(start("--allow-uid", "nobody")).startswith("b'\\x01")


def test_a_user_who_is_not_allowed(start, asks):
    assert asks(start("--allow-uid", "1")) == "b'tb_listen: NotAllowed\\n'"


def test_client_ids_of_a_user(start, asks, folder):
    file = folder / "clients"
    file.write_text("user nobody 5\n")
    listener = start("--allow-uid", "nobody", "--clients", file)
    assert asks(listener, 5 * UPPER + 1).startswith("b'\\x01")
    assert asks(listener, 6 * UPPER) == "b'tb_listen: ClientNotAllowed\\n'"
    with listener.connect() as it:  # root is not in the file
        it.sendall(register(5 * UPPER))
        assert received(it) == b"tb_listen: NotAllowed\n"
