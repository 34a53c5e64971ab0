"""The session that one command after another uses over a ledger that stays."""
from __future__ import annotations

import json
import os
import signal
import stat
import subprocess

import pytest
from conftest import COMMAND, ran
from listeners import listening

from telovamish.filling import Session
from telovamish.stored import folder, key_of, taken

ACCOUNT = "create_accounts id=1 ledger=7 code=1;"
LOOKUP = "lookup_accounts id=1;"


# the file


def test_a_session_is_kept_for_the_next_process():
    first = taken("a")
    assert (first.client, first.session) == (0, None)
    first.end(2**128 - 1, Session(2**64 - 1, 2**32 - 1))
    second = taken("a")
    assert (second.client, second.session) == (2**128 - 1, Session(2**64 - 1, 2**32 - 1))
    assert stat.S_IMODE(os.stat(folder() / "sessions" / "a").st_mode) == 0o600
    second.end(5, Session(1, 1))


def test_while_it_is_used_no_other_process_has_it():
    it = taken("a")
    assert taken("a") is None
    it.end(7, Session(1, 2))
    again = taken("a")
    assert again.client == 7
    again.end(7, None)


def test_one_that_is_not_ended_is_not_used_again():
    """A process that was killed may have left a request without a reply."""
    taken("a").end(7, Session(1, 2))
    killed = taken("a")
    os.close(killed._number)
    assert taken("a").session is None


@pytest.mark.parametrize(
    "text",
    [
        "{", "[]", "7", "{}", '{"client": "x", "session": "1", "next": 1}',
        '{"client": "0", "session": "1", "next": 1}', '{"client": "1", "session": "0", "next": 1}',
        '{"client": "1", "session": "1", "next": 4294967296}', "\xff", '{"client": null}',
    ],
)  # fmt: skip
def test_a_damaged_file_has_no_session(text):
    taken("a").end(7, Session(1, 2))
    (folder() / "sessions" / "a").write_text(text, encoding="latin-1")
    assert taken("a").session is None


def test_without_a_folder_nothing_is_stored(monkeypatch):
    monkeypatch.setenv("XDG_STATE_HOME", "/proc/none")
    assert taken("a") is None


def test_ledgers_are_told_apart(tmp_path):
    first, second = tmp_path / "a", tmp_path / "b"
    first.touch(), second.touch()
    keys = [key_of(str(first), None), key_of(str(second), None), key_of(None, "3001")]
    keys += [key_of(None, "3001", 5), key_of(None, "3002")]
    assert len({*keys}) == 5
    assert key_of(str(tmp_path / "." / "a"), None) == keys[0]
    second.rename(first)  # as a backup that is put in its place
    assert key_of(str(first), None) != keys[0]


# commands


@pytest.fixture
def asked(env, tmp_path):
    """Serves a text over a ledger in a file, and gives what it prints."""

    def run(text, *options):
        words = ["run", "--file", str(tmp_path / "a.tbk"), *options, "--command", text]
        return ran(*words, env=env)

    return run


def registers(outs) -> int:
    return sum(out.count(b" has session ") for _, out, _ in outs)


def test_one_command_after_another_has_one_session(asked):
    outs = [asked(ACCOUNT), *(asked(LOOKUP) for _ in range(5))]
    assert registers(outs) == 1
    assert [status for status, _, _ in outs] == [0] * 6
    assert all(b"id  debits_posted" in out for _, out, _ in outs[1:])


def test_many_commands_evict_nobody(env, tmp_path):
    """A ledger for four clients: the session of another one stays."""
    with listening(env["TBD"], tmp_path) as port:
        first = ["run", "--connect", port, "--client", "7", "--command"]
        ran(*first, ACCOUNT)
        outs = [ran("--connect", port, "--command", LOOKUP) for _ in range(9)]
        assert registers(outs) == 1
        _, out, errors = ran(*first, "session=1 request=2 lookup_accounts id=1;")
        assert b"debits_posted" in out, (out, errors)


@pytest.mark.parametrize(
    "options, count",
    [([], 1), (["--new-client"], 3), (["--client-range", "5"], 1), (["--client", "9"], 1)],
    ids=["stored", "new", "range", "given"],
)
def test_whose_session_it_is(asked, options, count):
    """Of a client that is given by its id nothing is stored: its second register is refused."""
    assert registers([asked(LOOKUP, *options) for _ in range(3)]) == count


def test_a_session_that_was_evicted_is_replaced(asked, tmp_path):
    """The statement is executed once, by another client."""
    asked(ACCOUNT, "--clients-max", "1")
    asked(LOOKUP, "--client", "9")  # evicts it
    status, out, errors = asked("create_accounts id=2 ledger=7 code=1;")
    assert (status, errors) == (0, "")
    assert out.splitlines()[1] == b"1 of 1 account created"
    status, out, errors = asked("lookup_accounts id=2;")
    assert (status, errors, registers([(status, out, errors)])) == (0, "", 0)


def test_another_ledger_in_its_place_gets_another_client(asked, tmp_path):
    asked(ACCOUNT)
    (tmp_path / "a.tbk").rename(tmp_path / "old.tbk")
    status, out, _ = asked(ACCOUNT)
    assert (status, registers([(status, out, "")])) == (0, 1)
    assert out.endswith(b"1 of 1 account created\n")


def test_a_command_that_was_killed_leaves_no_session(asked, env, tmp_path):
    """A request of it may have no reply: the next command has another client."""
    asked(ACCOUNT)
    words = [COMMAND, "run", "--file", str(tmp_path / "a.tbk")]
    with subprocess.Popen(
        words, stdin=subprocess.PIPE, stdout=subprocess.PIPE, env={**os.environ, **env}
    ) as it:
        it.stdin.write(f"{LOOKUP}\n".encode())
        it.stdin.flush()
        assert it.stdout.readline().startswith(b"id ")
        it.send_signal(signal.SIGKILL)
        it.wait(20)
    assert registers([asked(LOOKUP)]) == 1


def test_two_at_a_time_have_two_sessions(asked, env, tmp_path):
    with listening(env["TBD"], tmp_path) as port:
        words = [COMMAND, "run", "--json", "--connect", port]
        with subprocess.Popen(words, stdin=subprocess.PIPE, stdout=subprocess.PIPE) as it:
            it.stdin.write(b"lookup_accounts id=1;\n")
            it.stdin.flush()
            first = json.loads(it.stdout.readline())["client"]
            out = ran(*words[1:], "--command", LOOKUP)[1]
            assert json.loads(out.splitlines()[0])["client"] != first
            it.stdin.close()
            it.wait(20)
