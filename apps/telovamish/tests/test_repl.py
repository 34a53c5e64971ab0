"""The conversation at a terminal: commands, statements, leaving, files and connections."""
from __future__ import annotations

import os
import shutil
import signal
import subprocess

import pytest
from conftest import ran
from listeners import UPPER, certificates_in, listening
from terminals import Terminal

ACCOUNT = "create_accounts id=1 ledger=7 code=1;"
LEAVES = "the ledger is in memory, and its 2 entries end with it: exit again to leave."


def tried(terminal: Terminal, typed: str, wanted: str) -> None:
    """Types lines, and waits for what is wanted and the next prompt."""
    *before, last = typed.split("\n")
    for line in before:
        terminal.enter(line, ". ")
    terminal.enter(last, wanted)
    terminal.wait("\n> ")


# repeats


def test_a_repeat_in_memory(terminal):
    terminal.enter(ACCOUNT, "1 of 1 account created")
    wanted = "first reply again (commit 2): nothing was executed"
    tried(terminal, f"request=1 {ACCOUNT}", wanted)
    terminal.enter("json", "\n> ")
    tried(terminal, f"request=1 {ACCOUNT}", '"results":[],"repeat":true}')
    terminal.enter("table", "\n> ")
    terminal.enter(f"request=2 {ACCOUNT.replace('id=1', 'id=2')}", "1 of 1 account created")


READY = """#!/bin/bash
exec {tbd} "$@" 2> >(sed -u 's/^tbd: ready$/tbd: ready: commit 2, time 5/' >&2)
"""


def test_a_repeat_in_a_file(env, tmp_path):
    """A tbd that prints no commit when it is ready gets one here: the second is its last."""
    tbd, file = tmp_path / "tbd", tmp_path / "a.tbk"
    tbd.write_text(READY.format(tbd=env["TBD"]))
    tbd.chmod(0o755)
    it = Terminal("--file", str(file), "--client", "7", state=str(tmp_path), env=env)
    it.wait("[y/N]: ")
    it.type("y\r")
    it.wait("> ")
    it.enter(ACCOUNT, "1 of 1 account created")
    it.type("exit\r")
    assert it.ended() == 0
    env = {**env, "TBD": str(tbd)}
    it = Terminal("--file", str(file), "--client", "7", state=str(tmp_path), env=env)
    it.wait("> ")
    wanted = "first reply again (commit 2): nothing was executed"
    tried(it, f"client=7 session=1 request=1 {ACCOUNT}", wanted)
    it.close()


def test_a_repeat_over_a_connection(env, tmp_path):
    """Nothing is claimed of a first reply: its commit is above all that was seen."""
    with listening(env["TBD"], tmp_path) as port:
        it = Terminal("--connect", port, "--client", "7", state=str(tmp_path), env=env)
        it.wait("> ")
        it.enter(ACCOUNT, "1 of 1 account created")
        wanted = "first reply again (commit 2): nothing was executed"
        tried(it, f"request=1 {ACCOUNT}", wanted)
        it.close()
        it = Terminal("--connect", port, "--client", "7", state=str(tmp_path), env=env)
        it.wait("> ")
        again = f"client=7 session=1 request=1 {ACCOUNT}"
        tried(it, again, "1 of 1 account created")
        it.close()


# at the prompt


def test_a_wrong_word_at_its_line_end(terminal):
    wanted = "telovamish: line 2, column 1: unknown field 'ledgre'; did you mean ledger?"
    typed = "create_accounts id=1\nledgre=700"
    tried(terminal, typed, wanted)
    terminal.enter(ACCOUNT, "1 of 1 account created")


@pytest.mark.parametrize("word", ["exit", "quit", "exit;"])
def test_leaving_at_the_continuation_prompt(terminal, word):
    terminal.enter("create_accounts id=1", ". ")
    wanted = "the last statement has no `;`, and is not sent"
    terminal.enter(word, wanted)
    assert terminal.ended() == 0


def test_help_at_the_continuation_prompt(terminal):
    terminal.enter("create_accounts id=1", ". ")
    wanted = "ledger: field of create_accounts: 32 bits: the currency or unit"
    terminal.enter("help ledger", wanted)
    terminal.wait("> create_accounts id=1")
    terminal.enter("ledger=1 code=1;", "1 of 1 account created")
    terminal.enter("create_accounts id=2", ". ")
    terminal.enter("help", "help WORD says")


def test_ctrl_c_at_the_continuation_prompt(terminal):
    terminal.enter("create_accounts id=1", ". ")
    terminal.type("\x03")
    terminal.wait("\n> ")
    tried(terminal, ACCOUNT, "1 of 1 account created")


def account(id: int) -> str:
    return f"create_accounts id={id} ledger=7 code=1;"


@pytest.mark.parametrize("next_ids", [[2, 3], [3, 3]], ids=["typed again", "another one"])
def test_ctrl_c_amid_a_statement(terminal, next_ids):
    """Whose reply does not come. Typed again it gets its reply; another one is refused, and is
    executed when it is typed again. None is dropped."""
    terminal.enter(ACCOUNT, "1 of 1 account created")
    terminal.wait("\n> ")
    words = ["pgrep", "-P", str(terminal.child.pid)]
    (server,) = map(int, subprocess.run(words, stdout=subprocess.PIPE, check=True).stdout.split())
    os.kill(server, signal.SIGSTOP)
    terminal.enter(account(2), "\n")
    terminal.press_ctrl_c()
    terminal.wait("no reply is waited for: the statement may have been executed")
    terminal.wait("\n> ")
    os.kill(server, signal.SIGCONT)
    first, second = next_ids
    collides = "request 2 was executed before, with other content"
    tried(terminal, account(first), "1 of 1 account created" if first == 2 else collides)
    tried(terminal, account(second), "1 of 1 account created")
    tried(terminal, "lookup_accounts id=1, id=2, id=3;", "\n 3  ")


@pytest.mark.parametrize("leave", ["exit\r", "quit\r", "\x04"])
def test_leaving_a_ledger_in_memory_asks_once(terminal, leave):
    terminal.enter(ACCOUNT, "1 of 1 account created")
    terminal.wait("> ")
    terminal.type(leave)
    terminal.wait(LEAVES)
    terminal.wait("\n> ")
    terminal.type(leave)
    assert terminal.ended() == 0


# files


SLOW = """#!/bin/sh
echo "tbd: reading $2, 128 of 900 MB" >&2
sleep 1.5
exec {tbd} "$@"
"""


def test_progress_while_a_file_is_read(env, tmp_path):
    """A tbd that takes its time is in place of a large file."""
    slow, file = tmp_path / "tbd", tmp_path / "a.tbk"
    slow.write_text(SLOW.format(tbd=env["TBD"]))
    slow.chmod(0o755)
    it = Terminal("--file", str(file), state=str(tmp_path), env={**env, "TBD": str(slow)})
    it.wait("[y/N]: ")
    it.type("y\r")
    it.wait("reading")
    it.wait("a.tbk, 128 of 900 MB")
    it.wait("\n> ")
    it.enter(ACCOUNT, "1 of 1 account created")
    it.type("\rexit\r")  # its entries stay: it does not ask
    assert it.ended() == 0


def test_who_has_a_file_that_is_locked(env, tmp_path):
    file = str(tmp_path / "a.tbk")
    words = [env["TBD"], "run", file, "64"]
    with subprocess.Popen(words, stdin=subprocess.PIPE, stderr=subprocess.PIPE) as holder:
        while b"made" not in holder.stderr.readline():
            pass
        status, _, errors = ran("--file", file, "--command", ACCOUNT, env=env)
        assert (status, "Locked" in errors) == (1, True)
        assert f"process {holder.pid} ({' '.join(words)}) has it" in errors
        holder.stdin.close()


# connections


@pytest.fixture(scope="module")
def paths(tmp_path_factory):
    if not shutil.which("openssl"):
        pytest.fail("openssl is not installed")
    return certificates_in(tmp_path_factory.mktemp("certificates"))


def test_a_plain_connection_to_a_port_of_tls(env, tmp_path, paths):
    options = ["--certificate", paths["server"], "--key", paths["server_key"]]
    with listening(env["TBD"], tmp_path, *options) as port:
        it = Terminal("--connect", port, state=str(tmp_path), env=env)
        it.wait("> ")
        wanted = (
            "telovamish: the server speaks TLS: give --ca FILE. Nothing was executed, and it is"
        )
        tried(it, ACCOUNT, wanted)
        it.close()


def test_a_final_refusal_over_tls(env, tmp_path, paths):
    clients = tmp_path / "clients"
    clients.write_text("certificate payments 1\n")
    options = ["--certificate", paths["server"], "--key", paths["server_key"]]
    options += ["--client-ca", paths["ca"], "--clients", str(clients)]
    words = ["--ca", paths["ca"], "--certificate", paths["payments"]]
    words += ["--key", paths["payments_key"], "--client", str(2 * UPPER + 7)]
    with listening(env["TBD"], tmp_path, *options) as port:
        it = Terminal("--connect", port, *words, state=str(tmp_path), env=env)
        it.wait("> ")
        wanted = (
            "telovamish: ClientNotAllowed: the client id is another peer's. Nothing was executed"
        )
        tried(it, ACCOUNT, wanted)
        assert "sent again, try" not in it.shown
        it.close()


# statements

TYPED = [
    pytest.param(
        "at=1\nrequest=1\nclient=0 register;", "line 3, column 9: client cannot be 0",
        id="a-place-is-one-in-what-was-typed",
    ),
    pytest.param(
        "client=1 request=1 lookup_accounts id=1;",
        "telovamish: no session was written, and 0 was sent: write session=N too",
        id="no-session",
    ),
]  # fmt: skip


@pytest.mark.parametrize("typed, wanted", TYPED)
def test_after_a_fault_the_next_statement_is_served(terminal, typed, wanted):
    tried(terminal, typed, wanted)
    terminal.enter(ACCOUNT, "1 of 1 account created")


def test_8191_events(terminal):
    many = ", ".join(f"id={it}" for it in range(1, 8192))
    terminal.type(f"\x1b[200~lookup_accounts {many};\x1b[201~")
    terminal.wait("id=8191;")
    terminal.type("\r")
    terminal.wait("a statement has at most 8190 ids")
    terminal.wait("\n> ")
    terminal.enter("lookup_accounts id=9;", "1 of 1 not found")
