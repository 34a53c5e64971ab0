"""What people type at a terminal, and what they see."""
from __future__ import annotations

import contextlib
import os
import signal
import stat
import subprocess

import pytest
from conftest import COMMAND
from terminals import Terminal

ACCOUNTS = "create_accounts id=1 ledger=700 code=10, id=2 ledger=700 code=10;"


def test_a_first_transfer(terminal):
    assert "2 of 2 accounts created" in terminal.enter(ACCOUNTS, "created\n") + "created\n"
    terminal.enter("create_transfers id=11 debit_account_id=1", ". ")
    terminal.enter("credit_account_id=2 amount=100 ledger=700 code=10;", "1 of 1 transfer created")
    terminal.enter("lookup_accounts id=2;", " 2              0             100     700    10")


def test_leaving_an_empty_ledger_does_not_ask(terminal):
    terminal.type("exit\r")
    assert terminal.ended() == 0


def test_completion_by_the_tab_key(terminal):
    terminal.type("create_acc\t id=1 led\t7 code=1 fl\thist\t;\r")
    terminal.wait("1 of 1 account created")
    terminal.enter("lookup_accounts id=1;", "history")


def test_sessions(terminal):
    terminal.enter("sessions", "no client is registered yet")
    terminal.enter("client=9 lookup_accounts id=1;", "1 of 1 not found")
    terminal.enter("sessions", "client 9: session 1, last request 1")


def test_a_history_of_whole_statements(terminal, state, tbs):
    terminal.enter("create_accounts id=1", ". ")
    terminal.enter("ledger=1 code=1;", "1 of 1 account created")
    terminal.wait("> ")
    terminal.type("exit\r")
    terminal.wait("exit again")
    terminal.type("exit\r")
    terminal.ended()
    path = os.path.join(state, "telovamish", "history")
    assert stat.S_IMODE(os.stat(path).st_mode) == 0o600
    again = Terminal(state=state, env={"TBS": tbs})
    again.wait("> ")
    again.type("\x1b[A\x1b[A\x1b[A\r")  # after two `exit`
    again.wait("1 of 1 account created")
    again.close()


def test_statements_that_are_pasted(terminal):
    terminal.type(f"\x1b[200~{ACCOUNTS}\n\tlookup_accounts\tid=1;\nlookup_accounts id=9;\x1b[201~")
    terminal.wait("id=9;")
    terminal.type("\r")
    terminal.wait("2 of 2 accounts created")
    terminal.wait("1 of 1 not found")


@pytest.mark.parametrize("marks", [("", ""), ("\x1b[200~", "\x1b[201~")])
def test_1000_events_that_are_pasted(terminal, marks):
    """Without the terminal's marks too, in at most 5 seconds of CPU time: not in the square of
    their number."""
    events = ",\n".join(f"id={it} ledger=1 code=1" for it in range(1, 1001))
    before = terminal.used()
    terminal.type(f"{marks[0]}create_accounts {events};{marks[1]}\r")
    terminal.wait("1000 of 1000 accounts created")
    assert terminal.used() - before < 5


def test_what_follows_a_wrong_statement_is_not_sent(terminal):
    terminal.type(f"{ACCOUNTS} lookup_acounts id=1; lookup_accounts id=1;\r")
    terminal.wait("2 of 2 accounts created")
    terminal.wait("unknown operation 'lookup_acounts'; did you mean lookup_accounts?")
    terminal.wait("telovamish: what follows it is not sent")
    terminal.wait("\n> ")
    terminal.enter("sessions", "client 1: session 1, last request 1")


def test_a_moment_that_cannot_be_entered(terminal):
    terminal.enter(
        f"at={2**63} lookup_accounts id=1;", "telovamish: TimeExhausted: no entry has a later time"
    )
    terminal.wait("\n> ")
    terminal.enter("lookup_accounts id=1;", "1 of 1 not found")


@pytest.mark.parametrize("number", [signal.SIGHUP, signal.SIGTERM, signal.SIGQUIT])
def test_a_signal_ends_it(state, tbs, number):
    """Also if the tests ignore it, as in a shell's background."""
    kept = signal.signal(number, signal.SIG_IGN)
    try:
        terminal = Terminal(state=state, env={"TBS": tbs})
    finally:
        signal.signal(number, kept)
    terminal.wait("> ")
    terminal.type("create_accounts id=1")
    terminal.wait("id=1")
    os.kill(terminal.child.pid, number)
    assert terminal.ended() == 128 + number


def test_it_stops_and_goes_on(state, tbs):
    """Under a shell: without one to continue it, Ctrl-Z stops nothing."""
    words = ("--norc", "--noprofile", "-i")
    shell = Terminal(*words, state=state, env={"PS1": "shell: "}, program="/bin/bash")
    with contextlib.closing(shell):
        shell.wait("shell: ")
        shell.enter(str(COMMAND), "> ")
        shell.type("lookup_accounts id=1")
        shell.wait("id=1")
        shell.type("\x1a")
        shell.wait("Stopped")
        shell.wait("shell: ")
        shell.enter("fg", "lookup_accounts id=1")
        shell.type(";\r")
        shell.wait("1 of 1 not found")


def test_a_server_that_ends_is_reported(terminal):
    terminal.enter("lookup_accounts id=1;", "1 of 1 not found")
    (server,) = subprocess.run(
        ["pgrep", "-P", str(terminal.child.pid)], capture_output=True, text=True
    ).stdout.split()
    os.kill(int(server), signal.SIGKILL)
    terminal.enter(
        "lookup_accounts id=1;", "the server ended, and its ledger with it: killed by SIGKILL"
    )


def test_a_prompt_is_there_soon(terminal):
    """Within a second of the command's own CPU time, however busy the machine is."""
    assert terminal.used() < 1


def test_what_is_longer_than_the_terminal_goes_through_the_pager(state, tbs):
    it = Terminal(state=state, env={"TBS": tbs, "PAGER": "sed 's/^/paged: /'"})
    it.wait("> ")
    ids = ", ".join(f"id={it} ledger=1 code=1" for it in range(1, 61))
    it.type(f"\x1b[200~create_accounts {ids};\x1b[201~\r")
    it.wait("60 of 60 accounts created")
    it.wait("\n> ")
    ids = ", ".join(f"id={it}" for it in range(1, 61))
    it.type(f"\x1b[200~lookup_accounts {ids};\x1b[201~\r")
    it.wait("paged: id  debits_posted")
    it.wait("paged: 60 ")
    it.wait("\n> ")
    it.close()


def test_without_the_pager_it_is_shown(state, tbs):
    it = Terminal(state=state, env={"TBS": tbs, "PAGER": "/nowhere/less -R"})
    it.wait("> ")
    ids = ", ".join(f"id={it}" for it in range(1, 61))
    it.type(f"\x1b[200~create_accounts {ids};\x1b[201~\r")
    it.wait("ledger_must_not_be_zero")
    it.wait("0 of 60 accounts created")
    it.close()
