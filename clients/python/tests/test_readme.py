#!/usr/bin/env python3
"""The programs of this client's README, as they are printed, and its examples, over tbs and a
listener."""
import os
import shlex
import re
import subprocess
import sys
import tempfile
import textwrap
import unittest

from paths import CLIENT, EXAMPLES, PYTHONPATH, STAND_IN
from helpers.listeners import KEEPER, Running
from helpers.programs import PROGRAM, has_program

SECONDS = 120  # that a program may take on a busy computer
MADE = "tbd: made {}/books.tbk\n"
# what the programs of a session that survives a crash begin with
BEGIN = f"""
from tb_client import *
from tb_client import id
transport = Program({PROGRAM!r}, 2)
first = Session.register(transport)
require_ok(first.create_accounts([Account(it, ledger=700, code=10) for it in (1, 2)]))
session = Session.register(transport)
"""
IN_DOUBT = """
session.prepare(Operation.create_transfers, [Transfer(id(), 1, 2, 10, ledger=700, code=10)])
session.save("session.json")
"""
MEANWHILE = "\nrequire_ok(first.create_transfers([Transfer(id(), 1, 2, 5, ledger=700, code=10)]))\n"
EVICT = "\nfor _ in range(2):\n    Session.register(transport)\n"
END = "\nprint(session.lookup_accounts([2])[0].credits_posted)\ntransport.close()\n"

EXAMPLE = """accounts 1 and 2 are created
a transfer of 100 was sent, and no reply came
after a crash the same bytes are sent again: credits_posted 100
after an eviction the same records are created again: credits_posted 110
after a restart: credits_posted 110
"""
KILLS = """  the server is killed: the listener starts it again
  a client is killed: it goes on from what it saved
  the listener is killed: its server ends with it, and both are started again
  4 clients made 60 transfers each: credits_posted 240
  the listener is asked to end, and ends with status 0
"""
OVER_SOCKETS = f"on a Unix socket:\n{KILLS}on a port:\n{KILLS}"


def blocks():
    with open(os.path.join(CLIENT, "README.md"), encoding="utf-8") as readme:
        return re.findall(r"```python\n(.*?)```", readme.read(), re.S)


class Readme(unittest.TestCase):
    def ran(self, *words, said=""):
        """What a program prints, in a folder of its own. It says this on standard error."""
        with tempfile.TemporaryDirectory() as folder:
            keeper = os.path.join(folder, "keeper")
            with open(keeper, "w", encoding="utf-8") as file:
                file.write(f'#!/bin/sh\nexec {shlex.join(KEEPER)} "$@"\n')
            os.chmod(keeper, 0o755)
            ran = subprocess.run(
                [sys.executable, "-B", *words],
                cwd=folder,
                env={**os.environ, "PYTHONPATH": PYTHONPATH, "TBD": keeper},
                capture_output=True,
                text=True,
                timeout=SECONDS,
            )
        self.assertEqual((ran.returncode, ran.stderr), (0, said.format(folder)))
        return ran.stdout

    def test_a_ledger_is_opened(self):
        """In a file, over a listener, and over several addresses: one call changes."""
        block = blocks()[0] + "    print(ledger.lookup_accounts([2])[0].credits_posted)\n"
        self.assertEqual(self.ran("-c", block, said=MADE), "10\n")
        with Running() as listener:
            for place in (listener.path, f"./nothing,{listener.path}"):
                there = block.replace('open("books.tbk")', f"connect({place!r})")
                self.assertEqual(self.ran("-c", there), "10\n")

    def test_a_ledger_is_opened_by_asyncio(self):
        inner = textwrap.indent(blocks()[1], "    ")
        program = f"import asyncio, tb_client as tb\nasync def main():\n{inner}asyncio.run(main())"
        self.assertEqual(self.ran("-c", program, said=MADE), "[]\n")

    def test_the_client_that_callers_share(self):
        with Running() as listener:
            said = self.ran("-c", blocks()[2].replace("3001", listener.path))
        self.assertEqual(said, "[10]\n")

    def test_records_in_columns(self):
        block = blocks()[3] + "    print(ledger.lookup_accounts([2])[0].credits_posted)\n"
        self.assertEqual(self.ran("-c", block, said=MADE), "10000\n")

    @has_program
    def test_the_program_of_a_session(self):
        said = self.ran("-c", blocks()[4].replace("../../crates/tbs/out/tbs", PROGRAM))
        self.assertEqual(said, "100\n")

    @has_program
    def test_a_crash_and_an_eviction(self):
        """A sale, a crash before its reply came, a lookup in each of two lives, and an eviction
        while a sale is in doubt."""
        program, crash, eviction = blocks()[4:7]
        sale, lookup = map(textwrap.dedent, program.split("\n\n")[2:])
        lives = [crash, lookup, MEANWHILE, crash, lookup, IN_DOUBT, EVICT, eviction]
        said = self.ran("-c", "".join([BEGIN, sale, IN_DOUBT, *lives, END]))
        self.assertEqual(said, "110\n115\n125\n")

    @has_program
    def test_the_example(self):
        self.assertEqual(self.ran(f"{EXAMPLES}/program.py", PROGRAM), EXAMPLE)

    def test_the_example_over_sockets(self):
        self.assertEqual(self.ran(f"{EXAMPLES}/sockets.py", shlex.join(STAND_IN)), OVER_SOCKETS)


if __name__ == "__main__":
    unittest.main()
