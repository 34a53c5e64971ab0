#!/usr/bin/env python3
"""Money moves once, while the client, the server and the listener are killed.

    clients/conformance/money.py -- python3 -B clients/python/conformance_runner.py
    clients/conformance/money.py --kills 100 --server crates/tbd/out/tbd -- COMMAND [WORD ..]
    clients/conformance/money.py --shared -- COMMAND [WORD ..]

A session makes transfers one after another over the listener and a server that keeps its ledger in
a file, each of another amount, by prepare, save, retry and save. At moments that a seed draws, one
of the three is killed and started again; the client goes on from what it saved. In the end each
transfer is there once, and both accounts have the sum of all amounts. With --shared four callers
share a client, and make four transfers at once; one that was killed is made again, and what was in
flight is created again with the same ids. Prints what was killed, and
the sums. Status 1 where money was lost or moved twice.
"""
import argparse
import contextlib
import os
import random
import shlex
import sys
import tempfile
import time

sys.dont_write_bytecode = True
HERE = os.path.dirname(os.path.abspath(__file__))
sys.path.insert(0, HERE)

from listening import TBD, TOP, Listening, Wrong  # noqa: E402
from runner import Ended, Runner  # noqa: E402

PYTHON = f"{TOP}/clients/python"
STAND_IN = f"{sys.executable} -SE {PYTHON}/tests/stand_in_tbd.py"
CALL = 60.0  # seconds that a call may take, with a server that is started again meanwhile
KINDS = ("client", "server", "listener")


class Money:
    def __init__(self, given, folder):
        self.given, self.folder, self.random = given, folder, random.Random(given.seed)
        self.runner = Runner(given.command, folder)
        ahead = ("--ahead", "60")
        self.listening = Listening(shlex.split(given.server), folder, options=ahead)
        self.path = f"{folder}/session.json"
        self.killed = dict.fromkeys(KINDS, 0)
        self.made, self.total = 0, 0

    # Calls

    def call(self, line):
        answer = self.runner.call(line, CALL)
        if "ok" not in answer:
            raise Wrong(f"{line['do']} is answered {answer}")
        return answer["ok"]

    def begin(self):
        self.runner.start()
        address = {"unix": f"{self.folder}/ledger.sock"}
        self.call({"do": "connect", "transport": "t", "addresses": [address], "timeout": 20})

    def ask(self, operation, items):
        line = {"do": "ask", "session": "s", "operation": operation, "items": items}
        return self.call(line)

    def opened(self):
        """A session, two accounts, and the file."""
        self.begin()
        self.call({"do": "register", "session": "s", "transport": "t", "attempts": 100})
        accounts = [{"id": it, "ledger": "700", "code": "10"} for it in ("1", "2")]
        if self.ask("create_accounts", accounts)["results"]:
            raise Wrong("the accounts are there already")
        self.call({"do": "save", "session": "s", "path": self.path})

    def resumed(self):
        """The client again, from what it saved. The request that was in doubt has its reply."""
        self.begin()
        line = {"do": "load", "session": "s", "transport": "t", "path": self.path, "attempts": 100}
        if self.call(line)["pending"]:
            self.accepted(self.call({"do": "retry", "session": "s"}))
            self.call({"do": "save", "session": "s", "path": self.path})
            return True
        return False

    @staticmethod
    def accepted(said):
        if said.get("results"):
            raise Wrong(f"a transfer was not accepted: {said['results']}")

    # Transfers

    def transfer(self, kind):
        """One transfer, and a kill of this kind somewhere in its steps, or no kill. It is made in
        the end, once."""
        number = self.made + 1
        sale = {"id": str(1000 + number), "debit_account_id": "1", "credit_account_id": "2"}
        sale = {**sale, "amount": str(number), "ledger": "700", "code": "10"}
        steps = [
            {"do": "prepare", "session": "s", "operation": "create_transfers", "items": [sale]},
            {"do": "save", "session": "s", "path": self.path},
            {"do": "retry", "session": "s"},
            {"do": "save", "session": "s", "path": self.path},
        ]
        struck = self.random.randrange(len(steps)) if kind else None
        for place, step in enumerate(steps):
            if place == struck and kind == "client":
                if self.client_killed(step):
                    break
            elif place == struck:
                self.other_killed(kind, step)
            else:
                self.step(step)
        else:
            self.count(number)
            return
        if self.is_made(number):
            self.count(number)
        else:
            self.transfer(None)

    def count(self, number):
        self.made, self.total = number, self.total + number

    def step(self, step):
        said = self.call(step)
        if step["do"] == "retry":
            self.accepted(said)

    def client_killed(self, step):
        """Kills the client within a step, and starts it again."""
        self.runner.send(step)
        time.sleep(self.random.random() * self.given.span)
        self.runner.kill()
        self.killed["client"] += 1
        self.resumed()
        return True

    def other_killed(self, kind, step):
        """Kills the server or the listener within a step, which goes on."""
        self.runner.send(step)
        time.sleep(self.random.random() * self.given.span)
        self.kill(kind)
        answer = self.runner.answer(CALL)
        if "ok" not in answer:
            raise Wrong(f"{step['do']} is answered {answer}")
        if step["do"] == "retry":
            self.accepted(answer["ok"])

    def kill(self, kind):
        """Kills one of the two. The server may be none for a moment."""
        if kind == "server":
            self.killed[kind] += self.listening.kill_server()
            return
        self.listening.kill()
        self.listening.start()
        self.killed[kind] += 1

    def is_made(self, number):
        return bool(self.ask("lookup_transfers", [str(1000 + number)])["records"])

    def run(self):
        self.listening.start()
        self.opened()
        kinds = [KINDS[at % len(KINDS)] for at in range(self.given.kills)]
        for kind in kinds:
            self.transfer(None)
            self.transfer(kind)
        self.compare()
        self.runner.end()
        self.listening.end()

    def compare(self):
        """Each transfer is there once, with its amount, and the accounts have the sum of them."""
        ids = [str(1000 + it) for it in range(1, self.made + 2)]
        found = self.ask("lookup_transfers", ids)["records"]
        amounts = [int(it["amount"]) for it in found]
        if amounts != list(range(1, self.made + 1)):
            raise Wrong(f"{len(amounts)} transfers are there, and {self.made} were made")
        debit, credit = self.ask("lookup_accounts", ["1", "2"])["records"]
        sums = {int(debit["debits_posted"]), int(credit["credits_posted"]), self.total}
        if len(sums) != 1:
            raise Wrong(
                f"debited {debit['debits_posted']}, credited"
                f" {credit['credits_posted']}, and {self.total} were moved"
            )

    def stop(self):
        self.runner.kill()
        with contextlib.suppress(OSError, ValueError):
            self.listening.kill()


class SharedMoney(Money):
    """Callers that share a client. What is in flight when it is killed they create again."""

    CALLERS = 4

    def begin(self):
        self.runner.start()
        address = {"unix": f"{self.folder}/ledger.sock"}
        self.call({"do": "share", "shared": "s", "addresses": [address], "timeout": 20})

    def ask(self, operation, items):
        return self.call({"do": "ask", "shared": "s", "operation": operation, "items": items})

    def opened(self):
        self.begin()
        accounts = [{"id": it, "ledger": "700", "code": "10"} for it in ("1", "2")]
        if self.ask("create_accounts", accounts)["results"]:
            raise Wrong("the accounts are there already")

    def transfer(self, kind):
        numbers = range(self.made + 1, self.made + 1 + self.CALLERS)
        self.begin_all(numbers)
        if kind:
            time.sleep(self.random.random() * self.given.span)
            self.kill_amid(kind, numbers)
        for number in numbers:
            results = self.call({"do": "end", "call": str(number)})["results"]
            if any(it["result"] != "exists" for it in results):
                raise Wrong(f"transfer {number} was not accepted: {results}")
            self.count(number)

    def begin_all(self, numbers):
        for number in numbers:
            sale = {"id": str(1000 + number), "debit_account_id": "1", "credit_account_id": "2"}
            sale = {**sale, "amount": str(number), "ledger": "700", "code": "10"}
            line = {"do": "begin", "call": str(number), "shared": "s"}
            self.call({**line, "operation": "create_transfers", "items": [sale]})

    def kill_amid(self, kind, numbers):
        if kind != "client":
            self.kill(kind)
            return
        self.killed[kind] += 1
        self.runner.kill()
        self.begin()
        self.begin_all(numbers)


def server_name(command):
    """The name of the program or script that a server's command ends in."""
    return os.path.basename(shlex.split(command)[-1])


def words():
    default = TBD if os.access(TBD, os.X_OK) else STAND_IN
    parser = argparse.ArgumentParser(
        description=__doc__, formatter_class=argparse.RawDescriptionHelpFormatter
    )
    parser.add_argument(
        "--kills", metavar="N", type=int, default=30, help="how often something is killed (30)"
    )
    parser.add_argument("--seed", metavar="N", type=int, default=1, help="draws the moments (1)")
    parser.add_argument(
        "--span",
        metavar="SECONDS",
        type=float,
        default=0.004,
        help="a kill comes so long after a call at most (0.004)",
    )
    parser.add_argument(
        "--server",
        metavar="COMMAND",
        default=default,
        help="tbd, or another server of its words (tbd where it is built, else its stand-in)",
    )
    parser.add_argument("--shared", action="store_true", help="by callers that share a client")
    parser.add_argument(
        "command", metavar="COMMAND", nargs="+", help="the runner and its words, behind --"
    )
    given = parser.parse_args()
    if given.kills < 1:
        parser.error("--kills must be 1 or more: with none no money would move")
    if not 0 <= given.span < 60:
        parser.error("--span must be 0 or more seconds, below 60")
    return given


def main():
    given = words()
    with tempfile.TemporaryDirectory(prefix="money") as folder:
        money = (SharedMoney if given.shared else Money)(given, folder)
        try:
            money.run()
        except (Wrong, Ended, OSError) as why:
            print(f"FAILED: {why}")
            return 1
        finally:
            money.stop()
    killed = ", ".join(f"the {kind} {count} times" for kind, count in money.killed.items())
    print(f"killed: {killed}")
    print(
        f"{money.made} transfers moved {money.total}, each once, over {server_name(given.server)}"
    )
    return 0


if __name__ == "__main__":
    try:
        sys.exit(main())
    except KeyboardInterrupt:
        print("interrupted", file=sys.stderr)
        sys.exit(130)
