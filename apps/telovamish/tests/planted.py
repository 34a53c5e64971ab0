#!/usr/bin/python3
"""Plants one bug at a time in a copy of the command, and says which tests find it.

    planted.py [FILE..]    only the bugs of these files

Prints a line for each bug, and how many were found. It ends with exit status 1 unless all were, or
if a test fails without a bug. Some of the tests need `tbs`.
"""
from __future__ import annotations

import os
import pathlib
import shutil
import sys
import tempfile
import time

import click  # noqa: F401 (so that it is there in each run)
import hypothesis  # noqa: F401
import pytest

sys.dont_write_bytecode = True

HERE = pathlib.Path(__file__).resolve().parent
APP = HERE.parent
READER, MEANT = "test_messages.py test_written.py test_reader.py", "test_reader.py -k meant"
WRONG, RUN = "test_messages.py", "test_run.py -k frames"
WORDS, AUDITS = "test_printing.py", "test_model.py -k seed"
STOPS, SENDS = "test_explain.py", "test_sending.py"
TABLES, LINES = "test_run.py -k tables", "test_audit.py"
FILLS, TYPED = "test_filling.py", "test_repl.py -k ctrl_c"
MODEL = "test_model.py -k hand"
# file, what is there, the bug instead, and the tests that are to find it
BUGS = [
    ("reader", "self.client.to_bytes(ID_SIZE", "(self.client >> 1).to_bytes(ID_SIZE", READER),
    ("reader", "return self.at.to_bytes(8", "return (self.at | 1).to_bytes(8", READER),
    ("reader", "given[field] = given.get(field, 0) | number", "given[field] = number", READER),
    ("reader", "self.given.get(self.field, 0) | number", "number", READER),
    ("reader", "and (number or field not in POSITIVE)", "", WRONG),
    ("reader", "len(self.events) < ITEMS_MAX - 1:", "len(self.events) < ITEMS_MAX:", "test_reader.py -k 8190"),
    ("reader", "int(digits[2:], 16)", "int(digits[2:], 16) // 2", READER),
    ("reader", "number = AMOUNT_MAX", "number = AMOUNT_MAX - 1", READER),
    ("reader", "            if part == GIVEN and not self._push():\n                return False\n", "", READER),
    ("reader", "            return place\n        number =", "            return place + 1\n        number =", WRONG),
    ("reader", "default=0)", "default=0) + 1", READER),
    ("reader", "found += FLAGS[operation]", "found += [*FLAGS[operation]][1:]", READER),
    ("texts", 'count("\\n", self.start, place)', 'count("\\n", self.start, place) + 1', READER),
    ("filling", "pair.request + 1", "pair.request", FILLS),
    ("filling", "self.last = pair.client\n", "self.last = self.last or pair.client\n", FILLS),
    ("filling", "max(known.next, last + 1)", "last + 1", FILLS),
    ("messages", "(begun or difflib", "(difflib", MEANT),
    ("messages", "start = max(0, len(before) - first)", "start = max(0, len(before) - 1)", WRONG),
    ("printing", 'if number or name == "id":', "if number:", WORDS),
    ("printing", "'|'.join(flags)", "'|'.join(flags[:1])", WORDS),
    ("printing", '", ".join(event_text', '" ".join(event_text', WORDS),
    ("objects", "items() if number & bit]", "items() if number & bit & ~1]", WORDS),
    ("objects", "+ ([str(rest)] if rest else [])", "", WORDS),
    ("objects", "else str(number)", "else str(number // 2)", WORDS),
    ("objects", 'STATUSES[it.status],\n        "commit": str(it.commit)', 'STATUSES[it.status],\n        "commit": str(it.commit + 1)', WORDS),
    ("words", 'TABLE["transfer_fields"]', '{**TABLE["transfer_fields"], "debit_account_id": (32, 16)}', READER),
    ("words", 'TABLE["transfer_flags"]', '{**TABLE["transfer_flags"], "pending": 512}', READER),
    ("streams", "RESULT_FORMAT.iter_unpack(reply.body)}", "[*RESULT_FORMAT.iter_unpack(reply.body)][1:]}", WORDS),
    ("streams", "        may_be_marked = False\n", "", RUN),
    ("repeats", "reply.commit <= self.seen", "reply.commit < self.seen", SENDS),
    ("repeats", "self.seen = max(self.seen, reply.commit)", "self.seen = reply.commit and 0", SENDS),
    ("sending", "history.is_repeat(pair, reply)", "False", SENDS),
    ("sending", 'raise Late("TimeExhausted")', "pass", SENDS),
    ("sending", 'status == "no_session" or', "", SENDS),
    ("tables", "{count - len(results)} of {count} {name}", "{count} of {count} {name}", TABLES),
    ("reader", "self.body[at : at + ID_SIZE]", "self.body[at + ID_SIZE : at + 2 * ID_SIZE]", TABLES),
    ("explain", "number, at = number + 1, source.tell()", "number, at = number + 1, source.tell() - 8", STOPS),
    ("explain", 'stop_line("pair", number, at, SAYS', 'stop_line("pair", number - 1, at, SAYS', STOPS),
    ("explain", "                entries.append(item)\n            at =", "                entries.append(item)\n                at =", STOPS),
    ("audit", "after < item.commit", "after <= item.commit", LINES),
    ("audit", "first <= item.time <= last", "first <= item.time < last", LINES),
    ("audit", "first <= item.time <= last", "first < item.time <= last", LINES),
    ("audit", "it.debit_account_id, it.credit_account_id", "it.debit_account_id,", LINES),
    ("audit", "            if isinstance(it, Expired):\n                shown", "            if isinstance(it, Expired) and not shown:\n                shown", LINES),
    ("audit", 'r"\\.?0*Z"', 'r"\\.?0?Z"', LINES),
    ("audit", "now and before != self._account", "now", LINES),
    ("audit", '"count"] = request.length', '"count"] = request.length + 1', LINES),
    ("audit", "if isinstance(it, Event):\n                outcome", "if isinstance(it, Event) and it.record.ledger != 700:\n                outcome", LINES),
    ("audit", "return names(id, it) or", "return it.ledger != 700 and names(id, it) or", LINES),
    ("checking", "            self.transfers[it.id] = it\n", "            if it.ledger != 700:\n                self.transfers[it.id] = it\n", LINES),
    ("repl", 'kept = ""  # what was typed is dropped', 'kept = self.terminal.read("") and ""', TYPED),
    ("repl", "if is_shown else self.desk.doubt())", 'if is_shown else self.desk.doubt())\n            self.terminal.read("")', TYPED),
    ("live", "for item in items:\n", "for item in [*items][:-1]:\n", LINES),
    ("model", "RECORD + 1  # the", "RECORD  # the", AUDITS),
    ("model", "self._due[0][0] <= now", "self._due[0][0] < now", MODEL),
    ("model", "it.timeout * SECOND, it.id))\n", "it.timeout * SECOND, -it.id))\n", AUDITS),
    ("model", "sessions[it].last_commit)", "sessions[it].number)", MODEL),
    ("model", "Session(number, entry.commit)", "Session(number, number)", MODEL),
    ("model", " or it.amount == AMOUNT_MAX", "", AUDITS),
    ("model", "it.flags & VOID or it.amount", "it.amount", AUDITS),
    ("model", "user_data_128 user_data_64", "user_data_128", MODEL),
    ("model", "- debit.debits_posted - debit.debits_pending", "- debit.debits_posted", MODEL),
    ("model", "- credit.credits_posted - credit.credits_pending", "- credit.credits_posted", MODEL),
    ("model", "return max(0, amount)", "return abs(amount)", AUDITS),
    ("model", "        if it.flags & CLOSES_DEBIT:\n", "        if it.flags & CLOSES_CREDIT:\n", AUDITS),
    ("model", "if it.flags & CLOSES_DEBIT and not is_posted", "if False", AUDITS),
    ("model", "is_posted=False", "is_posted=True", AUDITS),
    ("model", "debit.debits_pending -= it.amount", "debit.debits_pending -= 0", AUDITS),
    ("model", "elif not flags & VOID:", "else:", AUDITS),
    ("model", "credit.credits_pending += it.amount", "debit.credits_pending += it.amount", AUDITS),
    ("model", "self.accounts[account.id] = account", "self.accounts.setdefault(0, account)", AUDITS),
]  # fmt: skip


def copied(folder: str) -> pathlib.Path:
    """The command and its tests in a folder as deep as theirs, so that they find the client."""
    app = pathlib.Path(folder) / "apps" / APP.name
    shutil.copytree(APP, app, ignore=shutil.ignore_patterns("__pycache__", ".*"))
    for name in ("clients", "examples", "crates", "docs", "tools", "apps/books"):
        (pathlib.Path(folder) / name).symlink_to(APP.parents[1] / name)
    return app


def is_there(file: str, old: str) -> bool:
    """Whether the command has what a bug replaces, once or first of several."""
    return old in (APP / "src" / "telovamish" / f"{file}.py").read_text()


def found_by(file: str, old: str, new: str, tests: str) -> str:
    """The first test that fails with a bug; nothing if no test does."""
    with tempfile.TemporaryDirectory() as folder:
        app = copied(folder)
        source = app / "src" / "telovamish" / f"{file}.py"
        text = source.read_text()
        assert is_there(file, old) and new != old, f"{file}: not there: {old!r}"
        source.write_text(text.replace(old, new, 1))
        said = pathlib.Path(folder) / "said"
        status = tested(app, tests.split(" "), said)
        failed = [it for it in said.read_text().splitlines() if it.startswith(("FAILED", "ERROR"))]
    return failed[0].split(" - ")[0] if status == 1 and failed else ""


def tested(app: pathlib.Path, words: list[str], said: pathlib.Path) -> int:
    """Runs tests in a process that has begun already: most of a short run is its beginning."""
    child = os.fork()
    if not child:
        with open(said, "w") as out:
            os.dup2(out.fileno(), 1)
            os.dup2(out.fileno(), 2)
            os.chdir(app / "tests")
            status = pytest.main(["-q", "-x", "-p", "no:cacheprovider", *words])
            sys.stdout.flush()
            os._exit(int(status))
    return os.waitstatus_to_exitcode(os.waitpid(child, 0)[1])


def main() -> int:
    chosen = [it for it in BUGS if not sys.argv[1:] or it[0] in sys.argv[1:]]
    for tests in sorted({it[3] for it in chosen}):
        if by := found_by("words", "import json\n", "import json  # no bug\n", tests):
            sys.exit(f"without a bug {by} fails")
    found = 0
    for bug in chosen:
        began, by = time.monotonic(), found_by(*bug)
        found += bool(by)
        new = " ".join(bug[2].split()) or "(left out)"
        took = f"{time.monotonic() - began:.0f} s"
        print(f"{bug[0]:9} {new[:50]:50} {by or 'NOT FOUND'}, {took}", flush=True)
    print(f"{found} of {len(chosen)} planted bugs are found")
    return 0 if found == len(chosen) else 1


if __name__ == "__main__":
    sys.exit(main())
