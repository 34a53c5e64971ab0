"""Runs of `tbs` on scripts and dumps, and those of the examples: examples/first.script, its replies
and its dump, with the ends of their pairs, replies and entries."""

import os
import subprocess
import tempfile

from frames import account, dump_entry, dump_head, ids, pair, reply

from ..conftest import ROOT, ran

SECONDS = 300  # that one run may take, also on a busy machine
RUN, DUMPED, REPLAY = ["run", "2"], ["dump", "2"], ["replay"]
MAX_TIME = 2**63 - 1

SCRIPT, REPLIES = ((ROOT / f"examples/first.{it}").read_bytes() for it in ("script", "replies"))
PAIR_ENDS, REPLY_ENDS = [0, 56, 368, 472], [0, 48, 96, 400]
FIRST, FIRST_REPLY = SCRIPT[:56], REPLIES[:48]


def entry(commit, time, timed):
    """An entry of a dump, of the frame of a pair."""
    return dump_entry(commit, time, timed[8:])


HEAD = dump_head(1, 2)
# The register has the time 10, the two accounts the time 12, the lookup 13.
ENTRIES = [entry(1, 10, FIRST), entry(2, 12, SCRIPT[56:368]), entry(3, 13, SCRIPT[368:])]
DUMP = HEAD + b"".join(ENTRIES)


def many_items():
    """A script that creates 8190 accounts and looks them up, and its replies: a body and a reply of
    more bytes than the program holds at a time."""
    numbers = range(1, 8191)
    create = pair(10, 7, 1, 1, 129, b"".join(account(id) for id in numbers))
    lookup = pair(10, 7, 1, 2, 131, ids(*numbers))
    # The batch has the time 10 + 8190, and account 1 the first timestamp after the register's.
    found = b"".join(account(id, timestamp=10 + id) for id in numbers)
    replies = FIRST_REPLY + reply(7, 1, 1, 129, 0, 2) + reply(7, 1, 2, 131, 0, 3, found)
    return FIRST + create + lookup, replies


def line(fault):
    """What is on standard error."""
    return f"tbs: {fault}\n".encode() if fault else b""


def refused(fault, replies=b"", status=2):
    """The end of a run with a fault."""
    return status, replies, line(fault)


def done(replies):
    return 0, replies, b""


def closing(*numbers):
    """Closes these streams before the program starts."""
    return lambda: [os.close(it) for it in numbers]


class Program:
    """A built `tbs`."""

    def __init__(self, path):
        self.path = path

    def ended(self, script, words=RUN, **how):
        """The status, output and standard error of a run on these bytes, from a pipe."""
        return ran([self.path, *words], script, SECONDS, **how)

    def started(self, words=RUN, **how):
        streams = dict.fromkeys(("stdin", "stdout", "stderr"), subprocess.PIPE)
        return subprocess.Popen([self.path, *words], **{**streams, **how})

    def with_file(self, script, words=RUN):
        """The same of a file as standard input, and how many of its bytes were read."""
        with tempfile.TemporaryFile() as file:
            file.write(script)
            file.seek(0)
            with self.started(words, stdin=file) as process:
                out, said = process.communicate(timeout=SECONDS)
            return (process.returncode, out, said), file.tell()

    def without_input(self, words=RUN):
        """The same with standard input closed."""
        with self.started(words, stdin=None, preexec_fn=closing(0)) as process:
            out, said = process.communicate(timeout=SECONDS)
        return process.returncode, out, said
