#!/usr/bin/env python3
"""Stand-ins for `tbd` and `tbs`, for tests of their use: a ledger's file is a dump here.

    stand_ins.py tbd check FILE
    stand_ins.py tbd dump FILE [--follow]
    stand_ins.py tbs replay

REPLIES names a file with the replies to its entries. Each writes its words to the file that WORDS
names, a line for each start. FAULT=PROGRAM:STATUS:LINE makes a program end so after its output.
"""

import io
import os
import pathlib
import sys
import time

TOP = pathlib.Path(__file__).resolve().parents[4]
sys.path[:0] = [str(TOP / "apps/telovamish/src"), str(TOP / "clients/python/src")]

from telovamish.faults import Fault  # noqa: E402
from telovamish.streams import Entry, read_dump  # noqa: E402


def fault(name):
    program, status, line = (os.environ.get("FAULT") or "::").split(":", 2)
    if program == name:
        print(line, file=sys.stderr)
        sys.exit(int(status))


def dump(path, follow):
    with open(path, "rb") as file:
        while True:
            os.write(1, file.read())
            if not follow:
                return
            time.sleep(0.02)


def replay():
    """The reply to each entry, from the file of replies."""
    with open(os.environ["REPLIES"], "rb") as file:
        replies = file.read()
    at = 0
    for item in read_dump(sys.stdin.buffer):
        if isinstance(item, Entry):
            end = at + 48 + int.from_bytes(replies[at + 32 : at + 36], "little")
            os.write(1, replies[at:end])
            at = end


def entries(path):
    count = 0
    with open(path, "rb") as file:
        try:
            for item in read_dump(io.BytesIO(file.read())):
                count += isinstance(item, Entry)
        except Fault:
            pass
    return count


def main(name, *words):
    if os.environ.get("WORDS"):
        with open(os.environ["WORDS"], "a") as file:
            print(name, *words, file=file)
    if words[0] == "check":
        print(f"records 1\nentries {entries(words[1])}\nlast time 5")
    elif name == "tbd":
        dump(words[1], "--follow" in words)
    else:
        replay()
    fault(name)


if __name__ == "__main__":
    main(*sys.argv[1:])
