#!/usr/bin/env python3
"""Sees by strace that a saved session is durable: the new file is synced before it is put in place
by a rename, and its folder after that.

    clients/conformance/durability.py -- python3 -B clients/python/conformance_runner.py

Saves a session twice through a client's runner, and reads what the system was asked for. Prints the
calls of each save. Status 1 where one is missing or out of order; 0 with a line that says so where
there is no strace.
"""
import argparse
import json
import os
import re
import shutil
import subprocess
import sys
import tempfile

CALLS = "openat,open,creat,fsync,fdatasync,rename,renameat,renameat2"
SAVED = {"client": "7", "session": "1", "number": "0", "pending": ""}
OPENED = re.compile(r'(?:openat|open|creat)\((?:\w+, )?"([^"]*)".* = (\d+)')
SYNCED = re.compile(r"(?:fsync|fdatasync)\((\d+)\)\s+= 0")
RENAMED = re.compile(r'rename\w*\((?:\w+, )?"([^"]*)", (?:\w+, )?"([^"]*)".* = 0')
RESUMED = re.compile(r"(\d+) +<\.\.\. (\w+) resumed>(.*)")


def lines_of(folder):
    """The lines of the session for a runner."""
    address = {"unix": f"{folder}/nobody.sock"}
    yield {"do": "connect", "transport": "t", "addresses": [address]}
    yield {"do": "resume", "session": "s", "transport": "t", "saved": SAVED}
    for _ in range(2):
        yield {"do": "save", "session": "s", "path": f"{folder}/session.json"}


def traced(command, folder):
    """What the system was asked for, in its order: each call whole, when it returned."""
    trace = f"{folder}/trace"
    words = ["strace", "-f", "--seccomp-bpf", "-e", f"trace={CALLS}", "-o", trace, *command]
    text = "".join(json.dumps(it) + "\n" for it in lines_of(folder))
    ran = subprocess.run(words, input=text, capture_output=True, text=True, check=False)
    answers = [json.loads(it) for it in ran.stdout.splitlines()]
    if len(answers) != 4 or any("ok" not in it for it in answers):
        sys.exit(f"FAILED: the runner answers {answers}: {ran.stderr[-300:]}")
    begun = {}
    with open(trace, encoding="utf-8", errors="replace") as it:
        for line in it:
            thread, _, call = line.partition(" ")
            if "<unfinished" in call:
                begun[thread] = call.split(" <unfinished")[0].strip()
                continue
            resumed = RESUMED.match(line)
            yield begun.pop(thread, "") + resumed[3] if resumed else call.strip()


def durable(calls, folder):
    """The names of what each save did, in order."""
    files, done = {}, []
    for call in calls:
        if opened := OPENED.match(call):
            files[opened[2]] = os.path.realpath(opened[1])
        elif synced := SYNCED.match(call):
            place = files.get(synced[1], "")
            kind = "folder" if place == folder else "file" if place.startswith(folder) else ""
            done += [f"sync {kind}"] if kind else []
        elif (renamed := RENAMED.match(call)) and renamed[2].endswith("session.json"):
            done.append("rename")
    return done


def main():
    parser = argparse.ArgumentParser(
        description=__doc__, formatter_class=argparse.RawDescriptionHelpFormatter
    )
    parser.add_argument("command", metavar="COMMAND", nargs="+", help="the runner, behind --")
    given = parser.parse_args()
    if not shutil.which("strace"):
        print("passed over: there is no strace")
        return 0
    with tempfile.TemporaryDirectory(prefix="durable") as name:
        folder = os.path.realpath(name)
        done = durable(traced(given.command, folder), folder)
    print(", ".join(done))
    if done != 2 * ["sync file", "rename", "sync folder"]:
        print("FAILED: each save syncs its file, renames it, and syncs the folder, in this order")
        return 1
    return 0


if __name__ == "__main__":
    sys.exit(main())
