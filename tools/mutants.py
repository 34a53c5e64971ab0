#!/usr/bin/env python3
"""Mutation testing: small bugs, and which test or script catches each. A proof may refuse one too.

    python3 tools/mutants.py [--list] [--texts] [--only WORD ..] [--tests-only] [--jobs N]
                              [--room FOLDER]

A bug is a block of a file of tools/mutants: a line `# NAME: what a user would see`, then `file:`,
and lines `old:` followed by lines `new:` (lines of one text one behind the other; more pairs may
follow). Each old text is in its file once. `MUTANT` in a new text is true where that bug is on.

All bugs are planted into one copy of the repository, behind one switch: the environment variable
TB_MUTANT. The tests of all crates above a changed one are put into one crate, and it and each
program that pytest runs are built once, by `rt try`, which proves nothing. Then the tests run
with each bug on, and where they pass the files of tests/ that run a changed program.

Prints what catches each, and how many a test catches and how many pytest alone; ends in
'N passed, M failed': passed are the bugs that something catches. --texts prints, in a second, which
bugs can't be planted, alone or after the others.

With --room the copy and what was built stay, and what has not changed is not built again.
"""
import argparse
import concurrent.futures
import contextlib
import hashlib
import os
import re
import shutil
import signal
import subprocess
import sys
import tempfile
import threading
import time
import zlib

import repository
import tried

ROOT = os.path.dirname(os.path.dirname(os.path.abspath(__file__)))
FOLDER = f"{ROOT}/tools/mutants"
SWITCH = "TB_MUTANT"
ALL_TESTS = "tb_mutant_tests"
NO_TEST = "no_test_has_this_name"
NO_END = " (no end)"
# The seconds that a run with a bug may take, and how many times as long as without one.
SECONDS, SLOWER = 60, 4
SCRIPT_SECONDS = 1800
BUILD_SECONDS = 3600

# A program of `rt try` has AddressSanitizer, which maps terabytes.
NO_MEMORY = "not test_memory"
# The files of tests/ that run built programs: their words, and the programs that they run.
SCRIPTS = {
    "programs/test_storms.py": (["--storms", "1"], {"tbs"}),
    "programs/test_tbs.py": (["-k", NO_MEMORY], {"tbs"}),
    "programs/test_dumps.py": ([], {"tbs"}),
    "programs/test_pieces.py": ([], {"tbs"}),
    "files/test_forms.py": ([], {"tbd"}),
    "files/test_records.py": ([], {"tbd"}),
    "files/test_follow.py": ([], {"tbd"}),
    "files/test_rounds.py": ([], {"tbd", "tbs"}),
    "files/test_form_faults.py": ([], {"tbd"}),
    "files/test_keep.py": (
        ["-k", "not builds", "--kills", "3", "--flips", "20", "--cuts", "20"],
        {"tbd", "tbs"},
    ),
    "files/test_crashes.py": (["-m", "not slow"], {"tbd", "tbs"}),
}
PYTEST = ["/usr/bin/python3", "-m", "pytest", "-q", "-x", "-s", "-p", "no:cacheprovider"]

# If the programs are slow: what a script waits for, in seconds (less than the minute that a bug
# waits), how many times longer than otherwise, and the megabytes of a file that it calls long.
SLOW = {"KEEP_SECONDS": "50", "CHECK_LONGER": "10", "KEEP_STEP": "1"}

# The programs' constant for these megabytes: its file, its text, and what is there instead. The
# tests are built before, with the text as it is.
STEP = ("crates/tb_edge_file/src/reports.rt", "usize = 64 * MEGABYTE;", "usize = MEGABYTE;")

SWITCH_SOURCE = """//! The switch of the planted bugs.
#![tactic(auto)]

unsafe extern "C" {
    safe fn tb_mutant_number() -> u32;
}

/// Whether the bug of this number is on.
pub fn is_on(number: u32) -> bool {
    tb_mutant_number() == number
}
"""

# The variable is read once, at the beginning: some bugs are asked for at each byte. If it is not
# set a program waits there, so that it can be kept before `rt try` removes it.
SWITCH_IN_C = f"""#include <stdlib.h>
#include <unistd.h>

static unsigned mutant;

__attribute__((constructor)) static void read_the_switch(void) {{
    const char *number = getenv("{SWITCH}");
    if (number)
        mutant = (unsigned)strtoul(number, 0, 10);
    else
        sleep(5);
}}

unsigned tb_mutant_number(void) {{
    return mutant;
}}
"""


class Mutant:
    """A bug: its name, what a user would see, its file, and what its texts become."""

    def __init__(self, name, says):
        self.name, self.says = name, says
        self.number = zlib.crc32(name.encode())
        self.file, self.pairs = None, []

    @property
    def crate(self):
        return self.file.split("/")[1]

    def switched(self, text):
        return text.replace("MUTANT", f"tb_mutant::is_on({self.number})")

    def planted(self, text):
        """A file's text with this bug in it; None if an old text is not there once."""
        for old, new in self.pairs:
            old, new = "\n".join(old), "\n".join(new)
            if text.count(old) != 1:
                return None
            text = text.replace(old, self.switched(new))
        return text


def read_line(found, word, text):
    """Takes in a line of a file of bugs; False if it is not such a line."""
    if word == "file":
        found[-1].file = text
    elif word == "old":
        if not found[-1].pairs or found[-1].pairs[-1][1]:
            found[-1].pairs.append(([], []))
        found[-1].pairs[-1][0].append(text)
    elif word == "new" and found[-1].pairs:
        found[-1].pairs[-1][1].append(text)
    else:
        return False
    return True


def mutants_in(path):
    """The bugs of a file."""
    found = []
    with open(path, encoding="utf-8") as file:
        for number, line in enumerate(file, 1):
            line = line.rstrip("\n")
            word, _, text = line.partition(":" if line in ("old:", "new:") else ": ")
            if line.startswith("# "):
                found.append(Mutant(word[2:], text))
            elif line and not (found and read_line(found, word, text)):
                sys.exit(f"{path}:{number}: neither a name nor file:, old:, new:")
    return found


def all_mutants():
    """All bugs. Each has a name and a number of its own."""
    names = sorted(it for it in os.listdir(FOLDER) if it.endswith(".txt"))
    found = [it for name in names for it in mutants_in(f"{FOLDER}/{name}")]
    numbers = [it.number for it in found]
    twice = sorted({it.name for it in found if numbers.count(it.number) > 1})
    if twice:
        sys.exit(f"names that are there twice: {', '.join(twice)}")
    return found


def wrong_text(mutant):
    """Why a bug can't be planted, None if it can."""
    if not mutant.file or not mutant.pairs or not os.path.isfile(f"{ROOT}/{mutant.file}"):
        return "no such file"
    with open(f"{ROOT}/{mutant.file}", encoding="utf-8") as file:
        if mutant.planted(file.read()) is None:
            return "an old text is not in its file once"
    if not any("MUTANT" in line for _, new in mutant.pairs for line in new):
        return "no new text has MUTANT"
    return None


def wrong_behind(mutant, texts):
    """Why a bug can't be planted after others, which are in these texts of files."""
    if mutant.file not in texts:
        with open(f"{ROOT}/{mutant.file}", encoding="utf-8") as file:
            texts[mutant.file] = file.read()
    planted = mutant.planted(texts[mutant.file])
    texts[mutant.file] = planted or texts[mutant.file]
    return None if planted else "another bug has changed its old text"


def crates_below():
    """Each crate's own libraries, directly or not."""
    return {name: set(repository.below([name])) for name in repository.crates()}


def sources_of(crate):
    at = f"{ROOT}/crates/{crate}/src"
    return {
        os.path.relpath(f"{folder}/{name}", at): f"{folder}/{name}"
        for folder, _, names in os.walk(at)
        for name in sorted(names)
    }


def has_tests(crate):
    for path in sources_of(crate).values():
        with open(path, encoding="utf-8") as file:
            if "#[test]" in file.read():
                return True
    return False


def write(path, text):
    os.makedirs(os.path.dirname(path), exist_ok=True)
    with open(path, "w", encoding="utf-8") as file:
        file.write(text)


# The copy with all bugs


def copy_repository(room):
    for folder in ("crates", "tests", "clients", "examples"):
        shutil.rmtree(f"{room}/{folder}", ignore_errors=True)
    repository.copied(room)


def plant(room, mutants):
    """Plants the bugs in a copy, and puts the crate of their switch below each changed crate."""
    for mutant in mutants:
        with open(f"{room}/{mutant.file}", encoding="utf-8") as file:
            text = mutant.planted(file.read())
        if text is None:
            sys.exit(f"{mutant.name}: another bug has changed its old text")
        write(f"{room}/{mutant.file}", text)
    changed = {it.crate for it in mutants}
    with open(f"{room}/crates.txt", encoding="utf-8") as file:
        lines = file.read().splitlines()
    for at, line in enumerate(lines):
        if line.partition(":")[0].split()[:1] in [[it] for it in changed]:
            lines[at] = f"{line} tb_mutant"
    write(f"{room}/crates.txt", "\n".join([*lines, "tb_mutant:", ""]))
    write(f"{room}/crates/tb_mutant/src/lib.rt", SWITCH_SOURCE)
    write(f"{room}/crates/tb_mutant/c/mutant.c", SWITCH_IN_C)


def make_smaller(room):
    """Puts the smaller constant into a copy."""
    path, old, new = STEP
    with open(f"{room}/{path}", encoding="utf-8") as file:
        text = file.read()
    if text.count(old) != 1:
        sys.exit(f"{path}: '{old}' is not there once")
    write(f"{room}/{path}", text.replace(old, new))


def join_tests(room, crates):
    """Makes one crate of the tests of several: each becomes a module."""
    lines, root = repository.crates(room), "#![tactic(auto)]\n\n"
    for crate in crates:
        root += f"#[cfg(test)]\nmod {crate};\n"
        for short, path in sources_of(crate).items():
            with open(path, encoding="utf-8") as file:
                text = re.sub(r"\bcrate::", f"crate::{crate}::", file.read())
            if short == "lib.rt":
                text = text.replace("#![tactic(auto)]\n", "")
            to = f"{crate}.rt" if short == "lib.rt" else f"{crate}/{short}"
            write(f"{room}/crates/{ALL_TESTS}/src/{to}", text)
    write(f"{room}/crates/{ALL_TESTS}/src/lib.rt", root)
    deps = list(dict.fromkeys(it for crate in crates for it in lines[crate]))
    with open(f"{room}/crates.txt", "a", encoding="utf-8") as file:
        file.write(f"{ALL_TESTS}: {' '.join(deps)}\n")


# What is built


def executables(folder):
    for at, _, names in os.walk(folder):
        for name in names:
            path = f"{at}/{name}"
            with contextlib.suppress(OSError):
                with open(path, "rb") as file:
                    is_one = file.read(4) == b"\x7fELF" and os.access(path, os.X_OK)
                if is_one and ".tmp" not in name:
                    yield path


def key_of(room, crate):
    """A checksum of all sources that a crate is built from."""
    told = hashlib.sha256()
    for name in sorted({crate, *repository.below([crate], room)}):
        for at, folders, names in os.walk(f"{room}/crates/{name}"):
            folders[:] = sorted(it for it in folders if it != "out")
            for it in sorted(names):
                with open(f"{at}/{it}", "rb") as file:
                    told.update(f"{name}/{it}\n".encode() + file.read())
    return told.hexdigest()[:16]


def keep_built(tried, folder, kept):
    """Keeps the executable that `rt try` makes in a folder and removes in the end."""
    end = time.monotonic() + BUILD_SECONDS
    while tried.poll() is None and time.monotonic() < end and not os.path.isfile(kept):
        for path in executables(folder):
            with contextlib.suppress(OSError):
                os.link(path, kept)
                break
        time.sleep(0.05)
    if tried.poll() is None and time.monotonic() >= end:
        with contextlib.suppress(ProcessLookupError):
            os.killpg(tried.pid, signal.SIGKILL)
    tried.wait()


def build(room, crate, is_program):
    """Builds a program, or the tests of a crate. The path of the executable."""
    kept = f"{room}/kept/{crate}-{key_of(room, crate)}"
    os.makedirs(f"{room}/kept", exist_ok=True)
    words = ["rt", "try", *(["--", "--version"] if is_program else ["--test", "--", NO_TEST])]
    with tempfile.TemporaryDirectory(prefix="try-", dir=f"{room}/kept") as folder:
        with open(f"{room}/kept/{crate}.log", "wb") as log:
            if not os.path.isfile(kept):
                print(f"building {crate}: ", end="", flush=True)
                began = time.monotonic()
                tried = subprocess.Popen(
                    words,
                    cwd=f"{room}/crates/{crate}",
                    env={**os.environ, "TMPDIR": folder, "RT_ALLOW_C": "1"},
                    stdin=subprocess.DEVNULL,
                    stdout=log,
                    stderr=subprocess.STDOUT,
                    start_new_session=True,
                )
                keep_built(tried, folder, kept)
                print(f"{time.monotonic() - began:.0f} s", flush=True)
    if not os.path.isfile(kept):
        with open(f"{room}/kept/{crate}.log", encoding="utf-8", errors="replace") as log:
            sys.exit(f"{crate} was not built:\n{log.read()[-3000:]}")
    return kept


# What is run


def end(process):
    """Ends a command and all that it began."""
    with contextlib.suppress(ProcessLookupError):
        os.killpg(process.pid, signal.SIGKILL)


def begin(words, number, cwd, output):
    """Begins a command with a bug on."""
    return subprocess.Popen(
        words,
        cwd=cwd,
        env={**os.environ, **SLOW, SWITCH: str(number), "PYTHONUNBUFFERED": "1"},
        stdin=subprocess.DEVNULL,
        stdout=output,
        stderr=subprocess.STDOUT,
        start_new_session=True,
    )


def status_of(words, number, seconds):
    """The status of a command with a bug on, None if its time ran out."""
    with tempfile.TemporaryDirectory(prefix="mutants-run-") as folder:
        began = begin(words, number, folder, subprocess.DEVNULL)
        try:
            return began.wait(timeout=seconds)
        except subprocess.TimeoutExpired:
            return None
        finally:
            end(began)
            began.wait()


def case_of(lines):
    """The first case, or otherwise the first test, that lines of pytest report as failed. None if
    they end with a count of tests that passed, and no test failed; otherwise 'stops'."""
    line = ""
    for line in lines:
        case = re.match(r"FAILED: ([^:\n]*)|FAILED \S+::(\S+)", line)
        if case:
            return (case[1] or case[2]).strip()
    return None if re.search(r"\d+ passed", line) and "failed" not in line else "stops"


def failed_case(words, number, seconds):
    """The first case that a script reports as failed, with a bug on: it is ended then. None if it
    passes."""
    with tempfile.TemporaryDirectory(prefix="mutants-run-") as folder:
        began = begin(words, number, folder, subprocess.PIPE)
        timer = threading.Timer(seconds, end, [began])
        timer.start()
        try:
            case = case_of(it.decode(errors="replace") for it in began.stdout)
            if case == "stops" and began.wait() == -signal.SIGKILL:
                return "no end"
            return case
        finally:
            timer.cancel()
            end(began)
            began.wait()


def test_row(name):
    """A test as rows name it."""
    crate, _, test = name.partition("::")
    return f"{crate}: {test.rpartition('::')[2]}"


class Catchers:
    """The built tests and programs, and what they say of a bug."""

    def __init__(self, room, below, tests, programs, scripts):
        self.room, self.below, self.scripts = room, below, scripts
        self.tests = build(room, ALL_TESTS, False) if tests else None
        self.names = self.listed() if tests else []
        self.seconds = {}
        make_smaller(room)
        for program in programs:
            out = f"{room}/crates/{program}/out"
            os.makedirs(out, exist_ok=True)
            shutil.copy2(build(room, program, True), f"{out}/{program}")

    def listed(self):
        """The names of all tests."""
        said = subprocess.run(
            [self.tests, "--list"], capture_output=True, text=True, check=False, cwd=self.room
        )
        return re.findall(r"^(\S+): test$", said.stdout, re.M)

    def tests_of(self, mutant):
        """The tests that a bug may show in, the quickest first."""
        crates = [it for it in self.below if mutant.crate in {it} | self.below[it]]
        names = [it for it in self.names if it.split("::")[0] in crates]
        return sorted(names, key=lambda it: self.seconds.get(it, 0))

    def scripts_of(self, crate):
        return [
            name
            for name in self.scripts
            if any(it == crate or crate in self.below[it] for it in SCRIPTS[name][1])
        ]

    def fails(self, number, name):
        """Whether a test fails; 'no end' if it takes far longer than without a bug."""
        limit = SECONDS + SLOWER * self.seconds.get(name, BUILD_SECONDS)
        status = status_of([self.tests, name], number, limit)
        return "no end" if status is None else status != 0

    def script_fails(self, number, name):
        """What a script says of a bug: the first case that failed. None if it passes."""
        words = [*PYTEST, f"{self.room}/tests/{name}", *SCRIPTS[name][0]]
        return failed_case(words, number, SCRIPT_SECONDS)

    def test_that_fails(self, mutant):
        """The first test that fails with a bug on, or None."""
        for name in self.tests_of(mutant):
            how = self.fails(mutant.number, name)
            if how:
                return test_row(name) + (NO_END if how == "no end" else "")
        return None

    def script_that_fails(self, mutant, names):
        """The first of these scripts that fails with a bug on, and its case; or None."""
        for name in names:
            case = self.script_fails(mutant.number, name)
            if case:
                return f"tests/{name}: {case}"
        return None

    def catch(self, mutant):
        """The first test, or otherwise the first script, that fails with a bug on; or None."""
        names = self.scripts_of(mutant.crate)
        return self.test_that_fails(mutant) or self.script_that_fails(mutant, names)

    def timed(self, name):
        """Whether a test fails with no bug on, and how long it takes."""
        began = time.monotonic()
        fails = self.fails(0, name)
        self.seconds[name] = time.monotonic() - began
        return fails

    def wrong_without(self, mutants, pool):
        """The tests and scripts that these bugs may show in, and that fail with no bug on."""
        began = time.monotonic()
        names = sorted({it for mutant in mutants for it in self.tests_of(mutant)})
        cases = [pool.submit(self.script_fails, 0, name) for name in self.scripts]
        wrong = [name for name, fails in zip(names, pool.map(self.timed, names)) if fails]
        told = {name: case.result() for name, case in zip(self.scripts, cases)}
        wrong += [f"tests/{name}: {case}" for name, case in told.items() if case]
        seconds = time.monotonic() - began
        print(f"no bug: {len(names)} tests, {len(told)} scripts, {seconds:.0f} s", flush=True)
        return wrong


# The counts


def counts(caught):
    """How many bugs a test catches, and how many only a script."""
    by_script = sum(1 for by in caught.values() if by.startswith("tests/"))
    by_test = sum(1 for by in caught.values() if by) - by_script
    return f"caught by a test: {by_test}; by pytest alone: {by_script}"


def read_words():
    parser = argparse.ArgumentParser(
        description=__doc__, formatter_class=argparse.RawDescriptionHelpFormatter
    )
    parser.add_argument("--list", action="store_true", help="list the bugs, and run nothing")
    parser.add_argument("--texts", action="store_true", help="only whether each can be planted")
    parser.add_argument(
        "--only", nargs="+", metavar="WORD", help="bugs of these crates, or with a word in the name"
    )
    parser.add_argument("--tests-only", action="store_true", help="run tests of crates alone")
    parser.add_argument(
        "--jobs", type=tried.count, default=os.cpu_count(), help="bugs tried at a time"
    )
    parser.add_argument("--room", metavar="FOLDER", help="keep the copy and what was built here")
    return parser.parse_args()


def wrong_patch(name):
    """Why a patch of the folder can't be applied, if it can't."""
    words = ["git", "apply", "--check", f"{FOLDER}/{name}"]
    tried = subprocess.run(words, cwd=ROOT, capture_output=True, text=True, check=False)
    return tried.stderr.strip() if tried.returncode else None


def try_texts(mutants):
    """Prints each bug or patch that can't be planted; the exit status."""
    patches = [it for it in sorted(os.listdir(FOLDER)) if it.endswith(".patch")]
    wrong, texts = {it: why for it in patches if (why := wrong_patch(it))}, {}
    for it in mutants:
        why = wrong_text(it) or wrong_behind(it, texts)
        if why:
            wrong[it.name] = why
    for name, why in wrong.items():
        print(f"{name}: {why}")
    print(f"{len(mutants) + len(patches) - len(wrong)} passed, {len(wrong)} failed")
    return 1 if wrong else 0


def prepared(room, mutants, tests_only):
    """The copy with all bugs, and what may catch the chosen ones."""
    below = crates_below()
    copy_repository(room)
    plant(room, all_mutants())
    changed = {it.crate for it in mutants}
    reached = [it for it in below if it in changed or below[it] & changed]
    tests = [it for it in below if has_tests(it) and below[it] & {m.crate for m in all_mutants()}]
    join_tests(room, tests)
    scripts = [] if tests_only else [it for it in SCRIPTS if SCRIPTS[it][1] & set(reached)]
    programs = sorted({program for it in scripts for program in SCRIPTS[it][1]})
    return Catchers(room, below, tests, programs, scripts)


def try_mutants(mutants, words, room):
    """Tries the chosen bugs, and prints what catches each; the exit status."""
    catchers = prepared(room, mutants, words.tests_only)
    caught = {}
    with concurrent.futures.ThreadPoolExecutor(words.jobs) as pool:
        without = catchers.wrong_without(mutants, pool)
        if without:
            print("these fail with no bug on: " + ", ".join(without))
            print(f"0 passed, {len(mutants)} failed")
            return 1
        tries = pool.map(catchers.catch, mutants)
        for mutant, by in zip(mutants, tries):
            caught[mutant.name] = by or ""
            print(f"{mutant.crate} {mutant.name}: {by or 'NOTHING'}", flush=True)
    print(counts(caught))
    left = sum(1 for by in caught.values() if not by)
    print(f"{len(caught) - left} passed, {left} failed")
    return 1 if left else 0


def main():
    words, mutants = read_words(), all_mutants()
    if words.texts:
        return try_texts(mutants)
    wrong = [it.name for it in mutants if wrong_text(it)]
    if wrong:
        sys.exit(f"these can't be planted (--texts says why): {', '.join(wrong)}")
    if words.only:
        mutants = [
            it for it in mutants if any(word == it.crate or word in it.name for word in words.only)
        ]
    if not mutants:
        sys.exit("no bug is left of these")
    if words.list:
        for it in mutants:
            print(f"{it.crate} {it.name}: {it.says}")
        return 0
    with contextlib.ExitStack() as stack:
        room = words.room or stack.enter_context(tempfile.TemporaryDirectory(prefix="mutants-"))
        return try_mutants(mutants, words, os.path.abspath(room))


if __name__ == "__main__":
    tried.main(main)
