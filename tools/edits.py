#!/usr/bin/env python3
"""Tries every must-fail edit, as CI tries those of crates/*/must-fail, side by side on all
cores.

    tools/edits.py [--jobs N] [CRATE ..]
    tools/edits.py --only [--jobs N] [CRATE ..]
    tools/edits.py --texts | --rules [CRATE ..]

CI tries the edits in crates/CRATE/must-fail, a file each. This script tries those and the ones in
crates/CRATE/edits.txt: it copies the repository, with what is kept of earlier checks, puts all
edits of a crate into its must-fail folder there, proves the libraries below, and runs `rt must-fail
CRATE`, one job a crate. Run it before a release, and whenever a public clause or a definition
changes. Ends in 'N passed, M failed': passed are the edits that the prover refused.

--only checks the function alone that an edit names, by `rt check --only`, several edits in one
check where each changes nothing outside of its function. It says how an edit is refused: at a goal
that is printed, inside an answer, where a search met a limit. An edit that leaves its function
proved counts as failed, whatever else it breaks.

A file of must-fail begins with two lines that `rt` does not read: `# rule:`, what the body breaks,
and `# refused at:`, the function at whose goal it is refused, with the clause where it is known. In
edits.txt an edit is a block `# NAME: rule`, then `refused at:` and the lines that `rt` reads.
--rules prints all rules, with their edits and functions.

--texts proves nothing, and takes a second: it reports each edit whose old text is not in its file
exactly once, so that `rt must-fail` could not apply it, and each that lacks one of the two lines.
"""
import collections
import os
import pathlib
import re
import subprocess
import sys
import tempfile
import threading
from concurrent.futures import ThreadPoolExecutor, as_completed

import edited
import repository
import tried

ROOT = repository.ROOT


def edits_of(crate):
    """The text of each edit of a crate by its name, as a file of must-fail has it. Two of one name
    would hide each other, so that is an error."""
    texts = {}
    for name, text in (*in_files(crate), *in_list(crate)):
        if name in texts:
            sys.exit(f"{crate}: two edits are called {name}")
        texts[name] = text
    return texts


def in_files(crate):
    """The edits that CI tries, each in a file."""
    for path in sorted(pathlib.Path(ROOT, "crates", crate, "must-fail").glob("*.edit")):
        yield path.stem, path.read_text("utf-8")


def in_list(crate):
    """The other edits, each a block of one file."""
    path = pathlib.Path(ROOT, "crates", crate, "edits.txt")
    text = path.read_text("utf-8") if path.is_file() else ""
    first, *blocks = re.split(r"^# ", text, flags=re.M)
    if first.strip():
        sys.exit(f"{crate}: edits.txt does not begin with '# NAME: rule'")
    for block in blocks:
        head, _, rest = block.partition("\n")
        name, _, rule = head.partition(": ")
        lines = re.sub("^refused at: ", "# refused at: ", rest, count=1).rstrip("\n")
        yield name, f"# rule: {rule}\n{lines}\n"


def table(edits):
    """A row for each rule of a crate, with its edits."""
    lines, last = ["| Crate | Rule | Edit | Refused at |", "|---|---|---|---|"], None
    for crate, texts in edits.items():
        rules = collections.defaultdict(list)
        for name, text in texts.items():
            said = edited.said_of(text)
            if "rule" in said:
                rules[said["rule"]].append((name, said.get("refused at", "")))
        for rule, found in rules.items():
            names = ", ".join(name for name, _ in found)
            # A clause without a name is the function's only one.
            places = (re.sub(", (its|the trait's) clause$", "", place) for _, place in found)
            places = ", ".join(dict.fromkeys(places))
            lines.append(f"| {crate if crate != last else ''} | {rule} | {names} | {places} |")
            last = crate
    return "\n".join(lines).replace("|  |", "| |") + "\n"


def copy_into(room, crates):
    """Copies what git knows of, and what is kept in out/, and puts all edits of the crates into the
    folder in which `rt must-fail` looks."""
    repository.copied(room)
    repository.kept(room)
    for crate, edits in crates.items():
        os.makedirs(f"{room}/crates/{crate}/must-fail", exist_ok=True)
        for name, text in edits.items():
            pathlib.Path(room, "crates", crate, "must-fail", f"{name}.edit").write_text(
                text, "utf-8"
            )


def try_texts(edits):
    """Reports each edit that cannot be applied."""
    for crate, texts in edits.items():
        for name, text in texts.items():
            why = edited.misfit(crate, text)
            tried.case(f"{crate}/{name}", why is None, why, quietly=True)
    return tried.status()


def all_edits(chosen=()):
    """The edits of these crates, or of all that have some."""
    found = {crate: edits_of(crate) for crate in chosen or repository.crates()}
    return {crate: texts for crate, texts in found.items() if texts}


def try_crate(room, crate, edits, told):
    """Runs `rt must-fail` for a crate, and prints what it says of each edit."""
    lines = edited.said_by_rt(room, "must-fail", crate)
    said = dict(re.findall(rf"must-fail {crate}/([^ :]+)\.edit: (.*)", lines))
    for name in edits:
        told(crate, name, said.get(name, "NOT TRIED"))


def try_as_ci(edits, lanes, told):
    """Tries all edits in one copy, by `rt must-fail`."""
    with tempfile.TemporaryDirectory(prefix="edits-") as room:
        copy_into(room, edits)
        for library in repository.below(edits):
            if subprocess.run(
                ["rt", "lib"],
                cwd=f"{room}/crates/{library}",
                stdout=subprocess.DEVNULL,
                stderr=subprocess.STDOUT,
            ).returncode:
                sys.exit(f"{library} is not proved, so no edit above it can be judged")
        each = [lanes.submit(try_crate, room, it, edits[it], told) for it in longest_first(edits)]
        for run in as_completed(each):
            run.result()


def try_only(edits, lanes, told):
    """Checks only the function that each edit names; a copy for each crate."""
    each = [lanes.submit(edited.checked, it, edits[it], told) for it in longest_first(edits)]
    for run in as_completed(each):
        run.result()


def longest_first(edits):
    """The crates, those with the most edits first, so that no large one is left for the end."""
    return sorted(edits, key=lambda it: -len(edits[it]))


def try_all(edits, jobs, way):
    """Tries edits in one of the two ways, prints each that was refused or not, and counts them."""
    lock = threading.Lock()

    def told(crate, name, said):
        with lock:
            tried.case(f"{crate}/{name}", said.startswith("refused"), said)

    with ThreadPoolExecutor(jobs) as lanes:
        way(edits, lanes, told)
    return tried.status()


def given_words():
    """What the command's words ask for, and the edits of the crates that they name."""
    words = tried.arguments(__doc__)
    words.add_argument(
        "--jobs",
        type=tried.count,
        default=len(os.sched_getaffinity(0)),
        help="how many crates are tried side by side (one a core)",
    )
    words.add_argument("--only", action="store_true", help="check the function of each edit alone")
    words.add_argument("--texts", action="store_true", help="only whether each edit can be applied")
    words.add_argument("--rules", action="store_true", help="only print all rules with their edits")
    words.add_argument("crates", nargs="*", metavar="CRATE")
    given = words.parse_args()
    for crate in given.crates:
        if crate not in repository.crates():
            words.error(f"crates.txt has no crate {crate}")
    edits = all_edits(given.crates)
    if not edits:
        words.error(f"no edits are in {', '.join(given.crates)}")
    return given, edits


def main():
    given, edits = given_words()
    if given.texts:
        return try_texts(edits)
    if given.rules:
        print(table(edits), end="")
        return 0
    return try_all(edits, given.jobs, try_only if given.only else try_as_ci)


if __name__ == "__main__":
    tried.main(main)
