#!/usr/bin/env python3
"""Sees that the kit catches wrong clients: a client with one thing wrong, each in turn.

    clients/conformance/wrong_clients.py python|go|java|node|c|rust [--only PATTERN] [--from N]
        [--list] [--scenarios PATTERN] [--over unix|tcp] [--jobs N] [--texts]
    clients/conformance/wrong_clients.py python --drawn N [--seed N] ..

wrong_clients.toml says what is wrong, by edits of a client's sources, which are made in a copy.
The kit has to fail for it; the client as it is has to pass. Prints which scenario caught it, and
'N of M wrong clients are caught'. Status 1 where one is not. With --drawn those that say so have to
fail among so many scenarios that are drawn, without the stored ones. Java's need that
clients/java/build.sh has run, those of C and Rust that clients/c was made.
"""
import argparse
import concurrent.futures
import fnmatch
import os
import re
import shutil
import subprocess
import sys
import tempfile
import tomllib
from collections.abc import Callable, Sequence
from functools import partial
from pathlib import Path
from typing import NamedTuple

sys.dont_write_bytecode = True
HERE = Path(__file__).resolve().parent
CLIENTS = HERE.parent
TABLE = tomllib.loads((HERE / "wrong_clients.toml").read_text(encoding="utf-8"))

SECONDS = 1800  # that the kit may take for one wrong client
JAVA = ["java", "-XX:TieredStopAtLevel=1", "-XX:+UseSerialGC", "-Xshare:auto", "-cp"]
JAVA_BUILT = f"{CLIENTS}/java/out/classes:{CLIENTS}/java/out/test-classes"
EMBED = os.environ.get("TB_EMBED_A") or f"{CLIENTS.parent}/crates/tb_embed/out/libtb_embed.a"
NODE = ["index.js", "names.js", "lib", "conformance-runner.js"]

Edits = Sequence[
    Sequence[str]
]  # of each: the file, the text that is there once, the one in its place
Texts = dict[str, str]


def python(folder: Path, texts: Texts) -> list[str]:
    package = CLIENTS / "python/src/tb_client"
    shutil.copytree(package, folder / "src/tb_client", ignore=shutil.ignore_patterns("__pycache__"))
    shutil.copy(CLIENTS / "python/conformance_runner.py", folder)
    write(folder / "src/tb_client", texts)
    return [sys.executable, "-B", f"{folder}/conformance_runner.py"]


def go(folder: Path, texts: Texts) -> list[str]:
    left_out = shutil.ignore_patterns("out", "*_test.go")
    shutil.copytree(CLIENTS / "go", folder / "go", ignore=left_out)
    write(folder / "go", texts)
    runner = f"{folder}/runner"
    made(["go", "build", "-p", "1", "-o", runner, "./internal/conformance"], folder / "go")
    return [runner]


def java(folder: Path, texts: Texts) -> list[str]:
    """Only the edited classes are compiled, and come before those that build.sh made."""
    write(folder, texts)
    if texts:
        words = ["javac", "-nowarn", "--release", "17", "-cp", JAVA_BUILT, "-d", "classes"]
        made([*words, *texts], folder)
    runner = "org.telovamish.tbclient.ConformanceRunner"
    return [*JAVA, f"{folder}/classes:{JAVA_BUILT}", runner]


def node(folder: Path, texts: Texts) -> list[str]:
    for name in NODE:
        at = CLIENTS / "node" / name
        (shutil.copytree if at.is_dir() else shutil.copy)(at, folder / name)
    write(folder, texts)
    return ["node", f"{folder}/conformance-runner.js"]


def c(folder: Path, texts: Texts) -> list[str]:
    """Only the edited files are compiled."""
    shutil.copytree(CLIENTS / "c", folder / "c")
    shutil.copytree(CLIENTS / "embed", folder / "embed")
    write(folder / "c/src", texts)
    made(["make", "-s", f"TB_EMBED_A={EMBED}", "WARN=", "out/conformance"], folder / "c")
    return [f"{folder}/c/out/conformance"]


def rust(folder: Path, texts: Texts) -> list[str]:
    """Over the client in C as it was made."""
    left_out = shutil.ignore_patterns("out")
    for name in ("rust", "embed"):
        shutil.copytree(CLIENTS / name, folder / name, ignore=left_out)
    write(folder / "rust/src", texts)
    archives = ["env", f"TB_EMBED_A={EMBED}", f"TB_CLIENT_A={CLIENTS}/c/out/libtb_client.a"]
    words = ["cargo", "build", "-q", "--offline", "--target-dir", "out", "--example"]
    made([*archives, *words, "conformance"], folder / "rust")
    return [f"{folder}/rust/out/debug/examples/conformance"]


class Client(NamedTuple):
    """Where the files of its edits are, and what makes an edited one: its runner."""

    sources: Path
    runner: Callable[[Path, Texts], list[str]]


LANGUAGES = {
    "python": Client(CLIENTS / "python/src/tb_client", python),
    "go": Client(CLIENTS / "go", go),
    "java": Client(CLIENTS / "java/src/main/java/org/telovamish/tbclient", java),
    "node": Client(CLIENTS / "node", node),
    "c": Client(CLIENTS / "c/src", c),
    "rust": Client(CLIENTS / "rust/src", rust),
}


def write(folder: Path, texts: Texts) -> None:
    for name, text in texts.items():
        (folder / name).write_text(text, encoding="utf-8")


def made(words: list[str], folder: Path) -> None:
    ran = subprocess.run(words, cwd=folder, capture_output=True, text=True, timeout=SECONDS)
    if ran.returncode:
        raise LookupError(f"it does not build: {ran.stderr.strip()}")


def changed(language: str, edits: Edits) -> Texts:
    """The edited files' new texts. Raises LookupError if an old text is not there once."""
    texts: Texts = {}
    for name, old, new in edits:
        text = texts.get(name) or (LANGUAGES[language].sources / name).read_text(encoding="utf-8")
        if text.count(old) != 1:
            raise LookupError(f"{name} has {text.count(old)} times: {old.strip().splitlines()[0]}")
        texts[name] = text.replace(old, new)
    return texts


def edited(language: str, folder: Path, edits: Edits) -> list[str]:
    """The runner of an edited client, which is made in a folder."""
    return LANGUAGES[language].runner(Path(folder), changed(language, edits))


def wrong(language: str, is_drawn: bool = False) -> dict[str, Edits]:
    """What may be wrong with a language's client."""
    return {
        name: it[language]
        for name, it in TABLE.items()
        if language in it and (not is_drawn or it.get("drawn"))
    }


def chosen(every: dict[str, Edits], given: argparse.Namespace) -> dict[str, Edits]:
    """Those that were asked for, by number and name. Ends the script if there is none."""
    named = [
        (number, name) for number, name in enumerate(every, 1) if fnmatch.fnmatch(name, given.only)
    ]
    if not named:
        sys.exit(f"no wrong client has such a name: {given.only}")
    found = {f"{number} {name}": every[name] for number, name in named if number >= given.least}
    if not found:
        sys.exit(f"no wrong client is there from number {given.least} on")
    return found


def caught(language: str, words: list[str], edits: Edits) -> tuple[int, str]:
    """The kit's status for an edited client, and the scenario that failed first."""
    with tempfile.TemporaryDirectory() as folder:
        kit = [sys.executable, "-B", f"{HERE}/kit.py", "--first", "--jobs", "1" if edits else "4"]
        runner = edited(language, Path(folder), edits)
        ran = subprocess.run(
            [*kit, *words, "--", *runner], capture_output=True, text=True, timeout=SECONDS
        )
    first = re.search(r"^FAILED: ([^:]+): (.*)", ran.stdout, re.M)
    said = f"{first[1]}: {first[2][:100]}" if first else (ran.stdout + ran.stderr)[-300:]
    return ran.returncode, said


Try = Callable[[Edits], tuple[int, str]]


def all_caught(tried: dict[str, Edits], kit: Try, jobs: int) -> int:
    """Sees that the kit passes the client as it is, and fails for each wrong one. The status."""
    status, said = kit(())
    if status:
        print(f"FAILED: the client as it is: {said}")
        return 1
    missed = 0
    with concurrent.futures.ThreadPoolExecutor(jobs) as pool:
        runs = {name: pool.submit(kit, edits) for name, edits in tried.items()}
        for name, run in runs.items():
            try:
                status, said = run.result()
            except LookupError as why:
                status, said = 2, str(why)
            missed += status != 1
            how = f"caught: {name}: by" if status == 1 else f"FAILED: not caught: {name}:"
            print(how, said, flush=True)
    print(f"{len(tried) - missed} of {len(tried)} wrong clients are caught")
    return 1 if missed else 0


def all_made(language: str, tried: dict[str, Edits]) -> int:
    """Sees that each old text is there once. The status."""
    gone = 0
    for name, edits in tried.items():
        try:
            changed(language, edits)
        except LookupError as why:
            print(f"FAILED: {name}: {why}")
            gone += 1
    print(f"{len(tried) - gone} of {len(tried)} wrong clients can be made")
    return 1 if gone else 0


def words() -> argparse.Namespace:
    parser = argparse.ArgumentParser(
        description=__doc__, formatter_class=argparse.RawDescriptionHelpFormatter
    )
    add = parser.add_argument
    add("language", choices=LANGUAGES)
    add("--only", metavar="PATTERN", default="*", help="wrong clients with such a name")
    add("--from", dest="least", metavar="N", type=int, default=1, help="from the Nth on (1)")
    add(
        "--scenarios", metavar="PATTERN", default="*", help="over scenarios of such a name or group"
    )
    add("--over", choices=("unix", "tcp"), help="over sockets of this kind")
    add("--list", action="store_true", help="print their names, and try none")
    add("--texts", action="store_true", help="see that each text is there, and try none")
    add("--jobs", metavar="N", type=int, default=2, help="kits at once (2)")
    add("--drawn", metavar="N", type=int, help="over so many drawn scenarios")
    add("--seed", metavar="N", type=int, default=1, help="of the first one (1)")
    given = parser.parse_args()
    if given.jobs < 1:
        parser.error("--jobs must be 1 or more")
    if given.drawn is not None and given.drawn < 1:
        parser.error("--drawn must be 1 or more")
    if given.seed < 0:
        parser.error("--seed must be 0 or more")
    return given


def main() -> int:
    given = words()
    tried = chosen(wrong(given.language, bool(given.drawn)), given)
    if given.list:
        print(*tried, sep="\n")
        return 0
    if given.texts:
        return all_made(given.language, tried)
    stored = ["--more", "200", "--only", given.scenarios]
    drawn = ["--drawn", str(given.drawn), "--seed", str(given.seed)]
    kit = [*(drawn if given.drawn else stored), *(["--over", given.over] if given.over else [])]
    return all_caught(tried, partial(caught, given.language, kit), given.jobs)


if __name__ == "__main__":
    sys.exit(main())
