#!/usr/bin/python3
"""Proves everything and runs each test that is not marked slow: `make check`, which CI calls.

Installs the Debian packages of tools/packages.txt that are missing (as root; another user gets
their names and a failure), runs `rt ci`, and builds the programs of server/. Over these come
formats, types, the tests of tests/, telovamish and books, and those of server/ and of
five clients; tb_embed's library is built for that in C. After the proofs three parts at a time run
next to each other; what a part prints goes out when it has ended. Tests that failed there are run
once more, alone, and named if they then pass. A test that is skipped has failed.

At the end it says which tests it left out: those marked slow, which `make slow` runs. The last line
is 'N passed, M failed' over all parts; a part that cannot be run counts as one failure.
"""

import argparse
import json
import sys
from concurrent.futures import ThreadPoolExecutor

import needed
from parts import KIT, PYTEST, PYTHON, ROOT, Part, Result, by_status, closing_line, ended
from parts import go_counts, java_counts, node_counts, pytest_counts, refused, run, settled


def kit(client: str) -> Part:
    """The scenarios of the conformance kit over a client that is built, and drawn ones, compared
    with the proved session."""
    folder = f"clients/{client}"
    about = json.loads((ROOT / folder / "conformance.json").read_text())
    words = [*KIT, "--more", DRAWN, "--", *about["runner"]]
    return Part(f"kit over {about['language']}", folder, words, closing_line)


def tests(name: str, folder: str, *words: str) -> Part:
    """The tests of a folder that are not marked slow. Each part keeps what failed for itself."""
    kept = f"cache_dir=.pytest_cache/{name.replace(' ', '-')}"
    return Part(name, folder, [*PYTEST, "not slow", "-o", kept, *words], pytest_counts)


def covered(name: str, folder: str, *words: str) -> Part:
    """The same of a package with a list of what they do not reach."""
    return Part(name, ".", [PYTHON, "tools/covered.py", folder, *words], closing_line)


DRAWN = "200"  # schedules for each client
LANES = 3  # chains of parts that run next to each other: most parts take more than one core
CALLERS = ["conformance_runner.py", "examples/program.py", "examples/sockets.py"]
CALLERS += ["../embed/python/tb_embed.py", "../embed/python/tb_caller.py"]
TYPES = ["env", "MYPYPATH=src", "mypy", "--follow-imports=silent", *CALLERS]
FORMATS, LANGUAGES = [PYTHON, "tools/formats.py"], ["C", "Java", "JavaScript", "Rust"]
PACKAGES = ["clients/python", "apps/telovamish", "apps/books"]
GO = "server/cmd server/internal bench/listener"
SIMULATOR = ["env", "PACKAGES=telovamish.org/server/internal/simulator", "./build", "test", "-v"]
PLANTED = ["-tags", "planted", "-run", "ChosenSeeds"]
BUILDS = [
    Part("proofs", ".", ["rt", "ci"], closing_line),
    Part("programs of server", "server", ["./build"], by_status),
]
# What uses these programs: parts of a chain run one after another, and the chains that take longest
# begin first.
CHAINS = [
    [Part("server", "server", ["./build", "test", "-race", "-v"], go_counts)],
    [
        Part("library of tb_embed", "packaging", ["./library"], by_status),
        Part("C", "clients/c", ["make", "-s", "-j2", "test"], closing_line),
        kit("c"),
    ],
    [tests("tests", ".", "-n", "3", "tests")],
    [tests("telovamish", "apps/telovamish", "-n", "2", "tests")],
    [covered("books", "apps/books", "-n", "2")],
    [tests("client in Python", "clients/python", "-n", "2", "tests"), kit("python")],
    [Part("seeds of the simulator", "server", [*SIMULATOR, "-run", "TestSeeds"], go_counts)],
    [tests("packages", ".", "-n", "2", "packaging/tests")],
    [
        Part("Go", "clients/go", ["go", "test", "-v", "./..."], go_counts),
        Part(
            "programs of Go's client",
            "clients/go",
            ["go", "build", "-o", "out/", "./..."],
            by_status,
        ),
        kit("go"),
        Part("fuzzing of Go", "clients/go", ["./fuzz.sh"], closing_line),
    ],
    [Part("Java", "clients/java", ["./build.sh", "test"], java_counts), kit("java")],
    [Part("Node", "clients/node", ["node", "--test"], node_counts), kit("node")],
    [tests("conformance kit", "clients/conformance", "-n", "2")],
    [Part("its planted bugs", "server", [*SIMULATOR, *PLANTED], go_counts)],
    [tests("embedded in Python", "clients/embed/python")],
    [
        Part("format of Python", ".", ["black", "--check", "--quiet", "."], by_status),
        Part("lint of Python", ".", ["flake8"], by_status),
        *(Part(f"types of {it}", it, ["mypy"], by_status) for it in PACKAGES),
        Part("types of callers of the clients", "clients/python", TYPES, by_status),
        *(Part(f"format of {it}", ".", [*FORMATS, it], by_status) for it in LANGUAGES),
        Part("texts of edits", ".", ["tools/edits.py", "--texts"], closing_line),
        Part("texts of mutants", ".", ["tools/mutants.py", "--texts"], closing_line),
        Part("format of Go", "clients/go", ["sh", "-c", 'test -z "$(gofmt -l .)"'], by_status),
        Part("vet of Go", "clients/go", ["go", "vet", "./..."], by_status),
        Part("format of server", ".", ["sh", "-c", f'test -z "$(gofmt -l {GO})"'], by_status),
        Part("vet of server", "server", ["./build", "vet"], by_status),
        Part("vet of the load", "bench/listener", ["go", "vet", "."], by_status),
    ],
]


def shown(part: Part) -> Result:
    """Runs a part, and prints its output when it has ended."""
    result = run(part)
    print(f"== {part.name}\n{result.output}== {result.line}", flush=True)
    return result


def chain(parts: list[Part]) -> list[Result]:
    return [shown(it) for it in parts]


def main() -> int:
    argparse.ArgumentParser(description=__doc__).parse_args()
    if not needed.install("check"):
        return refused()
    results = []
    for part in BUILDS:
        print(f"== {part.name}", flush=True)
        results.append(run(part, is_live=True))
        print(f"== {results[-1].line}", flush=True)
    with ThreadPoolExecutor(LANES) as pool:
        results += sum(pool.map(chain, CHAINS), [])
    return ended([settled(it) for it in results])


if __name__ == "__main__":
    sys.exit(main())
