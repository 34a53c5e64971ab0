"""A ledger in a file as a new user opens it in each language: the packages, three lines, a reply.
Rust is not tried: Debian 12's compiler is older than the crate's."""

import shutil
from pathlib import Path

from .installed import check
from .root import Root

FOLDER = "/tmp/opening"
PROGRAMS = Path(__file__).parent / "first"
# of each: Debian's packages, the program, and the command that builds and runs it
LANGUAGES = {
    "Python": ("", "first.py", "python3 first.py"),
    "C": (
        "gcc pkg-config",
        "first.c",
        "cc first.c $(pkg-config --cflags --libs tb_client) -o first && ./first",
    ),
    "Node": (
        "nodejs",
        "first.js",
        "mkdir -p node_modules/tb-client"
        " && tar xf tb-client.tgz -C node_modules/tb-client --strip-components=1"
        " && node first.js",
    ),
    "Java": (
        "default-jdk-headless",
        "First.java",
        "javac -cp tbclient.jar First.java && java -cp tbclient.jar:. First",
    ),
    "Go": (
        "golang-go",
        "main.go",
        "python3 -m zipfile -e tbclient.zip module && mv module/telovamish.org/tbclient@* client"
        " && go mod init first && go mod edit -require telovamish.org/tbclient@v0.0.0"
        " -replace telovamish.org/tbclient=./client && go run .",
    ),
}


def prepared(root: Root, dist: Path, version: str) -> None:
    """Copies what no package of Debian has."""
    folder = root.inside(FOLDER)
    folder.mkdir()
    for name, copy in (
        (f"tb-client-{version}.tgz", "tb-client.tgz"),
        (f"tbclient-{version}.jar", "tbclient.jar"),
        (f"tbclient@v{version}.zip", "tbclient.zip"),
    ):
        shutil.copyfile(dist / name, folder / copy)


def tools(root: Root, language: str) -> None:
    """Installs the language."""
    packages = LANGUAGES[language][0].split()
    if packages:
        root.apt("install", "--no-install-recommends", *packages)


def opened(root: Root, language: str) -> None:
    """The program prints the credits of account 2."""
    _, name, line = LANGUAGES[language]
    shutil.copyfile(PROGRAMS / name, root.inside(FOLDER) / name)
    said = root.shell(f"cd {FOLDER}; export GOFLAGS=-mod=mod; {{ {line}; }} 2>last || cat last")
    check(said.split()[:1] == ["10"], said)
