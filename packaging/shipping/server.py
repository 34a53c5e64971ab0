"""The programs of server/, which its own command builds with Go and Debian's packages of Go."""

import re
from dataclasses import dataclass
from pathlib import Path

from .running import Failed, run

NAMES = ("tb-listen", "tb-replica")
DIRECTORIES = "{{if not .Standard}}{{.Dir}}{{end}}"
# Debian's names, and those of SPDX
LICENCES = {"Expat": "MIT", "Go": "BSD-3-Clause", "BSD-3-clause": "BSD-3-Clause"}


@dataclass(frozen=True)
class Linked:
    """A package of Debian of which a part is in the programs."""

    name: str
    version: str
    licence: str


def build(tree: Path) -> Path:
    """Builds the programs of a tree. The folder that has them."""
    if not (tree / "server/build").is_file():
        raise Failed(f"{tree}/server has no build")
    run([tree / "server/build"])
    built = tree / "server/out"
    for name in NAMES:
        test(built / name)
    return built


def test(program: Path) -> None:
    """Raises Failed for a program that needs a library: it is to run in an image without one."""
    needed = re.findall(r"\(NEEDED\).*\[(.*)\]", run(["readelf", "--dynamic", program]))
    if needed:
        raise Failed(f"{program.name} needs {' '.join(needed)}")


def linked(tree: Path) -> list[Linked]:
    """The packages whose parts are in the programs: Go's runtime and library, and others."""
    packages = " ".join(f"telovamish.org/server/cmd/{it}" for it in NAMES)
    words = ["env", f"PACKAGES={packages}", f"{tree}/server/build", "list", "-deps"]
    folders = run([*words, "-f", DIRECTORIES]).split()
    others = {it for it in folders if it.startswith("/usr/share/gocode/")}
    others.add(str(Path(run(["go", "env", "GOROOT"]).strip(), "bin").resolve()))
    listed = run(["dpkg-query", "-S", *sorted(others)]).splitlines()
    owners = {it for line in listed for it in line.partition(": ")[0].split(", ")}
    return [of_debian(it) for it in sorted(owners)]


def of_debian(name: str) -> Linked:
    text = Path(f"/usr/share/doc/{name}/copyright").read_text()
    found = re.search(r"^License: (\S+)", text, re.M)
    if not found:
        raise Failed(f"{name} has no licence")
    version = run(["dpkg-query", "-W", "-f", "${Version}", name])
    return Linked(name, version, LICENCES.get(found[1], found[1]))
