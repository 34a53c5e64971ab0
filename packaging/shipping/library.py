"""tb_embed's static library, over the libraries that CI left. `rt lib` takes none of them, and
would prove each crate below again. A library that was built of the same files stays as it is."""

import hashlib
from pathlib import Path

from .bill import crates, reached
from .programs import LIBRARY, heap, sha256
from .running import run
from .table import ROOT

NAME = "tb_embed"


def left() -> dict[str, Path]:
    """The libraries below, as CI left them."""
    rows = crates(ROOT)
    below = [it for it in reached([NAME], rows) if it in rows and it != NAME]
    return {it: ROOT / f"crates/{it}/out/rlib/{it}.rlib" for it in below}


def words(kit: Path, out: Path) -> list[str | Path]:
    """The compiler's command. It proves tb_embed itself before it builds."""
    below = left()
    found: list[str | Path] = [kit / "bin/rattle", "build", "--crate-name", NAME, "src/lib.rt"]
    found += ["--crate-type", "staticlib", "--links", f"{NAME}=", "--jobs", "2"]
    for it in (*crates(ROOT)[NAME], "std"):
        found += ["--extern", f"{it}={below.get(it, kit / f'rlibs/{it}.rlib')}"]
    for folder in (kit / "rlibs", *(it.parent for it in below.values())):
        found += ["-L", f"dependency={folder}"]
    found += ["--antt-project", kit / "rattle/logic/antt-project.json"]
    found += ["--logic-built", kit / "logic_built", "--toolchain", kit / "toolchain"]
    return [*found, "-o", out]


def checksum(*places: Path) -> str:
    """That of files, and of all files below folders, with their names."""
    whole = hashlib.sha256()
    for place in places:
        below = sorted(it for it in place.rglob("*") if it.is_file())
        for path in [place] if place.is_file() else below:
            whole.update(f"{path} {sha256(path)}\n".encode())
    return whole.hexdigest()


def build() -> None:
    """Builds it, unless what is there was built of the same files."""
    folder, kit = ROOT / "crates" / NAME, heap().parent.parent
    built = folder / "out" / LIBRARY
    kept = built.with_suffix(".of")
    sources = [folder / it for it in ("src", "specs", "proofs")]
    of = checksum(kit / "bin/rattle", *sources, *left().values())
    if built.is_file() and kept.is_file() and kept.read_text() == of + checksum(built):
        return
    built.parent.mkdir(exist_ok=True)
    kept.unlink(missing_ok=True)
    run(words(kit, built), cwd=folder)
    kept.write_text(of + checksum(built))
