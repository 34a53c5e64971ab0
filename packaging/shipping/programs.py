"""The programs that are packaged, and the record of where they come from."""

import hashlib
import json
import os
import shutil
from dataclasses import asdict, dataclass
from pathlib import Path

from .running import Failed, run
from .table import ROOT

PROGRAMS = ("tbs", "tb_script", "tbd")
LIBRARY = "libtb_embed.a"


@dataclass(frozen=True)
class Record:
    """What a build was made of: BUILD.json."""

    version: str
    commit: str
    date: str
    kit: str
    programs: str
    proved_here: bool
    sha256: dict[str, str]

    def text(self) -> str:
        return json.dumps(asdict(self), indent=2, sort_keys=True) + "\n"


def sha256(path: Path) -> str:
    return hashlib.sha256(path.read_bytes()).hexdigest()


def git(*words: str) -> str:
    return run(["git", "-C", str(ROOT), *words]).strip()


def kit() -> str:
    try:
        return run(["rt", "version"]).strip()
    except (OSError, Failed):
        return "none"


def heap() -> Path:
    """The kit's allocator over malloc, which a program with the library links."""
    return Path(run(["rt", "doc"]).strip()).parent / "c" / "liblibc_c.a"


def is_clean() -> bool:
    return not git("status", "--porcelain")


def prove() -> str:
    """Runs `rt ci`, which leaves the programs; its last line."""
    last = run(["rt", "ci"], cwd=ROOT).strip().splitlines()[-1]
    if ", 0 failed" not in last:
        raise Failed(last)
    return last


def gather(folder: Path | None, into: Path) -> dict[str, str]:
    """Copies programs and library; their SHA-256. Without a folder they are what CI left."""
    into.mkdir(parents=True)
    sums = {}
    for name in (*PROGRAMS, LIBRARY):
        crate = ROOT / "crates" / ("tb_embed" if name == LIBRARY else name) / "out"
        source = (folder or crate) / name
        if not source.is_file():
            raise Failed(f"{source} is not there")
        shutil.copyfile(source, into / name)
        os.chmod(into / name, 0o644 if name == LIBRARY else 0o755)
        sums[name] = sha256(into / name)
    shutil.copyfile(heap(), into / "libtb_embed_heap.a")
    sums["libtb_embed_heap.a"] = sha256(into / "libtb_embed_heap.a")
    return sums
