"""Debian's packages, by debhelper over a tree in which everything is built."""

import os
import re
import shutil
from datetime import datetime, timezone
from email.utils import format_datetime
from pathlib import Path

from . import completion, ecosystems, manuals, server, units
from .programs import LIBRARY, Record
from .running import Failed, run
from .table import Program

PACKAGES = 9
# The commands of Python packages: a module and its function.
SCRIPTS = {
    "telovamish": ("telovamish.early", "main"),
    "tb-sql": ("tb_sql.early", "main"),
}
SCRIPT = """#!/usr/bin/python3
import sys

from {0} import {1}

sys.exit({1}())
"""
PKG_CONFIG = """prefix=/usr
libdir=${{prefix}}/lib/x86_64-linux-gnu
includedir=${{prefix}}/include

Name: tb_embed
Description: Telovamish ledger inside a program
Version: {0}
Cflags: -I${{includedir}}
Libs: -L${{libdir}} -ltb_embed -ltb_embed_heap
"""
CLIENT_PKG_CONFIG = """prefix=/usr
libdir=${{prefix}}/lib/x86_64-linux-gnu
includedir=${{prefix}}/include

Name: tb_client
Description: a client of a Telovamish ledger
Version: {0}
Requires: libssl libcrypto
Cflags: -I${{includedir}}
Libs: -L${{libdir}} -ltb_client -ltb_embed -lpthread
"""
CHANGELOG = """telovamish ({0}) unstable; urgency=medium

  * Release {0}: see CHANGELOG.md.

 -- Telovamish maintainers <maintainers@example.org>  {1}
"""
PAGES = ("README.md", "CHANGELOG.md", "SECURITY.md", "docs", "examples")


def with_links_inside(page: Path, folder: Path) -> str:
    """A page's text. A link to a file that is not installed is its words."""

    def kept(link: re.Match[str]) -> str:
        target = (page.parent / link[2].partition("#")[0]).resolve()
        inside = folder.resolve() in (target, *target.parents) and target.exists()
        return link[0] if inside or re.match(r"[a-z]+:", link[2]) else link[1]

    return re.sub(r"(?<!!)\[([^\]\n]*)\]\(([^)\s]+)\)", kept, page.read_text())


def pages(tree: Path, top: Path, record: Record) -> None:
    """What goes to /usr/share/doc/telovamish."""
    folder = top / "doc"
    folder.mkdir()
    for name in PAGES:
        if (tree / name).is_dir():
            shutil.copytree(tree / name, folder / name)
        else:
            shutil.copyfile(tree / name, folder / name)
    for path in [it for it in folder.rglob("*") if it.is_file()]:
        path.chmod(0o644)
        if path.suffix in (".py", ".dot") or path.name == "Makefile":
            path.unlink()
    for page in folder.rglob("*.md"):
        page.write_text(with_links_inside(page, folder))
    (folder / "BUILD.json").write_text(record.text())


def libraries(tree: Path, top: Path, built: Path, version: str) -> None:
    """tb_embed's library, and the client in C over it."""
    (top / "lib").mkdir()
    (top / "include").mkdir()
    for name in (LIBRARY, "libtb_embed_heap.a"):
        shutil.copyfile(built / name, top / "lib" / name)
    (top / "lib/tb_embed.pc").write_text(PKG_CONFIG.format(version))
    shutil.copyfile(tree / "clients/embed/tb_embed.h", top / "include/tb_embed.h")
    client = tree / "clients/c"
    # without debug lines, which have the folder's name
    words = ["make", "-s", f"TB_EMBED_A={built / LIBRARY}", "out/libtb_client.a"]
    run(words, cwd=client, env={"CFLAGS": "-O2"})
    shutil.copyfile(client / "out/libtb_client.a", top / "lib/libtb_client.a")
    (top / "lib/tb_client.pc").write_text(CLIENT_PKG_CONFIG.format(version))
    shutil.copyfile(client / "include/tb_client.h", top / "include/tb_client.h")


def scripts(top: Path, dist: Path) -> None:
    """Python's packages from their wheels, and their commands."""
    for wheel in sorted(dist.glob("*.whl")):
        ecosystems.unpacked(wheel, top / "python")
    (top / "scripts").mkdir()
    for name, (module, function) in SCRIPTS.items():
        path = top / "scripts" / name
        path.write_text(SCRIPT.format(module, function))
        path.chmod(0o755)


def listener(tree: Path, top: Path) -> None:
    """The programs of server/."""
    built = server.build(tree)
    (top / "server").mkdir()
    for name in server.NAMES:
        shutil.copy(built / name, top / "server" / name)


def changelog(version: str, epoch: int) -> str:
    when = format_datetime(datetime.fromtimestamp(epoch, timezone.utc))
    return CHANGELOG.format(version, when)


def stage(
    tree: Path, top: Path, built: Path, dist: Path, record: Record, table: dict[str, Program]
) -> None:
    """The tree that debhelper packages. Wheels and the site are in dist."""
    top.mkdir()
    shutil.copytree(tree / "packaging/debian", top / "debian", symlinks=True)
    shutil.copytree(built, top / "bin", ignore=shutil.ignore_patterns("*.a"))
    libraries(tree, top, built, record.version)
    pages(tree, top, record)
    shutil.copytree(dist / "site", top / "site")
    scripts(top, dist)
    listener(tree, top)
    manuals.write(table, top / "man", record.version, record.date[:10])
    completion.write(table, top / "completion")
    units.write(top / "units")
    shutil.copytree(tree / "packaging/server", top / "etc")
    shutil.copytree(tree / "packaging/watch", top / "watch")
    epoch = int(datetime.fromisoformat(record.date).timestamp())
    (top / "debian/changelog").write_text(changelog(record.version, epoch))


def build(top: Path, dist: Path, epoch: int) -> list[str]:
    """Runs debhelper. The names of the packages."""
    words = ["dpkg-buildpackage", "-us", "-uc", "-b", "-d", "--no-pre-clean"]
    given = {"SOURCE_DATE_EPOCH": str(epoch), "DEB_BUILD_OPTIONS": "nocheck terse"}
    run(words, cwd=top, env=given)
    found = sorted(top.parent.glob("*.deb"))
    for path in found:
        os.chmod(path, 0o644)
        shutil.move(path, dist / path.name)
    if len(found) != PACKAGES:
        raise Failed(f"{PACKAGES} packages were to be built: {[it.name for it in found]}")
    return [it.name for it in found]
