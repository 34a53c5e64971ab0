"""Packages of Python, Java, Node and Go, as each ecosystem has them; the same bytes each time."""

import gzip
import io
import os
import shutil
import tarfile
import zipfile
from datetime import datetime, timezone
from pathlib import Path

from .running import Failed, run

PYTHON = "/usr/bin/python3"
# The two hooks of the packages' build backend, in one process: they change sys.argv.
HOOKS = (
    "import sys; from setuptools import build_meta as it;"
    " into = sys.argv[1]; it.build_sdist(into); it.build_wheel(into)"
)
WHEELS = ("clients/python", "apps/telovamish", "apps/books")


def moment(epoch: int) -> str:
    return datetime.fromtimestamp(epoch, timezone.utc).strftime("%Y-%m-%dT%H:%M:%SZ")


def steady(path: Path, epoch: int) -> None:
    """Writes a .tar.gz again in one order, with one time and one owner."""
    out = io.BytesIO()
    with (
        tarfile.open(path) as old,
        tarfile.open(fileobj=out, mode="w", format=tarfile.PAX_FORMAT) as new,
    ):
        for it in sorted(old.getmembers(), key=lambda row: row.name):
            it.mtime, it.uid, it.gid, it.uname, it.gname, it.pax_headers = epoch, 0, 0, "", "", {}
            it.mode = 0o755 if it.isdir() or it.mode & 0o100 else 0o644
            new.addfile(it, old.extractfile(it) if it.isfile() else None)
    with open(path, "wb") as file, gzip.GzipFile("", "wb", 9, file, mtime=epoch) as packed:
        packed.write(out.getvalue())


def python(tree: Path, dist: Path, epoch: int) -> None:
    """A wheel and an sdist of each Python package."""
    for name in WHEELS:
        words = [PYTHON, "-c", HOOKS, str(dist)]
        run(words, cwd=tree / name, env={"SOURCE_DATE_EPOCH": str(epoch)})
    wheels, sdists = [*dist.glob("*.whl")], [*dist.glob("*.tar.gz")]
    if not len(wheels) == len(sdists) == len(WHEELS):
        raise Failed(f"{len(WHEELS)} of each kind were to be built: {wheels} {sdists}")
    for path in sdists:
        steady(path, epoch)


def java(tree: Path, dist: Path, epoch: int) -> None:
    """The jar, its sources and its javadoc, by the JDK's own commands, and the pom."""
    top, version = tree / "clients/java", (tree / "packaging/VERSION").read_text().strip()
    out = top / "out"
    sources = sorted(str(it.relative_to(top)) for it in (top / "src/main/java").rglob("*.java"))
    compiled = ["javac", "-Xlint:all", "-Werror", "--release", "17", "-encoding", "UTF-8"]
    run([*compiled, "-d", "out/jar", *sources], cwd=top)
    documented = ["javadoc", "-quiet", "-notimestamp", "-Xdoclint:all", "-Werror"]
    run([*documented, "-encoding", "UTF-8", "-d", "out/doc", *sources], cwd=top)
    manifest = out / "manifest"
    manifest.write_text("Automatic-Module-Name: org.telovamish.tbclient\n")
    parts = {"": "out/jar", "-sources": "src/main/java", "-javadoc": "out/doc"}
    for end, folder in parts.items():
        jar = dist / f"tbclient-{version}{end}.jar"
        words = ["jar", "--create", f"--file={jar}", f"--date={moment(epoch)}"]
        run([*words, f"--manifest={manifest}", "-C", folder, "."], cwd=top)
    shutil.copyfile(top / "pom.xml", dist / f"tbclient-{version}.pom")


def node(tree: Path, dist: Path) -> None:
    """npm's tarball: npm itself gives its files one time."""
    run(["npm", "pack", "--pack-destination", str(dist)], cwd=tree / "clients/node")


def go(tree: Path, dist: Path, epoch: int) -> None:
    """The zip, the go.mod and the info of the module, as a proxy serves them."""
    top, version = tree / "clients/go", (tree / "packaging/VERSION").read_text().strip()
    module = (top / "go.mod").read_text().split()[1]
    name = f"tbclient@v{version}"
    found = {str(it.relative_to(top)): it for it in top.rglob("*") if it.is_file()}
    found = {place: it for place, it in found.items() if it.suffix != ".py"}
    found["LICENSE"] = tree / "LICENSE"
    times = datetime.fromtimestamp(epoch, timezone.utc).timetuple()[:6]
    with zipfile.ZipFile(dist / f"{name}.zip", "w", zipfile.ZIP_DEFLATED) as packed:
        for place, path in sorted(found.items()):
            info = zipfile.ZipInfo(f"{module}@v{version}/{place}", times)
            info.compress_type, info.external_attr = zipfile.ZIP_DEFLATED, 0o644 << 16
            packed.writestr(info, path.read_bytes())
    shutil.copyfile(top / "go.mod", dist / f"{name}.mod")
    (dist / f"{name}.info").write_text(f'{{"Version":"v{version}","Time":"{moment(epoch)}"}}\n')


def unpacked(wheel: Path, into: Path) -> None:
    """A wheel's files for Debian's dist-packages, without what only pip reads."""
    with zipfile.ZipFile(wheel) as packed:
        packed.extractall(into)
    for name in ("RECORD", "WHEEL"):
        for path in into.glob(f"*.dist-info/{name}"):
            os.remove(path)
    if not any(into.glob("*.dist-info/METADATA")):
        raise Failed(f"{wheel.name} has no metadata")
