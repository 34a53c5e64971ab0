"""Trials of the packages for Python, Java, Node and Go, by each ecosystem's own command."""

import shutil
from pathlib import Path

from shipping.programs import sha256
from shipping.running import Failed, run

from .installed import check

PYTHON = "/usr/bin/python3"


def sums(dist: Path) -> str:
    """SHA256SUMS lists every file, with its sum."""
    lines = (dist / "SHA256SUMS").read_text().splitlines()
    rows = {it.split("  ")[1]: it.split("  ")[0] for it in lines}
    there = {it.name for it in dist.iterdir()} - {"SHA256SUMS"}
    check(set(rows) == there, f"not the same files: {set(rows) ^ there}")
    wrong = [it for it, wanted in rows.items() if sha256(dist / it) != wanted]
    check(not wrong, wrong)
    return f"{len(rows)} files"


def wheels(dist: Path, room: Path, version: str) -> None:
    """pip installs the three wheels into an environment, and the three sdists build."""
    room.mkdir()
    run([PYTHON, "-m", "venv", "--system-site-packages", str(room / "env")])
    pip = [str(room / "env/bin/python"), "-m", "pip", "install", "--no-index", "--no-deps"]
    run([*pip, *dist.glob("*.whl")])
    for name in ("telovamish", "tb-sql"):
        said = run([str(room / "env/bin" / name), "--version"])
        check(said.strip() == f"{name} {version}", said)
    unpacked = room / "sdist"
    words = [*pip, "--no-build-isolation", "--target", str(unpacked)]
    run([*words, *dist.glob("*.tar.gz")])
    for name in ("tb_client", "tb_sql", "telovamish"):
        check((unpacked / name / "__init__.py").exists(), f"{name} is not in its sdist")


def jars(dist: Path, room: Path, version: str) -> None:
    """A class compiles against the jar and runs; sources and javadoc have what they are for."""
    room.mkdir()
    (room / "First.java").write_text(
        "import org.telovamish.tbclient.*;\n"
        "public class First { public static void main(String[] given) {\n"
        "System.out.println(CreateTransferResult.class.getSimpleName()); } }\n"
    )
    jar = str(dist / f"tbclient-{version}.jar")
    run(["javac", "-cp", jar, "-d", str(room), str(room / "First.java")])
    check(run(["java", "-cp", f"{jar}:{room}", "First"]) == "CreateTransferResult\n", "First")
    wanted = {
        "-sources": "org/telovamish/tbclient/Session.java",
        "-javadoc": "org/telovamish/tbclient/Session.html",
    }
    for end, name in wanted.items():
        listed = run(["jar", "--list", "--file", str(dist / f"tbclient-{version}{end}.jar")])
        check(name in listed.splitlines(), f"{end} has no {name}")


def tarball(dist: Path, room: Path, version: str) -> None:
    """npm installs the tarball into a project, and node loads it."""
    room.mkdir()
    (room / "package.json").write_text('{"name": "first", "version": "1.0.0", "private": true}')
    file = dist / f"tb-client-{version}.tgz"
    run(["npm", "install", "--offline", "--no-audit", "--no-fund", str(file)], cwd=room)
    said = run(["node", "-p", "typeof require('tb-client').Session"], cwd=room)
    check(said == "function\n", said)


def module(dist: Path, room: Path, version: str) -> None:
    """Go takes the zip from a proxy that is a folder, and builds a program over it."""
    name = "telovamish.org/tbclient"
    proxy, project = room / "proxy" / name / "@v", room / "project"
    proxy.mkdir(parents=True)
    project.mkdir()
    for end in ("zip", "mod", "info"):
        shutil.copyfile(dist / f"tbclient@v{version}.{end}", proxy / f"v{version}.{end}")
    (proxy / "list").write_text(f"v{version}\n")
    (project / "go.mod").write_text(f"module first\n\ngo 1.19\n\nrequire {name} v{version}\n")
    (project / "main.go").write_text(
        f'package main\n\nimport client "{name}"\n\n'
        "func main() { println(client.ID().String()) }\n"
    )
    given = {
        "GOPROXY": f"file://{room}/proxy",
        "GONOSUMDB": "*",
        "GONOSUMCHECK": "1",
        "GOFLAGS": "-mod=mod -modcacherw",
        "GOMODCACHE": str(room / "cache"),
        "GOSUMDB": "off",
    }
    run(["go", "build", "-o", "first", "."], cwd=project, env=given)
    if not run([str(project / "first")]).strip():
        raise Failed("the program printed no id")
