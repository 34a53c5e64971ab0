"""Bugs that quick tests have to find: each is planted in a copy of its package, and the tests that
are named for it run over that. Those of the command are in apps/telovamish/tests/planted.py, those
of the replica in server/internal/simulator/planted_test.go, and those of clients in
wrong_clients.toml."""

from __future__ import annotations

import os
import re
import shutil
import subprocess
import sys
from dataclasses import dataclass
from pathlib import Path

from ..conftest import ROOT

SECONDS = 1200  # that a build or some tests may take
PYTEST = [sys.executable, "-m", "pytest", "-q", "-x", "-p", "no:cacheprovider", "-m", "not slow"]
LEFT_OUT = shutil.ignore_patterns("__pycache__", ".*", "out")
PAGES = "src/tb_sql/pages/templates/"
LISTED = 'balance(it.ledger) }}</td><td role="cell" class="right" data-label="Debits posted">'
LINE = "{% if it.debit != 0 or it.credit == 0 %}"


@dataclass(frozen=True)
class Bug:
    """A package's file, the text that it has once, the text in its place, and the tests."""

    name: str
    package: str
    file: str
    old: str
    new: str
    tests: str

    @property
    def place(self) -> Path:
        return ROOT / self.package / self.file

    def is_there(self) -> bool:
        """Whether the file has what the bug replaces."""
        return self.new != self.old and self.place.read_text().count(self.old) == 1


def listener(name: str, file: str, old: str, new: str, tests: str) -> Bug:
    return Bug(f"a listener that {name}", "server", f"internal/{file}", old, new, tests)


def page(name: str, file: str, before: str, number: str) -> Bug:
    """One that shows a number of debits where it is, after some text, as that of credits."""
    old = before + "{{ " + number
    new = old.replace("debits_posted", "credits_posted").replace("it.debit ", "it.credit ")
    return Bug(
        f"books: {name} shows debits as credits",
        "apps/books",
        PAGES + file,
        old,
        new,
        "tests/pages/test_views.py",
    )


BUGS = [
    listener(
        "takes any client certificate",
        "tlsfiles/verify.go",
        "\tif err == nil {\n\t\treturn nil\n\t}\n\talert, why",
        "\tif true {\n\t\treturn nil\n\t}\n\talert, why",
        "tests/server/test_tls.py -k right_certificate",
    ),
    listener(
        "takes a client without a certificate",
        "tlsfiles/verify.go",
        "\tif len(state.PeerCertificates) == 0 {\n",
        "\tif len(state.PeerCertificates) == 0 {\n\t\treturn nil\n\t}\n\tif false {\n",
        "tests/server/test_tls.py -k right_certificate",
    ),
    listener(
        "forgets --requests-per-second",
        "shares/shares.go",
        "(time.Duration, string) {\n\tif s.limits.Requests == 0 {\n",
        "(time.Duration, string) {\n\tif true {\n",
        "tests/server/test_shares.py -k requests",
    ),
    listener(
        "forgets --connections-per-peer",
        "shares/shares.go",
        "\tif s.limits.Connections > 0 && s.open[key] >= s.limits.Connections {\n",
        "\tif false {\n",
        "tests/server/test_shares.py -k connections",
    ),
    listener(
        "takes the client ids of another certificate",
        "access/access.go",
        "\tcase upper != client.High:\n",
        "\tcase upper > client.High:\n",
        "tests/server/test_tls.py -k client_ids",
    ),
    page("an account's page", "account.html", "", "account.debits_posted"),
    page("the list of accounts", "accounts.html", LISTED, "it.debits_posted"),
    page("a line of an account", "account.html", LINE, "it.debit "),
    page("a line of a month", "month.html", LINE, "it.debit "),
]


def copied(bug: Bug, top: Path) -> Path:
    """The package in a folder as deep as its own, with the bug, next to what it uses."""
    parts = Path(bug.package).parts
    made = top
    for at, part in enumerate(parts):
        for it in (ROOT.joinpath(*parts[:at])).iterdir():
            if it.name != part:
                (made / it.name).symlink_to(it)
        made = made / part
        if at + 1 < len(parts):
            made.mkdir()
    shutil.copytree(ROOT / bug.package, made, ignore=LEFT_OUT)
    place = made / bug.file
    place.write_text(bug.place.read_text().replace(bug.old, bug.new))
    return made


def found_by(bug: Bug, top: Path) -> list[str]:
    """The tests that fail with a bug."""
    package, env = copied(bug, top), dict(os.environ)
    folder = package
    if bug.package == "server":
        subprocess.run(["./build"], cwd=package, check=True, timeout=SECONDS)
        env["LISTENER"], folder = str(package / "out" / "tb-listen"), ROOT
    words = [*PYTEST, *bug.tests.split(" ")]
    ran = subprocess.run(
        words, cwd=folder, env=env, capture_output=True, text=True, timeout=SECONDS
    )
    print(ran.stdout[-4000:], ran.stderr[-4000:])
    return re.findall(r"^FAILED (\S+)", ran.stdout, re.M) if ran.returncode == 1 else []
