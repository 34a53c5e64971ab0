"""A listener with a ledger in a file, over a port or a socket of its own."""
from __future__ import annotations

import contextlib
import re
import subprocess
import sys
from typing import Iterator

from conftest import APP

UPPER = 1 << 64  # a client id's upper half
LISTENER = APP.parent.parent / "server" / "out" / "tb-listen"
sys.path.append(str(APP.parent.parent / "clients" / "conformance"))

import certificates  # noqa: E402


@contextlib.contextmanager
def listening(tbd: str, folder, *options: str) -> Iterator[str]:
    """A listener on a port of this machine: the port's number."""
    words = [str(LISTENER), "--tcp", "127.0.0.1:0", *options]
    words += ["--", tbd, "run", str(folder / "ledger.tbk"), "4"]
    with subprocess.Popen(words, stderr=subprocess.PIPE, text=True) as it:
        try:
            said = it.stderr.readline()
            while not (port := re.search(r"listens on .*:([0-9]+)\n", said)):
                assert said, "the listener ended"
                said = it.stderr.readline()
            yield port[1]
        finally:
            it.terminate()
            it.communicate(timeout=30)


def certificates_in(folder):
    """Certificates by name: of a server, and of two clients."""
    paths = certificates.made(str(folder))
    for name in ("payments", "billing"):
        certificates.sign(str(folder), paths, name, "extendedKeyUsage=clientAuth", "2", "ca")
    return paths
