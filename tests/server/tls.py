"""Certificates for one run of the tests, made by openssl, and clients that have one."""

from __future__ import annotations

import ssl
import sys
from pathlib import Path
from typing import Optional

import pytest
import tb_client as tb
from tb_client import Session, Socket

from ..conftest import ROOT

sys.path.append(str(ROOT / "clients" / "conformance"))
import certificates  # noqa: E402

EXTENSION = "extendedKeyUsage=clientAuth"
KINDS = (  # name, days that it is valid, authority
    ("payments", "2", "ca"),
    ("billing", "2", "ca"),
    ("gone", None, "ca"),
    ("forged", "2", "other_ca"),
)


class Certificates:
    """Files of a server, of its authority and of clients, and who has which client ids."""

    def __init__(self, folder: Path) -> None:
        self.paths = certificates.made(str(folder))
        if not self.paths:
            pytest.fail("openssl is needed")
        for name, days, by in KINDS:
            certificates.sign(str(folder), self.paths, name, EXTENSION, days, by)
        self.clients = folder / "clients"
        self.clients.write_text("certificate payments 1  # the first\n\ncertificate billing 0x2\n")

    def __getitem__(self, name: str) -> str:
        return str(self.paths[name])

    def server(self) -> list[str]:
        """The options of a listener over TLS."""
        words = ["--certificate", self["server"], "--key", self["server_key"]]
        return ["--tcp", "127.0.0.1:0", *words]

    def checked(self) -> list[str]:
        """The options of a listener that lets in only clients with a certificate."""
        return [*self.server(), "--client-ca", self["ca"]]

    def context(self, name: Optional[str] = None, authority: str = "ca") -> ssl.SSLContext:
        """How a client uses TLS: with this certificate, or without one."""
        context = ssl.create_default_context(cafile=self[authority])
        if name:
            context.load_cert_chain(self[name], self[f"{name}_key"])
        return context

    def session(self, port: int, name: str, client: Optional[int] = None) -> Session:
        return Session.register(Socket(("localhost", port), tls=self.context(name)), client)

    def fault(self, port: int, name: Optional[str], client: Optional[int] = None) -> str:
        """What a client gets that registers."""
        it = Socket(("localhost", port), timeout=5, tls=self.context(name))
        with it, pytest.raises(tb.ClientError) as met:
            Session.register(it, client, attempts=1)
        return str(met.value)
