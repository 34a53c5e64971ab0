"""Trials of TLS files that are replaced while a listener serves, by the lines of OPERATING.md."""

import importlib
import importlib.util
import shutil
import socket
import ssl
from pathlib import Path
from typing import Any

from shipping import table

from .installed import check
from .root import Root
from .serving import Listener, page_lines

FOLDER = "/etc/telovamish"
HOST = "localhost"
OPTIONS = (
    *("--certificate", f"{FOLDER}/server.crt", "--key", f"{FOLDER}/server.key"),
    *("--client-ca", f"{FOLDER}/ca.crt"),
)


def certificates(room: Path) -> dict[str, str]:
    """Paths of certificates and keys: two of the server, a client of each of two authorities."""
    path = table.ROOT / "clients/conformance/certificates.py"
    spec = importlib.util.spec_from_file_location("certificates", path)
    assert spec and spec.loader
    module: Any = importlib.util.module_from_spec(spec)
    spec.loader.exec_module(module)
    room.mkdir()
    paths: dict[str, str] = module.made(str(room))
    module.sign(str(room), paths, "renewed", module.HOST, "2")
    module.sign(str(room), paths, "joiner", "extendedKeyUsage=clientAuth", "2", by="other_ca")
    return paths


def context(paths: dict[str, str], client: str) -> ssl.SSLContext:
    made = ssl.create_default_context(cafile=paths["ca"])
    made.load_cert_chain(paths[client], paths[f"{client}_key"])
    return made


def shown(port: int, tls: ssl.SSLContext) -> str:
    """The certificate that a new connection gets."""
    with socket.create_connection((HOST, port), 10) as plain:
        with tls.wrap_socket(plain, server_hostname=HOST) as it:
            return ssl.DER_cert_to_PEM_cert(it.getpeercert(binary_form=True) or b"")


def session(port: int, tls: ssl.SSLContext) -> Any:
    """A session over a new connection. Raises ClientError if this client does not get in."""
    with table.importable():
        client = importlib.import_module("tb_client")
    place = client.Socket((HOST, port), timeout=5, tls=tls)
    return client.Session.register(place, attempts=1)


def gets_in(port: int, tls: ssl.SSLContext) -> bool:
    with table.importable():
        refused = importlib.import_module("tb_client").ClientError
    try:
        session(port, tls).close()
    except refused:
        return False
    return True


def replaced(root: Root, paths: dict[str, str], name: str) -> None:
    """The page's lines, in a folder that has the new files."""
    folder = root.inside("/root/tls")
    folder.mkdir(exist_ok=True)
    shutil.copyfile(paths[name], folder / "new.crt")
    shutil.copyfile(paths[f"{name}_key"], folder / "new.key")
    for it in page_lines("TLS files"):
        root.shell(f"cd /root/tls; {it}")


def authorities(root: Root, paths: dict[str, str], *names: str) -> None:
    """The file of --client-ca, with these authorities."""
    text = "".join(Path(paths[it]).read_text() for it in names)
    root.inside(f"{FOLDER}/ca.crt").write_text(text)


def renewed(root: Root, paths: dict[str, str], served: Listener) -> None:
    """A new certificate is for new connections; the open one goes on."""
    port, tls = int(served.port), context(paths, "client")
    opened = session(port, tls)
    check(shown(port, tls) == Path(paths["server"]).read_text(), "not the first certificate")
    replaced(root, paths, "renewed")
    said = served.reload()
    check("read again" in said, said)
    check(shown(port, tls) == Path(paths["renewed"]).read_text(), "not the new certificate")
    check(opened.lookup_accounts([10**30]) == [], "the open connection has ended")
    root.inside(f"{FOLDER}/server.crt").write_text("no certificate\n")
    said = served.reload()
    check(f"{FOLDER}/server.crt" in said and "old files stay" in said, said)
    check(shown(port, tls) == Path(paths["renewed"]).read_text(), "the old files do not stay")
    check(opened.lookup_accounts([10**30]) == [], "the open connection has ended")
    opened.close()
    replaced(root, paths, "renewed")


def changed(root: Root, paths: dict[str, str], served: Listener) -> None:
    """Another authority: both, then only the new one."""
    port, client, joiner = int(served.port), context(paths, "client"), context(paths, "joiner")
    for names in (("ca",), ("ca", "other_ca"), ("other_ca",)):
        authorities(root, paths, *names)
        said = served.reload()
        check("read again" in said, said)
        found = [gets_in(port, client), gets_in(port, joiner)]
        check(found == ["ca" in names, "other_ca" in names], f"{names}: {found}")


def rotated(root: Root, room: Path) -> None:
    """Certificate, key and authority are replaced while a listener serves."""
    paths = certificates(room / "tls")
    replaced(root, paths, "server")
    authorities(root, paths, "ca")
    served = Listener(root, *OPTIONS)
    try:
        renewed(root, paths, served)
        changed(root, paths, served)
    finally:
        served.stop()
        for name in ("server.crt", "server.key", "ca.crt"):
            root.inside(f"{FOLDER}/{name}").unlink()
