"""TLS: who gets in, what the others get, and files that are renewed."""

import contextlib
import json
import resource
import shutil
import signal
import socket
import time

import pytest
import tb_client as tb
from tb_client import Session, Socket

from .wire import UPPER

HOST = "127.0.0.1"


@pytest.fixture
def secure(start, certificates):
    """Starts a listener that lets in only clients with a certificate."""
    return lambda *options: start(*certificates.checked(), *options)


@pytest.fixture
def owned(secure, certificates):
    """The same, and each client has its own ids."""
    return lambda *options: secure("--clients", certificates.clients, *options)


def looks_up(certificates, port):
    with certificates.session(port, "payments") as session:
        assert session.lookup_accounts([1]) == []


def test_money_moves_over_tls(secure, certificates):
    listener = secure()
    looks_up(certificates, listener.address[1])
    assert listener.end() == 0


@pytest.mark.parametrize(
    "name, alert",
    [
        (None, "certificate required"),
        ("gone", "certificate expired"),
        ("forged", "unknown ca"),
    ],
    ids=["none", "gone", "forged"],
)
def test_a_client_without_a_right_certificate(secure, certificates, name, alert):
    """TLS's own alert names the reason. The client gets it at once, and does not try on and on."""
    listener = secure()
    place, tls = ("localhost", listener.address[1]), certificates.context(name)
    with tb.ClientSync(0, place, tls=tls, timeout=30) as client:
        with pytest.raises(tb.CannotConnect, match=f"refuses this client: {alert}"):
            client.lookup_accounts([1])
    assert listener.end() == 0
    assert any("TLS: " in line for line in listener.lines), listener.lines


def test_a_client_without_tls(secure):
    listener = secure()
    with Socket(("localhost", listener.address[1]), timeout=2) as plain:
        with pytest.raises(tb.ClientError):
            Session.register(plain, attempts=1)
    assert listener.end() == 0
    assert any("TLS: " in line for line in listener.lines), listener.lines


def test_client_ids_of_a_certificate(owned, certificates):
    port = owned().address[1]
    for name, client in (("payments", UPPER + 7), ("billing", 2 * UPPER + 7)):
        with certificates.session(port, name, client) as session:
            session.lookup_accounts([1])


@pytest.mark.parametrize(
    "name, client",
    [
        ("payments", 2 * UPPER + 7),
        ("payments", 7),
        ("billing", UPPER + 7),
        ("billing", 3 * UPPER),
    ],
)
def test_client_ids_of_another_certificate(owned, certificates, name, client):
    assert "ClientNotAllowed" in certificates.fault(owned().address[1], name, client)


def test_a_certificate_that_is_not_in_the_file(owned, certificates):
    fault = certificates.fault(owned().address[1], "client", UPPER + 7)
    assert fault.endswith(": NotAllowed")


def test_lines_on_clients_that_were_refused(launch, certificates):
    """Each has the client's address, and the name of its certificate."""
    words = [*certificates.checked(), "--clients", certificates.clients, "--log-json"]
    listener = launch(*words)
    port = int(json.loads(listener.line_with("listens on"))["text"].rpartition(":")[2])
    for name, client in (("gone", 1), ("client", 1), ("billing", UPPER)):
        certificates.fault(port, name, client)
    assert listener.end() == 0
    begin = next(at for at, line in enumerate(listener.lines) if "listens on" in line)
    *lines, stop = map(json.loads, listener.lines[begin + 1 :])
    wanted = ["TLS: certificate has expired", "NotAllowed", "ClientNotAllowed"]
    assert [it["text"].partition(": ")[2] for it in lines] == wanted
    assert "has stopped: Stopping; " in stop["text"]
    for it, name in zip(lines, ("", " (client)", " (billing)")):
        place, space, shown = it["peer"].partition(" ")
        host, _, port = place.partition(":")
        assert (host, port.isdigit(), space + shown) == (HOST, True, name)


def test_a_stolen_session(owned, certificates, folder):
    """A saved session is of no use to a client to which its id does not belong."""
    port, kept = owned().address[1], str(folder / "session.json")
    with certificates.session(port, "payments", UPPER + 9) as session:
        session.save(kept)
    tls = certificates.context("billing")
    thief = Session.load(Socket(("localhost", port), tls=tls), kept)
    with thief, pytest.raises(tb.ReplyLost, match="ClientNotAllowed"):
        thief.lookup_accounts([1])


def test_connections_that_do_not_begin_with_tls(secure, certificates):
    """They keep no client out."""
    listener = secure("--connections", "4")
    port = listener.address[1]
    with contextlib.ExitStack() as silent:
        for _ in range(12):
            silent.enter_context(socket.create_connection((HOST, port)))
        time.sleep(0.2)
        looks_up(certificates, port)
    looks_up(certificates, port)
    assert listener.end() == 0
    assert "a connection is closed: TLS: others came while it agreed" in "".join(listener.lines)


def test_many_connections_at_once(secure, certificates):
    """No more files are open than the limit on connections asks for, and clients are served
    meanwhile."""
    listener = secure("--connections", "8")
    port, files = listener.address[1], 3 * 8 + 64
    resource.prlimit(listener.process.pid, resource.RLIMIT_NOFILE, (files, files))
    with contextlib.ExitStack() as silent:
        listener.process.send_signal(signal.SIGSTOP)
        for _ in range(400):
            silent.enter_context(socket.create_connection((HOST, port)))
        listener.process.send_signal(signal.SIGCONT)
        looks_up(certificates, port)
    assert listener.end() == 0
    assert "no more connections are taken" not in "".join(listener.lines)


@pytest.mark.slow(reason="waits the ten seconds that an agreement on TLS may take", seconds=11)
def test_a_client_that_does_not_agree_in_time(start, certificates):
    """A line says why it gets no connection."""
    listener = start(*certificates.server())
    with socket.create_connection((HOST, listener.address[1])):
        assert "TLS: no agreement within 10 s" in listener.line()
    assert listener.end() == 0


# Files that are renewed


@pytest.fixture
def renewed(start, certificates, folder):
    """A listener over files of its own, and their paths."""
    names = ("server", "server_key", "ca")
    paths = {it: shutil.copy(certificates[it], folder / it) for it in names}
    paths["clients"] = shutil.copy(certificates.clients, folder / "clients")
    words = ["--certificate", paths["server"], "--key", paths["server_key"]]
    words += ["--client-ca", paths["ca"], "--clients", paths["clients"]]
    return start("--tcp", "127.0.0.1:0", *words), paths


def hang_up(listener):
    """Sends SIGHUP, and returns the line that answers it."""
    listener.process.send_signal(signal.SIGHUP)
    return listener.line_with("SIGHUP: ")


def test_a_wrong_file_at_a_hangup(renewed, certificates):
    """All old files stay in use."""
    listener, paths = renewed
    port = listener.address[1]
    with certificates.session(port, "payments", UPPER + 7) as session:
        paths["server"].write_text("no certificate")
        paths["clients"].write_text("certificate billing 2\ncertificate forged 3\n")
        line = hang_up(listener)
        assert f"SIGHUP: {paths['server']} and {paths['server_key']}: " in line
        assert "; the old files stay in use" in line
        assert session.lookup_accounts([1]) == []
    fault = certificates.fault(port, "forged", 3 * UPPER)
    assert "refuses this client: unknown ca" in fault
    assert listener.end() == 0


def test_files_that_are_renewed(renewed, certificates):
    """New connections get the new certificate, and the file of client ids is that of each next
    request."""
    listener, paths = renewed
    port = listener.address[1]
    with certificates.session(port, "payments", UPPER + 7) as session:
        paths["clients"].write_text("certificate billing 2\ncertificate forged 3\n")
        shutil.copy(certificates["stranger"], paths["server"])
        shutil.copy(certificates["stranger_key"], paths["server_key"])
        shutil.copy(certificates["other_ca"], paths["ca"])
        assert "SIGHUP: the files are read again" in hang_up(listener)
        with pytest.raises(tb.ReplyLost, match="NotAllowed"):
            session.lookup_accounts([1])
    tls = certificates.context("forged", "other_ca")
    it = Socket(("localhost", port), tls=tls)
    with Session.register(it, 3 * UPPER + 7) as session:
        assert session.lookup_accounts([1]) == []
    assert listener.end() == 0
