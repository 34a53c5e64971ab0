"""The server of the pages: who may read them, ports, stalled readers, its own faults."""

import contextlib
import errno
import logging
import socket
import subprocess
import threading
import time
import urllib.request

import pytest

from helpers.cases import case
from helpers.histories import history
from helpers.made import Made
from helpers.pages import HERE
from helpers.tables import COMMAND
from tb_sql.pages import queries, server
from tb_sql.pages.site import Site

SECONDS = 240  # on a busy machine: a table of 300,000 rows is written as CSV


@pytest.mark.parametrize("kind", [TypeError, ValueError, OverflowError])
def test_a_fault_of_a_page_itself(pages, monkeypatch, caplog, kind):
    """It is named as one, and is logged: it was named as a wrong value in a row."""

    def failing(*_):
        raise kind("it")

    pages.load(history())
    monkeypatch.setattr(queries.Tables, "refusals", failing)
    with caplog.at_level(logging.ERROR, "tb_sql.pages.server"):
        said = pages.words("/refusals", 500)
    assert "Internal Server Error" in said
    assert "A value that no table has" not in said
    assert f"{kind.__name__}: it" in caplog.text


def test_a_port_that_is_taken(pages):
    pages.load(Made())
    with socket.create_server(("127.0.0.1", 0)) as other:
        port = other.getsockname()[1]
        status, _, said = pages.command("serve", pages.path, "--port", str(port))
    wanted = f"tb-sql: port {port} of 127.0.0.1 is taken: choose another one by --port\n"
    assert (status, said) == (1, wanted)


def test_a_port_that_is_not_allowed(pages, monkeypatch):
    def failing(*_):
        raise PermissionError(errno.EACCES, "Permission denied")

    pages.load(Made())
    monkeypatch.setattr("socket.socket.bind", failing)
    status, _, said = pages.said("serve", pages.path, "--port", "80")
    assert (status, said) == (1, "tb-sql: port 80 of 127.0.0.1: Permission denied\n")


@pytest.fixture
def port():
    """A port that is given to nobody else."""
    with socket.socket() as held:
        held.setsockopt(socket.SOL_SOCKET, socket.SO_REUSEADDR, 1)
        held.bind(("127.0.0.1", 0))
        yield held.getsockname()[1]


def test_without_standard_output(pages, port):
    """It serves, and ends at a signal without a word."""
    pages.load(Made())
    words = " ".join([*COMMAND, "serve", pages.path, "--port", str(port)])
    with subprocess.Popen(["sh", "-c", f"exec {words} >&-"], stderr=subprocess.PIPE) as process:
        is_served, deadline = False, time.monotonic() + SECONDS
        while not is_served and time.monotonic() < deadline:
            with contextlib.suppress(OSError):
                urllib.request.urlopen(f"http://127.0.0.1:{port}/", timeout=SECONDS).close()
                is_served = True
            time.sleep(0.02)
        process.terminate()
        assert (process.wait(SECONDS), process.stderr.read()) == (0, b"")
    assert is_served, "a signal before the first reply is of test_early.py"


class Served:
    """A server of pages in this process, and the connections to it."""

    def __init__(self, path):
        listening = server.listen(0)
        self.port = listening.getsockname()[1]
        self.server = server.make_server(Site(path), listening)
        self.thread = threading.Thread(target=self.server.run)
        self.thread.start()
        self.connections = []

    def sent(self, data):
        """A connection to which this was sent."""
        connection = socket.create_connection(("127.0.0.1", self.port), timeout=SECONDS)
        self.connections.append(connection)
        connection.sendall(data)
        return connection

    def close(self):
        for it in self.connections:
            it.close()
        self.server.close()
        self.thread.join()


@pytest.fixture
def served(pages, monkeypatch):
    """One that is patient for a second, and takes eight connections."""
    pages.load(Made())
    monkeypatch.setattr(server, "PATIENCE", 1)
    monkeypatch.setattr(server, "CONNECTIONS", 8)
    it = Served(pages.path)
    yield it
    it.close()


@pytest.mark.parametrize("data", [b"", b"GET / HTTP/1.1\r\nHost: localhost\r\n"], ids=case)
def test_half_a_request(served, data):
    """Who neither sends nor reads is left after a while."""
    assert served.sent(data).recv(1) == b""


def test_a_table_that_nobody_reads(pages, served):
    """Its rows are not held for it, nor the WAL."""
    pages.change(
        "WITH RECURSIVE at(n) AS (SELECT 1 UNION ALL SELECT n + 1 FROM at WHERE n < 300000)"
        " INSERT INTO postings SELECT 1, n, n, n, 2, 1, 0, n, 0, n FROM at"
    )
    connection = served.sent(b"GET /csv/postings.csv HTTP/1.1\r\nHost: localhost\r\n\r\n")
    assert connection.recv(8) == b"HTTP/1.1"
    pages.change("UPDATE position SET time = time + 1")
    deadline = time.monotonic() + SECONDS
    while pages.rows("PRAGMA wal_checkpoint(TRUNCATE)")[0][0] == 1:
        assert time.monotonic() < deadline, "the rows are still held"
        time.sleep(0.1)


def test_bounds_of_threads_and_connections(served):
    """Others wait: no request is served beyond them, and no request is lost."""
    before = threading.active_count()
    held = [served.sent(b"GET / HTTP/1.1\r\n") for _ in range(12)]
    deadline = time.monotonic() + SECONDS
    while len(served.server.active_channels) < 5 and time.monotonic() < deadline:
        time.sleep(0.02)
    assert threading.active_count() <= before + server.THREADS
    assert 5 <= len(served.server.active_channels) <= 8
    last = served.sent(b"GET /pending HTTP/1.1\r\nHost: localhost\r\nConnection: close\r\n\r\n")
    assert last.recv(15) == b"HTTP/1.1 200 OK"
    del held


@pytest.mark.parametrize("method", ["post", "put", "delete"])
def test_other_methods(pages, method):
    pages.load(Made())
    reply = getattr(pages.site, method)("/", base_url=HERE)
    assert reply.status_code == 405


@pytest.mark.parametrize("host", ["localhost", "localhost:1", "127.0.0.1:2", "[::1]", "[::1]:3"])
def test_this_host(pages, host):
    pages.load(Made())
    pages.get("/", base_url=f"http://{host}")


@pytest.mark.parametrize(
    "host",
    [
        "ledger.example",
        "127.0.0.1.example:80",
        "localhost.example",
        "10.0.0.1",
        "user@localhost",
        "ledger.example@127.0.0.1:8642",
        "localhost:1@x",
        "",
        "a:b:1",
    ],
)
def test_another_host(pages, host):
    pages.load(Made())
    pages.get("/", 403, headers={"Host": host})


def test_headers(pages):
    pages.load(Made())
    headers = pages.site.get("/", base_url=HERE).headers
    assert "default-src 'none'" in headers["Content-Security-Policy"]
    assert "unsafe" not in headers["Content-Security-Policy"]
    assert headers["X-Content-Type-Options"] == "nosniff"
