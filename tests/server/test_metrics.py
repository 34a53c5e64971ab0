"""The page of metrics, for Prometheus."""

import contextlib
import socket
import time
import urllib.request

import pytest

from .running import ended, until
from .wire import RESET, has_ipv6, held_port

HOSTS = ["127.0.0.1", *(["::1"] if has_ipv6() else [])]
WANTED = [
    "tb_commits_total 2.0",
    "tb_syncs_total 4.0",
    'tb_requests_total{operation="register",status="Reply"} 1.0',
    'tb_request_seconds_bucket{le="+Inf"} 2.0',
    "tb_ready 1.0",
    "tb_evictions_total 0.0",
]


@pytest.fixture(params=HOSTS)
def place(request):
    """An address for the page that no other program gets."""
    with held_port(request.param) as port:
        yield request.param, port


def text_of(host, port):
    return f"[{host}]:{port}" if ":" in host else f"{host}:{port}"


def page(place):
    with urllib.request.urlopen(f"http://{place}/metrics", timeout=120) as it:
        return it.read().decode()


def samples(text):
    """The page's numbers by name and labels, without the ways in which a number may be written."""
    lines = [it for it in text.splitlines() if it and not it.startswith("#")]
    return {name: float(value) for name, _, value in (it.rpartition(" ") for it in lines)}


def test_metrics(start, place):
    listener = start("--metrics", text_of(*place))
    with listener.session() as session:
        session.lookup_accounts([1])
    wanted = samples("\n".join(WANTED))
    # the system counts what a process wrote a moment after that
    until(lambda: samples(page(text_of(*place)))["tb_commits_total"] == 2)
    found = samples(page(text_of(*place)))
    assert {name: found.get(name) for name in wanted} == wanted
    assert listener.end() == 0
    assert len(listener.lines) == 1, listener.lines


def test_a_port_that_is_in_use(folder, place):
    family = socket.AF_INET6 if ":" in place[0] else socket.AF_INET
    with socket.socket(family) as other:
        other.setsockopt(socket.SOL_SOCKET, socket.SO_REUSEADDR, 1)
        other.bind(place)
        other.listen()
        no_page_at(folder, text_of(*place), "Address already in use")


def test_a_name_that_is_too_long(folder):
    no_page_at(folder, f"{'x' * 64}.example:1", "is no name of a place")


def no_page_at(folder, place, why):
    found = ended("--unix", folder / "it", "--metrics", place)
    assert found == (1, f"tb_listen: {place}: {why}")


@pytest.fixture
def busy(start):
    with held_port() as port:
        yield start("--metrics", f"127.0.0.1:{port}"), ("127.0.0.1", port)


def test_connections_that_read_no_metrics(busy):
    """They take few files, and one that breaks off prints nothing."""
    listener, place = busy
    with contextlib.ExitStack() as held:
        with socket.create_connection(place) as it:
            it.sendall(b"GET / HT")
            it.setsockopt(socket.SOL_SOCKET, socket.SO_LINGER, RESET)
        for _ in range(100):
            held.enter_context(socket.create_connection(place))
        time.sleep(0.5)
        assert listener.files() < 50
        assert listener.end() == 0
    assert len(listener.lines) == 1, listener.lines


def test_a_reader_for_whom_there_is_no_file(busy):
    """It is served later, and takes no CPU time meanwhile."""
    listener, place = busy
    with listener.no_more_files():
        with socket.create_connection(place) as it:
            time.sleep(0.5)
            before = listener.cpu_seconds()
            time.sleep(1.5)
            assert listener.cpu_seconds() - before < 0.3
            it.sendall(b"GET /metrics HTTP/1.0\r\n\r\n")
    assert "tb_ready" in page("127.0.0.1:{1}".format(*place))
