"""Tenants of a listener keep most of their rate next to a thousand hostile peers."""

import contextlib
import os
import statistics
import subprocess
import sys
import threading
import time
from pathlib import Path

import pytest
import tb_client as tb

from ..conftest import ROOT
from .running import until
from .wire import UPPER, account, in_threads, transfer

HOSTILE = str(Path(__file__).parent / "hostile.py")
TENANTS, PEERS = 8, 1000
TURNS, SECONDS = 5, 4.0
KEPT = 0.7  # of their rate
OPTIONS = ("--connections", "1500", "--connections-per-peer", "450", "--slow", "5")


class Tenants:
    """Sessions of one peer that move money all the time."""

    def __init__(self, port, certificates):
        self.done, self.counts, self.waits = threading.Event(), [0] * TENANTS, []
        self.port, self.certificates = port, certificates

    def work(self, number):
        client = UPPER + 100 + number
        with self.certificates.session(self.port, "payments", client) as session:
            while not self.done.is_set():
                began = time.monotonic()
                tb.require_ok(session.create_transfers([transfer(tb.id(), 1, 2, 1)]))
                self.waits.append(time.monotonic() - began)
                self.counts[number] += 1

    def rate(self):
        """Transfers a second, of some seconds."""
        before = sum(self.counts)
        time.sleep(SECONDS)
        return (sum(self.counts) - before) / SECONDS


@contextlib.contextmanager
def hostile(port, certificates, count):
    words = [str(port), str(count), certificates["ca"]]
    words += [certificates["billing"], certificates["billing_key"]]
    env = {**os.environ, "PYTHONPATH": str(ROOT / "clients/python/src")}
    it = subprocess.Popen([sys.executable, HOSTILE, *words], env=env, stdout=subprocess.PIPE)
    try:
        it.stdout.readline()  # all have begun
        it.stdout.readline()
        yield it
    finally:
        it.kill()
        it.wait()
        it.stdout.close()


def measured(listener, certificates, show):
    """What the tenants made, and which part of their rate they keep: the median of all turns."""
    port, alone, next_to, cpu = listener.address[1], [], [], []
    tenants = Tenants(port, certificates)

    def measure():
        try:
            tenants.rate()  # all have begun
            for _ in range(TURNS):
                alone.append(tenants.rate())
                with hostile(port, certificates, PEERS):
                    before = listener.cpu_seconds()
                    next_to.append(tenants.rate())
                    cpu.append((listener.cpu_seconds() - before) / SECONDS)
        finally:
            tenants.done.set()

    works = [lambda at=at: tenants.work(at) for at in range(TENANTS)]
    in_threads(TENANTS + 1, lambda at: measure() if at == TENANTS else works[at]())
    longest = max(tenants.waits)
    show(f"{alone} a second, and {next_to} next to {PEERS} peers; the longest wait {longest:.2f} s")
    show(f"CPU time of the listener meanwhile {statistics.median(cpu):.2f} of a core")
    return tenants, statistics.median(b / a for a, b in zip(alone, next_to))


@pytest.mark.slow(reason="measures rates next to a thousand hostile peers", seconds=60)
def test_tenants_next_to_hostile_peers(start, certificates, capsys):
    """Each transfer is made once, and nothing of the peers stays when they are gone."""

    def show(line):
        with capsys.disabled():
            print(f"\n{line}")

    listener = start(*certificates.checked(), "--clients", certificates.clients, *OPTIONS)
    port, files = listener.address[1], listener.files()
    with certificates.session(port, "payments", UPPER + 1) as session:
        tb.require_ok(session.create_accounts([account(1), account(2)]))
        tenants, kept = measured(listener, certificates, show)
        assert session.lookup_accounts([2])[0].credits_posted == sum(tenants.counts)
    until(lambda: listener.files() <= files, 60)
    assert kept >= KEPT
    assert listener.end() == 0
