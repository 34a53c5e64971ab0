"""How fast a cluster is, compared with the listener over a ledger in a file and with only the
engine, on the same machine."""

import contextlib
import functools
import json
import os
import statistics
import subprocess
import tempfile
import time

from tb_client import Operation, Transfer
from tb_client.frames import request_frame

from .entries import MOMENT
from .processes import OUT, TOP, Process, appended, free_ports, slowed, until

LISTENER = os.environ.get("LISTENER") or f"{TOP}/server/out/tb-listen"
LOADS = (
    ("24 clients with single transfers", 24, 1),
    ("1 client with single transfers", 1, 1),
    ("1 client with batches of 8190", 1, 8190),
)


@contextlib.contextmanager
def listener(program, sync=0.0, options=()):
    """The port of a listener over tbd, each sync of which takes some seconds more, or over a server
    that keeps its ledger in memory."""
    with tempfile.TemporaryDirectory(prefix="listener-") as folder:
        (port,) = free_ports(1)
        words = [LISTENER, "--tcp", f"127.0.0.1:{port}", *options, "--"]
        keeps = [f"{folder}/ledger.tbk"] if program.name == "tbd" else []
        words = slowed([*words, str(program), "run", *keeps, "64"], sync)
        it = Process("listener", words, folder)
        it.start()
        try:
            until(it.listens, "the listener listens")
            yield port
        finally:
            it.end()


@functools.lru_cache
def load():
    """The clients of bench/listener, which take little time of their own."""
    words = ["go", "build", "-o", f"{OUT}/load", "."]
    subprocess.run(words, cwd=f"{TOP}/bench/listener", check=True, timeout=600)
    return f"{OUT}/load"


def loaded(port, clients, batch, seconds):
    """Transfers in a second, and p50 and p99 of a request in milliseconds."""
    given = ["-workers", clients, "-items", batch, "-seconds", seconds, f"tcp:127.0.0.1:{port}"]
    words = [load(), *map(str, given)]
    ran = subprocess.run(words, capture_output=True, text=True, check=True, timeout=seconds + 120)
    found = json.loads(ran.stdout)
    return batch * found["rate"], found["p50"] / 1000, found["p99"] / 1000


def transfers(name, batch):
    """A batch of a client, as those of `load`. Each transfer has bytes of its own: a log in which
    all are alike would be deflated to next to nothing."""
    made = bytearray()
    for at in range(batch):
        data = int.from_bytes(os.urandom(16), "little")
        made += Transfer(
            name << 64 | at, 1, 2, 1, user_data_128=data, ledger=700, code=10
        ).to_bytes()
    return made


def engine_alone(cluster, clients, batch, seconds):
    """The same of an engine that gets entries of one request of each client, one entry after
    another as a replica appends them, in a log that no replica reads."""
    frames = (
        request_frame(it, 1, 1, Operation.create_transfers, bytes(transfers(it, batch)))
        for it in range(1, clients + 1)
    )
    pairs = b"".join(MOMENT.pack(1) + it for it in frames)
    log = f"{cluster.log()}_alone"
    times = sorted(it / 1000 for it in appended(cluster, log, [pairs], seconds))
    halves = (1000 * times[len(times) * part // 100] for part in (50, 99))
    return clients * batch * len(times) / sum(times), *halves


def sync_alone(folder, count=500):
    """How many milliseconds the disk takes for a write of 4 KiB and its sync (median)."""
    times = []
    with tempfile.TemporaryFile(dir=folder, buffering=0) as file:
        for _ in range(count):
            began = time.monotonic()
            file.write(bytes(4096))
            os.fdatasync(file.fileno())
            times.append(time.monotonic() - began)
    return 1000 * statistics.median(times)


def compared(cluster, seconds, turns, tbd):
    """A line of each load with the rates of a replica, of the listener and of only the engine,
    taken in turns; and the ratio of the first to the second."""
    for name, clients, batch in LOADS:
        with listener(tbd, cluster.sync) as port:
            found = [], [], []
            for _ in range(turns):
                found[0].append(loaded(cluster.tcp[0], clients, batch, seconds))
                found[1].append(loaded(port, clients, batch, seconds))
                found[2].append(engine_alone(cluster, clients, batch, seconds / 3))
        medians = [[statistics.median(it) for it in zip(*rows)] for rows in found]
        yield line(name, clients * batch, *medians), medians[0][0] / medians[1][0]


def line(name, entry, mine, other, engine):
    """The rates, and the replica's compared with the listener's and with one entry of all clients
    after another in the engine's median time; and by how much its p50 is longer than that."""
    said = "{:.0f} transfers/s (p50 {:.2f} ms, p99 {:.2f} ms)".format
    most = 1000 * entry / engine[1]
    return (
        f"{name}: {said(*mine)}; listener {said(*other)}, ratio {mine[0] / other[0]:.2f}; "
        f"engine alone {said(*engine)}, {most:.0f} by its p50, ratio {mine[0] / most:.2f}; "
        f"p50 {mine[1] - engine[1]:.2f} ms above the engine's; load {os.getloadavg()[0]:.1f}"
    )
