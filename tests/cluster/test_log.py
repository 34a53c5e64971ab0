"""The log and its copies: trimmed amid faults, full, torn, damaged, behind TLS, in PostgreSQL."""

import os
import signal
import time

import pytest

from . import agreement, rot
from .closed import Closed
from .ends import agreed
from .faults import Faults, last
from .processes import Postgres, until
from .traffic import Traffic

pytestmark = pytest.mark.slow(reason="clusters over etcd and PostgreSQL", seconds=120)
TRIMMED, DAMAGED, FULL = 21, 24, 26


def moving(cluster, clients=4, **how):
    traffic = Traffic(cluster.tcp, clients, **how)
    traffic.open_accounts()
    traffic.start()
    return traffic


@pytest.mark.needs_etcd
def test_trim_amid_faults(cluster_of, given):
    cluster = cluster_of()
    traffic, faults = moving(cluster, 12, pause=0.05, spread=True), Faults(cluster, given.seed)
    trims = []
    for kind in ("replica killed", "leader killed", "links of a replica cut"):
        cluster.until_reported()
        faults.one(kind)
        trims.append(cluster.part("trim", "--log", cluster.log()))
    assert not any(status for status, _ in trims), trims
    assert any("are removed" in said for _, said in trims), trims
    assert agreement.is_gone(cluster, 0), "the log still has its beginning"
    assert agreement.is_kept(cluster, cluster.copy(0)), "the log lacks what was not trimmed"
    comes_too_late(cluster)
    agreed(cluster, traffic, is_trimmed=True)


def comes_too_late(cluster):
    """A replica without a copy comes too late, and goes on with a peer's."""
    late = cluster.replicas[2]
    late.kill()
    os.rename(cluster.copy(2), cluster.copy(2) + ".lost")
    late.start()
    assert late.ended() == TRIMMED, last(late)
    os.rename(cluster.copy(2), cluster.copy(2) + ".empty")
    status, said = cluster.part("copy-from", cluster.copy(0), "--copy", cluster.copy(2))
    assert status == 0, said
    late.start()
    cluster.until_listens(2)


@pytest.mark.needs_etcd
def test_copies_torn_and_damaged(cluster_of):
    cluster = cluster_of()
    traffic = moving(cluster, pause=0.05)
    time.sleep(5)
    torn, damaged = cluster.replicas[2], cluster.replicas[1]
    for it in (torn, damaged):
        assert it.end() == 0, last(it)
    with open(f"{cluster.copy(2)}/log", "ab") as file:
        file.write(b"\x01" * 30)
    torn.start()
    cluster.until_listens(2)
    assert "30 bytes that a crash left torn" in torn.said()
    path, at = f"{cluster.copy(1)}/log", 200
    rot.flip(path, at)
    damaged.start()
    assert damaged.ended() == DAMAGED, last(damaged)
    rot.flip(path, at)
    damaged.start()
    cluster.until_listens(1)
    agreed(cluster, traffic)


@pytest.mark.needs_etcd
def test_engine_restored_from_a_backup(cluster_of):
    """The log lacks what was acknowledged since then. A new one is made of the longest copy."""
    cluster = cluster_of()
    traffic = moving(cluster, pause=0.02, spread=True)
    until(lambda: traffic.made > 200, "transfers")
    cluster.swap_data("backup")
    before = traffic.made
    until(lambda: traffic.made > before + 200, "more transfers")
    cluster.swap_data("lost", "backup")
    ended = (22, 25)  # Diverged, BadEntry
    until(lambda: any(it.process.poll() in ended for it in cluster.replicas), "one is found")
    for it in cluster.replicas:
        it.kill()
    copies = [f"{cluster.copy(at)}.kept" for at in range(cluster.count)]
    for at, it in enumerate(copies):
        os.rename(cluster.copy(at), it)
    longest = max(copies, key=lambda it: os.path.getsize(f"{it}/log"))
    for status in (0, 1):  # the second time there is a log
        log = cluster.log().replace("/bank", "/bank2")
        found, said = cluster.part("restore", "--log", log, "--copy", longest)
        assert found == status, said
    for it in cluster.replicas:
        it.words = [word.replace("/bank", "/bank2") for word in it.words]
        it.start()
    for at in range(cluster.count):
        cluster.until_listens(at)
    before = traffic.made
    until(lambda: traffic.made > before + 50, "transfers go on")
    agreed(cluster, traffic, is_trimmed=True)


@pytest.mark.needs_etcd
def test_full(cluster_of):
    """etcd's quota is used up, and the log is trimmed."""
    cluster = cluster_of(quota=6 << 20)
    traffic = moving(cluster, batch=2000)
    until(lambda: "LogFull" in "".join(it.said() for it in cluster.replicas), "LogFull")
    status, said = cluster.part("status", "--log", cluster.log())
    assert status == FULL, said
    third = cluster.replicas[2]
    third.kill()
    third.start()
    until(lambda: "waits: LogFull" in third.said(third.since), "a start says why it waits")
    status, said = cluster.part("trim", "--log", cluster.log())
    assert status == 0 and "still full" not in said, said
    cluster.until_listens(2)
    before = traffic.made
    until(lambda: traffic.made > before, "transfers go on")
    traffic.stop.set()
    until(lambda: is_free(cluster), "the log has room")  # it may be full again
    agreed(cluster, traffic, is_trimmed=True)


def is_free(cluster):
    """Whether the log has room after another trim."""
    cluster.part("trim", "--log", cluster.log())
    return cluster.part("status", "--log", cluster.log())[0] == 0


@pytest.mark.needs_etcd
def test_tls_and_passwords(cluster_of, given):
    """etcd and the replicas speak TLS and require certificates; etcd requires a password too."""
    cluster = cluster_of(kind=Closed)
    traffic = moving(cluster, pause=0.05, spread=True, tls=cluster.context())
    faults = Faults(cluster, given.seed)
    for kind in ("leader killed", "links of a replica cut", "follower killed"):
        faults.one(kind)
        time.sleep(3)
    log = ("--log", cluster.log())
    root = (*cluster.files(), *cluster.user("root"), *log)
    cluster.until_reported(*root[:-2])
    status, said = cluster.part("status", *root)
    assert status == 0 and said.count("replica r") == 3, said
    for words in (
        (*cluster.user(), *log),
        (*cluster.files(), *log),
        (*cluster.files(), *cluster.user(password="names"), *log),
    ):
        status, said = cluster.part("status", *words)
        assert status in (1, 20), said
    agreed(cluster, traffic)
    status, said = cluster.part("trim", *root)
    assert status == 0, said


@pytest.mark.needs_postgresql
def test_postgresql(cluster_of, given):
    """The log is in PostgreSQL, with one standby."""
    cluster = cluster_of(kind=Postgres)
    traffic, faults = moving(cluster, 12, pause=0.05, spread=True), Faults(cluster, given.seed)
    primary, standby = cluster.nodes
    for process in (cluster.replicas[0], standby, primary, cluster.replicas[1], standby):
        time.sleep(2)
        faults.kill(process)
    rows_without_a_standby(cluster, traffic)
    before = traffic.made
    until(lambda: traffic.made > before, "transfers go on")
    words = ("--log-user", "postgres", "--log", cluster.log())
    cluster.until_reported(*words[:2])
    status, said = cluster.part("status", *words)
    assert status == 0 and said.count("replica r") == 3, said
    agreed(cluster, traffic)
    status, said = cluster.part("trim", *words)
    assert status == 0, said


def rows_without_a_standby(cluster, traffic):
    """A wait for the standby is cancelled: the primary then shows rows that only it has. They must
    not be returned before the standby has them."""
    standby = cluster.nodes[1]
    until(cluster.is_streaming, "the standby streams")
    standby.send(signal.SIGSTOP)
    standby.signal_server(signal.SIGSTOP)
    time.sleep(2)
    made, rows = traffic.made, len(cluster.script())
    for _ in range(30):
        cluster.cancel_waits()
        time.sleep(0.1)
    shown, answered = len(cluster.script()), traffic.made - made
    standby.send(signal.SIGCONT)
    standby.signal_server(signal.SIGCONT)
    assert shown > rows, "no row without a standby is visible"
    assert answered == 0, f"{answered} of them are answered"
