"""A log that grows, and machines that come and go: each recipe of docs/use/CLUSTER.md, Care, tried
under load, with its times.

`--requests N` is how many are put into the log before a replica starts over them (100,000).
"""

import os
import shutil
import time

import pytest

from .ends import agreed
from .faults import last
from .filled import fill
from .processes import free_ports, until
from .traffic import Traffic, posted_at

pytestmark = [
    pytest.mark.slow(reason="clusters that grow under load", seconds=120),
    pytest.mark.needs_etcd,
]


class Timed:
    """How long something took, and how long a client waited meanwhile."""

    def __init__(self, show, traffic=None):
        self.show, self.traffic, self.began = show, traffic, time.monotonic()

    def done(self, said):
        now = time.monotonic()
        line = f"{said}: {now - self.began:.1f} s"
        if self.traffic:
            waited = max(self.traffic.waits_between(self.began, now))
            line += f", a client waited {waited:.2f} s at most"
        self.show(f"{line} (load {os.getloadavg()[0]:.0f})")
        self.began = time.monotonic()


def moving(cluster, clients=6, wanted=50):
    traffic = Traffic(cluster.tcp, clients, pause=0.02, spread=True)
    traffic.open_accounts()
    traffic.start()
    until(lambda: traffic.made > wanted, "transfers")
    return traffic


def test_start_over_many_requests(cluster_of, given, show):
    """A replica without a copy reads all, and one with a copy too: its server replies to all."""
    cluster = cluster_of(is_linked=False, keeps_replies=False)
    Traffic(cluster.tcp, 1).open_accounts()
    cluster.replicas[0].end()
    timed = Timed(show)
    count = fill_by(cluster, given.requests)
    timed.done(f"{given.requests} requests appended in {count} entries")
    for said in ("without a copy", "with its copy"):
        timed = Timed(show)
        cluster.replicas[0].start()
        cluster.until_listens(0)
        assert posted_at(cluster.tcp[0]) == given.requests
        timed.done(f"a start over {given.requests} requests {said}, until it answers")
        show(f"{cluster.replicas[0].memory():.0f} MB, without its server")
        cluster.replicas[0].end(120)


def fill_by(cluster, requests):
    """Fills by the replicas that run."""
    ports, cluster.tcp = cluster.tcp, cluster.tcp[1:]
    try:
        return fill(cluster, requests)
    finally:
        cluster.tcp = ports


def test_trim_amid_load(cluster_of, show):
    """The log is trimmed while money moves, and a replica starts after that."""
    cluster = cluster_of()
    traffic = moving(cluster, 12, 500)
    cluster.until_reported()
    timed = Timed(show, traffic)
    status, said = cluster.part("trim", "--log", cluster.log())
    timed.done("trim")
    assert status == 0 and "are removed" in said, said
    cluster.replicas[1].kill()
    cluster.replicas[1].start()
    cluster.until_listens(1)
    timed.done("a start after the trim")
    agreed(cluster, traffic, is_trimmed=True)


def test_fourth_machine(cluster_of, show):
    """Another replica joins: with an empty folder, and after a trim with a peer's copy."""
    cluster = cluster_of()
    traffic = moving(cluster)
    timed = Timed(show, traffic)
    join(cluster)
    cluster.until_listens(3)
    timed.done("a fourth replica serves, of an empty folder")
    cluster.until_reported()
    status, said = cluster.part("status", "--log", cluster.log())
    assert status == 0 and said.count("replica r") == 4, said
    leave(cluster, 3)
    status, said = cluster.part("trim", "--log", cluster.log(), "--forget", "r3")
    assert status == 0, said
    timed = Timed(show, traffic)
    shutil.rmtree(cluster.copy(3))
    status, said = cluster.part("copy-from", cluster.copy(0), "--copy", cluster.copy(3))
    assert status == 0, said
    cluster.replicas[3].start()
    cluster.until_listens(3)
    timed.done("a fourth replica serves, of a peer's copy")
    agreed(cluster, traffic, is_trimmed=True)


def join(cluster):
    """Starts one more replica."""
    cluster.count += 1
    cluster.tcp += free_ports(1)
    cluster.ways.append(cluster.serves)
    cluster.replicas.append(cluster.replica(cluster.count - 1))
    cluster.replicas[-1].start()


def leave(cluster, at):
    assert cluster.replicas[at].end() == 0, last(cluster.replicas[at])


def test_replaced_machine(cluster_of, show):
    """A machine is lost, with its node of etcd and its replica. Another one takes its place."""
    cluster = cluster_of()
    traffic = moving(cluster)
    cluster.until_reported()
    status, said = cluster.part("trim", "--log", cluster.log())
    assert status == 0, said
    cluster.lose(2)
    before = traffic.made
    until(lambda: traffic.made > before + 50, "transfers go on")
    timed = Timed(show, traffic)
    cluster.replace_node(2)
    timed.done("a member of etcd is removed and added, and is up")
    shutil.copytree(cluster.copy(0), f"{cluster.folder}/taken")
    status, said = cluster.part("copy-from", f"{cluster.folder}/taken", "--copy", cluster.copy(2))
    assert status == 0, said
    third = cluster.replicas[2]
    third.words[third.words.index("--name") + 1] = "r2b"
    third.start()
    cluster.until_listens(2)
    timed.done("a replica takes a peer's copy, and serves")
    cluster.until_reported()
    status, said = cluster.part("trim", "--log", cluster.log(), "--forget", "r2")
    assert status == 0 and "are removed" in said, said
    status, said = cluster.part("status", "--log", cluster.log())
    assert status == 0 and "replica r2b" in said and "replica r2 " not in said, said
    agreed(cluster, traffic, is_trimmed=True)
