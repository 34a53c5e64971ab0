"""Bits that disks have changed: on one node of the engine, on two of three, on all, in a key, and
in a replica's copy. Nothing of them is shown or acknowledged, and at most the replica that has the
bad disk ends."""

import re
import shutil
import time

import pytest

from . import rot
from .ends import agreed
from .faults import last
from .processes import Postgres, until
from .traffic import Traffic

pytestmark = pytest.mark.slow(reason="clusters whose disks rot", seconds=120)
DAMAGED, ROTTEN = 24, 28


def moving(cluster, clients, wanted):
    traffic = Traffic(cluster.tcp, clients, pause=0.03, spread=True)
    traffic.open_accounts()
    traffic.start()
    until(lambda: traffic.made > wanted, "transfers")
    return traffic


def begin_again(cluster, at):
    """Starts a replica without its copy."""
    it = cluster.replicas[at]
    it.kill()
    shutil.rmtree(cluster.copy(at), ignore_errors=True)
    it.start()


def goes_on_by_others(cluster, at, most):
    """A replica that reads of rotten nodes serves, and names each that it meets once. On a busy
    machine it may read another one first."""
    cluster.until_listens(at)
    it = cluster.replicas[at]

    def named():
        return re.findall("([^ ]+) is rotten", it.said(it.since))

    until(lambda: named() or not it.runs(), "it names what is rotten")
    time.sleep(2)
    assert it.runs() and 1 <= len(named()) == len(set(named())) <= most, (named(), last(it))


def change_nodes(cluster, files, ats, first):
    """Changes entries on nodes while these are down: one bit in each part, each node another."""
    script = cluster.script()
    for at in ats:
        cluster.nodes[at].kill()
        missed = rot.change_entries(files(cluster, at), script, first, at)
        assert not missed, f"not found on node {at}: {missed}"
        cluster.nodes[at].start()
        until(lambda: cluster.is_up(at), "the node is up")


@pytest.mark.needs_etcd
def test_rot_in_etcd(cluster_of, show):
    cluster = cluster_of()
    traffic, began = moving(cluster, 6, 600), time.monotonic()
    time.sleep(2)
    change_nodes(cluster, rot.files_of_etcd, [0], 20)
    begin_again(cluster, 0)
    goes_on_by_others(cluster, 0, 1)
    change_nodes(cluster, rot.files_of_etcd, [0, 1], 60)
    for at in (0, 1):
        begin_again(cluster, at)
        goes_on_by_others(cluster, at, 2)
    rotten_keys(cluster)
    rotten_copy(cluster)
    rotten_everywhere(cluster, traffic)
    waited = max(traffic.waits_between(began, time.monotonic()))
    show(f"a client waited {waited:.1f} s at most, {traffic.made} transfers")
    agreed(cluster, traffic, is_trimmed=True)


def rotten_keys(cluster):
    """A node has an entry by a key that is not that of an entry."""
    entry = cluster.script()[40]
    cluster.nodes[0].kill()
    assert rot.change_key(rot.files_of_etcd(cluster, 0), entry, 1)
    cluster.nodes[0].start()
    until(lambda: cluster.is_up(0), "the node is up")
    begin_again(cluster, 0)
    cluster.until_listens(0)


def rotten_copy(cluster):
    """Only the replica whose own copy has another bit ends, and it goes on with a peer's copy."""
    it = cluster.replicas[1]
    it.end()
    rot.flip(f"{cluster.copy(1)}/log", 5000)
    it.start()
    assert it.ended() == DAMAGED, last(it)
    assert all(some.runs() for some in cluster.replicas if some is not it)
    take_a_peers(cluster, 1)


def take_a_peers(cluster, at):
    shutil.rmtree(cluster.copy(at))
    status, said = cluster.part("copy-from", cluster.copy((at + 1) % 3), "--copy", cluster.copy(at))
    assert status == 0, said
    cluster.replicas[at].start()
    cluster.until_listens(at)


def rotten_everywhere(cluster, traffic):
    """An entry that no node has as it was written. Who begins without it ends, and no other."""
    entry = cluster.script()[100]
    for at, node in enumerate(cluster.nodes):
        node.kill()
        assert rot.change(rot.files_of_etcd(cluster, at), entry, 150 + at, 3), f"node {at}"
        node.start()
        until(lambda: cluster.is_up(at), "the node is up")
    begin_again(cluster, 2)
    it, before = cluster.replicas[2], traffic.made
    assert it.ended() == ROTTEN, last(it)
    until(lambda: traffic.made > before + 100, "transfers go on")
    assert all(some.runs() for some in cluster.replicas[:2])
    take_a_peers(cluster, 2)


@pytest.mark.needs_postgresql
def test_rot_in_postgresql(cluster_of):
    """The disk of the primary has changed rows. The standby has them."""
    cluster = cluster_of(kind=Postgres)
    traffic = moving(cluster, 4, 400)
    script, primary = cluster.script(), cluster.nodes[0]
    cluster.asked("CHECKPOINT")
    primary.kill()
    missed = rot.change_entries(rot.files_of_postgresql(cluster, 0), script, 20, 0)
    assert not missed, missed
    primary.start()
    begin_again(cluster, 0)
    goes_on_by_others(cluster, 0, 1)
    agreed(cluster, traffic, is_trimmed=True)
