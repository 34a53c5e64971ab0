"""Replicas that must not start, and a start after all replicas were down, by a wrong clock."""

import re
import time

import pytest

from .ends import agreed
from .faults import last
from .processes import until, wrong
from .traffic import Traffic

pytestmark = [
    pytest.mark.slow(reason="clusters that start under faults", seconds=60),
    pytest.mark.needs_etcd,
]


def test_starts_that_are_refused(cluster_of):
    cluster = cluster_of()
    third = cluster.replicas[2]
    third.kill()
    right = third.words
    third.words = cluster.replica_words(2, wrong("clock_ahead"))
    third.start()
    assert third.ended() == 27, last(third)
    third.words = [*right[:-1], "8"]
    third.start()
    assert third.ended() == 23, last(third)
    third.words = right
    for it in cluster.nodes:
        it.kill()
    third.start()
    assert third.ended() == 20, last(third)
    status, said = cluster.part("status", "--log", cluster.log())
    assert status == 20, said


def test_start_over_slow_connections(cluster_of):
    """Each connection to the engine takes 1.5 s, as on a busy machine. gRPC gave each of them up
    within a second, and the replica ended by NoLog."""
    cluster = cluster_of()
    third = cluster.replicas[2]
    third.end()
    cluster.links.do("slow", cluster.links_of(2))
    third.start()
    cluster.until_listens(2)


def test_outage(cluster_of):
    """All replicas were down. The first one that starts has a clock an hour ahead: it waits until
    another one replies, and then ends."""
    cluster = cluster_of()
    Traffic(cluster.tcp, 1).open_accounts()
    ended = [it.end() for it in cluster.replicas]
    assert not any(ended), ended
    third, before = cluster.replicas[2], len(cluster.script())
    right, third.words = third.words, cluster.replica_words(2, wrong("clock_ahead"))
    third.start()
    until(lambda: "waits: no other" in third.said(third.since), "it says that it waits")
    time.sleep(5)
    assert third.runs() and not third.listens(), last(third)
    assert len(cluster.script()) == before, "it appended"
    for it in cluster.replicas[:2]:
        it.start()
    for at in (0, 1):
        cluster.until_listens(at)
    assert third.ended() == 27, last(third)
    traffic = Traffic(cluster.tcp, 4, pause=0.05)
    traffic.start()
    until(lambda: traffic.made > 20, "transfers")
    third.words = right
    third.start()
    cluster.until_listens(2)
    agreed(cluster, traffic)


def test_way_back_of_a_log_that_is_ahead(cluster_of, show):
    """Only one replica served, by a clock an hour ahead. docs/use/CLUSTER.md, Clocks, has the way
    back, which is tried as printed."""
    cluster = cluster_of()
    traffic = Traffic(cluster.tcp, 4, pause=0.05)
    traffic.open_accounts()
    for it in cluster.replicas:
        it.end()
    third = cluster.replicas[2]
    right, third.words = third.words, cluster.replica_words(2, wrong("clock_ahead"), ["--alone"])
    third.start()
    cluster.until_listens(2)
    traffic.start()
    until(lambda: traffic.made > 20, "transfers of an hour ahead")
    cluster.until_reported()
    third.end()
    third.words = right
    first, began = cluster.replicas[0], time.monotonic()
    first.start()
    until(lambda: "ahead of this computer's clock" in first.said(), "a right clock is refused")
    assert not first.listens()
    status, said = cluster.part("status", "--log", cluster.log())
    found = re.search("the log is ([0-9]+) s ahead of this computer's clock", said)
    assert status == 0 and found, said
    given_ahead(cluster, int(found[1]) + 60)
    before = traffic.made
    until(lambda: traffic.made > before + 20, "transfers go on")
    show(f"{time.monotonic() - began:.1f} s from the refusal until transfers go on")
    agreed(cluster, traffic)


def given_ahead(cluster, seconds):
    """Starts each replica with --ahead."""
    for it in cluster.replicas:
        it.kill()
        at = it.words.index("--copy")
        it.words = [*it.words[:at], "--ahead", str(seconds), *it.words[at:]]
        it.start()
    for at in range(cluster.count):
        cluster.until_listens(at)
