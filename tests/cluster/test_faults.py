"""Faults of machines, processes, links, disks and clocks under clients that move money: nothing
that was acknowledged is lost or executed twice, and all replicas reply the same.

`--faults N` is the number of faults (300), each seventh of which is of a disk or a clock; `--kinds`
has only those kinds, and `--seed` another order.
"""

import pytest

from .ends import agreed, restarted, waits
from .faults import Faults
from .processes import until
from .traffic import Traffic

pytestmark = [
    pytest.mark.slow(reason="clusters whose machines, disks and clocks fail", seconds=1800),
    pytest.mark.needs_etcd,
]
CLIENTS = 24
RARE = 20, 3  # how many of a number of faults are of disks and clocks
# the faults that show a wrong replica soonest
SHARP = ("replica killed", "links of a replica cut", "all nodes killed")


def moving(cluster, clients=CLIENTS, pause=0.1):
    """Clients that move money."""
    traffic = Traffic(cluster.tcp, clients, pause=pause, spread=True)
    traffic.open_accounts()
    traffic.start()
    return traffic


def kinds_of(given):
    """The kinds of faults, one for each."""
    if given.kinds:
        return [given.kinds[it % len(given.kinds)] for it in range(given.faults)]
    rare = given.faults * RARE[1] // RARE[0]
    usual = [Faults.KINDS[it % len(Faults.KINDS)] for it in range(given.faults - rare)]
    return usual + [Faults.RARE[it % len(Faults.RARE)] for it in range(rare)]


def suffered(cluster, traffic, given):
    """Faults in any order, over 24 clients. What has ended is started again after each few."""
    faults, kinds = Faults(cluster, given.seed), kinds_of(given)
    faults.random.shuffle(kinds)
    until(lambda: traffic.made > 200, "transfers")
    for at in range(0, len(kinds), 5):
        faults.all_of(kinds[at : at + 5], given.between)
        named = restarted(cluster)
        assert not named, f"replicas named faults: {named}"
        for replica in range(cluster.count):
            cluster.until_listens(replica)
    assert not faults.odd, faults.odd
    return faults


def test_faults(cluster_of, given, show):
    cluster = cluster_of()
    traffic = moving(cluster, pause=given.pause)
    faults = suffered(cluster, traffic, given)
    for line in waits(faults, traffic):
        show(line)
    agreed(cluster, traffic)
    rare = sum(kind in Faults.RARE for kind, _, _ in faults.done)
    show(
        f"{len(faults.done)} faults, {rare} of disks and clocks; {traffic.made} transfers, "
        f"{traffic.looked} lookups"
    )


def test_evictions(cluster_of, given, show):
    """80 clients, of which 64 may have a session."""
    cluster = cluster_of(clients_max=64)
    traffic = moving(cluster, 80, 0.3)
    faults = Faults(cluster, given.seed)
    faults.some(6)
    until(lambda: traffic.evictions > 0, "an eviction")
    agreed(cluster, traffic)
    show(f"{traffic.evictions} evictions, {len(faults.done)} faults")


@pytest.mark.parametrize(
    "wrong", ["executes_early", "replies_early", "skips_at_restart", "takes_twice_at_restart"]
)
def test_wrong_replica_is_found(cluster_of, given, show, wrong):
    """The checks of `test_faults` fail if a replica is wrong."""
    cluster = cluster_of(wrong=wrong)
    with pytest.raises((AssertionError, TimeoutError)) as found:
        # a short pause, so that a replica that is killed has requests that wait for the log
        traffic = moving(cluster, pause=0.01)
        faults = Faults(cluster, given.seed, SHARP)
        for _ in range(3):
            faults.some(2)
            named = restarted(cluster)
            assert not named, f"replicas named faults: {named}"
        agreed(cluster, traffic)
    traffic.stop.set()
    show(f"{wrong}: {str(found.value)[:120]}")
