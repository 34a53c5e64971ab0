"""How fast a cluster is, compared with the listener over a ledger in a file and with only the
engine, on the same machine. A machine that does something else meanwhile has other rates: compare
the ratios. `--sync MS` has each sync of the engine and of tbd take longer."""

import pytest

from . import rates
from .processes import Postgres

pytestmark = pytest.mark.slow(reason="loads clusters for their rates", seconds=75)
LEAST = 0.2  # of the listener's rate: half of the least that was measured


def compare(cluster, engine, given, show, tbd):
    for line, ratio in rates.compared(cluster, given.seconds, 3, tbd):
        show(f"{engine}: {line}")
        assert ratio >= LEAST, line
    show(f"a sync of the disk alone {rates.sync_alone(cluster.folder):.2f} ms")


@pytest.mark.needs_etcd
def test_rates_over_etcd(cluster_of, given, show, tbd):
    cluster = cluster_of(is_linked=False, keeps_replies=False, sync=given.sync / 1000)
    compare(cluster, "etcd", given, show, tbd)


@pytest.mark.needs_postgresql
def test_rates_over_postgresql(cluster_of, given, show, tbd):
    cluster = cluster_of(kind=Postgres, keeps_replies=False, sync=given.sync / 1000)
    compare(cluster, "PostgreSQL", given, show, tbd)
