"""Shows three machines while clients move money, and machines are killed, stopped, cut off and
rotten.

    /usr/bin/python3 -m tests.cluster.show [--seconds N]

Needs etcd-server, python3-etcd3, tbd and what server/build makes. Prints a line every two seconds
and for each fault, what replicas say of rotten nodes, and the totals at the end. Exit status 1:
they differ.
"""

import argparse
import re
import sys
import tempfile
import threading
import time

from .faults import Faults
from .processes import Cluster, missing
from .traffic import Traffic, posted_at

KINDS = ("entry rotten on a node", *Faults.KINDS, "clock ahead", "copy rotten")
ROTTEN = re.compile(r"[^ ]+ is rotten: .*")


class Shown:
    """What is printed: the time, what was acknowledged, and what happens."""

    def __init__(self, traffic):
        self.traffic, self.began = traffic, time.monotonic()
        self.over = threading.Event()
        self.counting = threading.Thread(target=self._count, daemon=True)

    def say(self, text=""):
        now, made = time.monotonic() - self.began, self.traffic.made
        print(f"{now:6.1f} s {made:8} transfers acknowledged   {text}".rstrip(), flush=True)

    def _count(self):
        while not self.over.wait(2):
            self.say()


def shown(cluster, seconds, clients=12):
    """Shows a cluster for so long. Returns what was acknowledged, and what each replica has."""
    traffic = Traffic(cluster.tcp, clients, pause=0.02, spread=True)
    traffic.open_accounts()
    it, faults, kinds = Shown(traffic), Faults(cluster, 1), []
    it.say(f"{clients} clients move money over replicas at {', '.join(map(str, cluster.tcp))}")
    traffic.start()
    it.counting.start()
    while time.monotonic() - it.began < seconds:
        time.sleep(3)
        kinds = kinds or list(KINDS)
        one_fault(cluster, faults, kinds.pop(0), it)
    traffic.end()
    it.over.set()
    it.counting.join()
    it.say(f"{len(faults.done)} faults; each client has its last reply")
    for said in faults.odd:
        it.say(f"wrong: {said}")
    return traffic.made, [posted_at(port) for port in cluster.tcp]


def one_fault(cluster, faults, kind, it):
    """A fault, and what replicas say of rotten nodes meanwhile."""
    before = [len(replica.said()) for replica in cluster.replicas]
    it.say(f"{kind} ..")
    faults.one(kind)
    for replica, at in zip(cluster.replicas, before):
        for said in ROTTEN.findall(replica.said()[at:]):
            it.say(f"{replica.name}: {said}")
    it.say(f"{kind}, and back")


def main():
    parser = argparse.ArgumentParser(
        description=__doc__, formatter_class=argparse.RawDescriptionHelpFormatter
    )
    parser.add_argument("--seconds", type=int, default=60, help="how long it is shown (60)")
    given, lacks = parser.parse_args(), missing("etcd")
    if lacks:
        sys.exit(f"not installed: {', '.join(lacks)}")
    print("three nodes of etcd and three replicas begin")
    with tempfile.TemporaryDirectory(prefix="cluster-") as folder:
        cluster = Cluster(folder)
        try:
            cluster.start()
            made, posted = shown(cluster, given.seconds)
        finally:
            cluster.end()
    for at, total in enumerate(posted):
        print(f"replica {at} has posted {total} of {made} that were acknowledged")
    return 0 if made and all(it == made for it in posted) else 1


if __name__ == "__main__":
    sys.exit(main())
