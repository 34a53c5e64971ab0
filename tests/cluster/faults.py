"""What befalls the machines of a cluster, and their recovery."""

import os
import random
import shutil
import signal
import time

from . import rot
from .processes import until, wrong


class Faults:
    """Faults of all kinds, one after another. Each is over when what it stopped runs again."""

    def __init__(self, cluster, seed, kinds=None):
        self.cluster, self.random = cluster, random.Random(seed)
        self.kinds = kinds or self.KINDS
        self.done = []  # the kind of each, when it began, and when it was over
        self.odd = []  # what did not go as it has to
        self.changed = set()  # entries that a node has otherwise than the others

    KINDS = (
        "replica killed",
        "server killed",
        "leader killed",
        "follower killed",
        "all nodes killed",
        "replica stopped",
        "server stopped",
        "leader stopped",
        "follower stopped",
        "links of a replica cut",
        "links of a replica held",
        "links of a node cut",
        "replica and leader killed",
    )

    # what disks and clocks do
    RARE = ("entry rotten on a node", "copy rotten", "clock ahead")

    def one(self, kind):
        began = time.monotonic()
        getattr(self, kind.replace(" ", "_"))()
        self.done.append((kind, began, time.monotonic()))

    def some(self, count, between=0.5):
        """So many faults: of each kind equally many, in any order."""
        self.all_of([self.kinds[it % len(self.kinds)] for it in range(count)], between)

    def all_of(self, kinds, between):
        """Faults of these kinds in any order, with an average number of seconds between them."""
        self.random.shuffle(kinds)
        for kind in kinds:
            self.one(kind)
            time.sleep(self.random.uniform(0, 2 * between))

    def wait(self, least=0.3, most=3.0):
        time.sleep(self.random.uniform(least, most))

    def any(self, processes):
        return self.random.choice(processes)

    def leader(self):
        at = self.cluster.leader()
        return self.cluster.nodes[at if at is not None else 0]

    def follower(self):
        leader = self.leader()
        return self.any([it for it in self.cluster.nodes if it is not leader])

    def kill(self, *processes):
        for it in processes:
            it.kill()
        self.wait()
        for it in processes:
            it.start()

    def hold(self, process, send):
        send(signal.SIGSTOP)
        self.wait()
        send(signal.SIGCONT)

    def replica_killed(self):
        self.kill(self.any(self.cluster.replicas))

    def server_killed(self):
        self.any(self.cluster.replicas).kill_server()

    def leader_killed(self):
        self.kill(self.leader())

    def follower_killed(self):
        self.kill(self.follower())

    def all_nodes_killed(self):
        self.kill(*self.cluster.nodes)

    def replica_stopped(self):
        it = self.any(self.cluster.replicas)
        self.hold(it, it.send)

    def server_stopped(self):
        it = self.any(self.cluster.replicas)
        self.hold(it, it.signal_server)

    def leader_stopped(self):
        it = self.leader()
        self.hold(it, it.send)

    def follower_stopped(self):
        it = self.follower()
        self.hold(it, it.send)

    def links(self, word, numbers):
        self.cluster.links.do(word, numbers)
        self.wait()
        self.cluster.links.do("heal", numbers)

    def links_of_a_replica_cut(self):
        self.links("cut", self.cluster.links_of(self.random.randrange(self.cluster.count)))

    def links_of_a_replica_held(self):
        self.links("hold", self.cluster.links_of(self.random.randrange(self.cluster.count)))

    def links_of_a_node_cut(self):
        self.links("cut", [self.random.randrange(self.cluster.count)])

    def replica_and_leader_killed(self):
        self.kill(self.any(self.cluster.replicas), self.leader())

    # what disks and clocks do

    def expect(self, holds, said):
        if not holds:
            self.odd.append(said)

    def entry_rotten_on_a_node(self):
        """A disk changes a bit of an entry, and a replica that asks this node first has no copy."""
        cluster, at = self.cluster, self.random.randrange(self.cluster.count)
        script = cluster.script()
        number = self.any([it for it in range(len(script) - 20) if it not in self.changed])
        self.changed.add(number)
        node, entry = cluster.nodes[at], script[number]
        node.kill()
        bit = self.random.randrange(8 * len(entry))
        found = rot.change(rot.files_of_etcd(cluster, at), entry, bit // 8, bit % 8)
        node.start()
        self.expect(found, f"entry {number} is not in the file of node {at}")
        until(lambda: cluster.is_up(at), "the node is up")
        it = cluster.replicas[at]
        it.kill()
        shutil.rmtree(cluster.copy(at))
        it.start()
        self.serves(at, f"bit {bit} of entry {number}, which node {at} has otherwise")

    def serves(self, at, said):
        """A replica comes to serve, and no other one ends."""
        it = self.cluster.replicas[at]
        until(lambda: it.listens() or not it.runs(), f"{it.name} listens or ends")
        self.expect(it.listens(), f"{it.name} ends: {said}: {last(it)}")
        ended = [some.name for some in self.cluster.replicas if not some.runs()]
        self.expect(not ended, f"{' '.join(ended)} ended: {said}")

    def ends(self, at, status, said):
        """Only this replica ends, with a status."""
        it = self.cluster.replicas[at]
        until(lambda: not it.runs(), f"{it.name} ends")
        found = it.process.poll()
        self.expect(found == status, f"{it.name} ends with {found}, not {status}: {said}")
        ended = sum(not some.runs() for some in self.cluster.replicas)
        self.expect(ended == 1, f"{ended} replicas ended: {said}")

    def copy_rotten(self):
        """A disk changes a bit of a replica's copy. The replica ends, and takes a peer's."""
        cluster, at = self.cluster, self.random.randrange(self.cluster.count)
        it, path = cluster.replicas[at], f"{cluster.copy(at)}/log"
        it.end()
        place = self.random.randrange(os.path.getsize(path) // 2)
        rot.flip(path, place, self.random.randrange(8))
        it.start()
        self.ends(at, 24, f"byte {place} of its copy is changed")
        shutil.rmtree(cluster.copy(at))
        peer = cluster.copy((at + 1) % cluster.count)
        status, said = cluster.part("copy-from", peer, "--copy", cluster.copy(at))
        self.expect(status == 0, f"copy-from: {said}")
        it.start()
        self.serves(at, "a copy of a peer")

    def clock_ahead(self):
        """A replica starts with a clock that is an hour ahead."""
        cluster, at = self.cluster, self.random.randrange(self.cluster.count)
        it = cluster.replicas[at]
        it.kill()
        right = it.words
        it.words = cluster.replica_words(at, wrong("clock_ahead"))
        it.start()
        self.ends(at, 27, "its clock is an hour ahead")
        it.words = right
        it.start()
        self.serves(at, "its clock is right again")


def last(process):
    """The last line of a process."""
    lines = process.said().strip().splitlines()
    return lines[-1] if lines else ""
