"""What holds at the end of a test: totals, streams of replies, and what a fresh server replies."""

import statistics

from . import agreement
from .faults import Faults, last

NO_LOG = 20  # the status of a replica that reached no engine at its start


def restarted(cluster):
    """Starts what has ended, as systemd does. Returns the faults that replicas ended with, except
    NoLog: a replica that starts while no engine is there is started again."""
    named = []
    for it in cluster.replicas:
        if not it.runs():
            status = it.process.poll()
            if status is not None and status > NO_LOG:
                named.append(f"{it.name}: {last(it)}")
            it.start()
    return named


def agreed(cluster, traffic, is_trimmed=False):
    """Each client has its reply, nothing is lost or executed twice, and all replicas and a fresh
    server answer the same."""
    moved(cluster, traffic)
    assert agreement.settled(cluster), "a replica has not answered all"
    streams = [agreement.replies_of(cluster, at) for at in range(cluster.count)]
    assert len(set(streams)) == 1, " ".join(map(agreement.digest, streams))
    scripts = [agreement.script_of_copy(cluster.copy(at)) for at in range(cluster.count)]
    if not is_trimmed:
        scripts.append(agreement.script_of(cluster))
    assert all(it == scripts[-1] for it in scripts), [len(it) for it in scripts]
    assert agreement.replies_to(scripts[-1], cluster) == streams[0], "a fresh server differs"


def moved(cluster, traffic):
    """Each client has its last reply, no reply is wrong, and the ledger has what they add up to."""
    left = traffic.end()
    assert not left, f"{left} clients have no last reply"
    named = restarted(cluster)
    assert not named, f"replicas named faults: {named}"
    assert not traffic.wrong, traffic.wrong[:3]
    assert traffic.looked, "nothing was looked up"
    posted = traffic.posted()
    assert posted == traffic.made > 0, f"{traffic.made} acknowledged, {posted} posted"


def waits(faults, traffic):
    """How long clients waited at most, from each fault until a second after its end: lines."""
    for kind in (*Faults.KINDS, *Faults.RARE):
        times = [(start, end + 1) for it, start, end in faults.done if it == kind]
        found = [wait for it in times for wait in traffic.waits_between(*it)]
        if found:
            middle, most = statistics.median(found), max(found)
            said = f"{kind}: {len(times)} times, a client waited"
            yield f"{said} {middle:.2f} s (median), {most:.1f} s at most"
