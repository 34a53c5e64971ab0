"""What has to hold in the end: the agreed script, the replies of each replica, and the totals."""

import hashlib
import os
import subprocess
import time

from .entries import entries_of_copy, pairs_of


def script_of(cluster):
    """The agreed script, as the engine has it."""
    return [pairs_of(it) for it in cluster.script()]


def is_gone(cluster, place):
    """Whether the log has nothing up to a place any more, and says so."""
    _, trimmed = cluster.trimmed()
    return trimmed > place and cluster.first_place() > trimmed


def is_kept(cluster, folder):
    """Whether what the log has after the place where it was trimmed is what a copy has there."""
    position, _ = cluster.trimmed()
    found = script_of(cluster)[:5]
    kept = script_of_copy(folder)[position : position + 5]
    return position > 0 and found == kept and len(kept) == 5


def script_of_copy(folder):
    """The agreed script, as a replica's copy has it."""
    return [pairs_of(it) for it in entries_of_copy(folder)]


def replies_to(script, cluster):
    """What a fresh server replies to the script."""
    words = [cluster.program("tb_script"), "run", str(cluster.clients_max)]
    return subprocess.run(words, input=b"".join(script), capture_output=True, check=True).stdout


def replies_of(cluster, at):
    with open(cluster.out(at), "rb") as file:
        data = file.read()
    return b"".join(frames_of(data))


def frames_of(data):
    """The replies of `tbd follow` without their places and the hashes between them."""
    at = 0
    while at < len(data):
        if data[at] == 2:
            at += 1 + 8 + 64
        else:
            start = at + 1 + 8 + 4
            at = start + 48 + int.from_bytes(data[start + 32 : start + 36], "little")
            yield data[start:at]


def settled(cluster, quiet=60):
    """Waits until each replica has written what it is to write. False if some have written less,
    and none of them writes more for some seconds."""
    before, since = None, time.monotonic()
    while time.monotonic() < since + quiet:
        now = [os.path.getsize(cluster.out(at)) for at in range(cluster.count)]
        if now != before:
            before, since = now, time.monotonic()
        elif len(set(now)) == 1:
            return True
        time.sleep(2)
    return False


def digest(data):
    return hashlib.sha256(data).hexdigest()[:16]
