"""What a power loss may leave of a file: all that was synced, any of the writes and cuts since, and
one of these torn. A disk does them in any order: a later one may be there without an earlier one.
"""

import functools
import itertools
import random
from collections.abc import Iterator, Sequence
from dataclasses import dataclass

from .calls import Call

SECTOR = 512
NONE = -1  # of the calls is torn
TEARS = ("begun", "zeros first", "garbage", "some bytes", "some sectors", "another length")


def after(image: bytes, call: Call) -> bytes:
    """A file after a write or a cut; a write after its end leaves zeros between."""
    if call.kind == "T":
        return image[: call.place]
    end = call.place + len(call.data)
    return image[: call.place].ljust(call.place, b"\0") + call.data + image[end:]


def bytes_of(tear: str, old: bytes, call: Call, rng: random.Random) -> bytes:
    """What is in a write's range, of which the file had the old bytes, when it is torn."""
    new, cut = call.data, rng.randint(0, len(call.data))
    old = old.ljust(len(new), b"\0")
    if tear == "begun":
        return new[:cut] + old[cut:]
    if tear == "zeros first":
        return bytes(cut) + new[cut:]
    if tear == "garbage":
        return rng.randbytes(cut) + old[cut:]
    if tear == "another length":
        return new
    size = SECTOR if tear == "some sectors" else 1
    sectors = {(call.place + at) // size: rng.random() < 0.5 for at in range(len(new))}
    kept = [sectors[(call.place + at) // size] for at in range(len(new))]
    return bytes(b if is_new else a for a, b, is_new in zip(old, new, kept))


def torn(image: bytes, call: Call, rng: random.Random, tear: str) -> bytes:
    """A file that a torn write or cut leaves: any bytes in its range, any length between."""
    whole = after(image, call)
    if call.kind == "T":
        return image[: rng.randint(len(whole), max(len(image), len(whole)))]
    old = image[call.place : call.place + len(call.data)]
    left = after(image, call._replace(data=bytes_of(tear, old, call, rng)))
    return left[: rng.randint(min(len(image), len(left)), len(left))]


@dataclass(frozen=True)
class PowerLoss:
    """A moment: what the disk has of the file for sure, and the calls that it may have done."""

    synced: bytes
    since: Sequence[Call]
    rng: random.Random

    def left(self, kept: Sequence[bool], torn_one: int, tear: str) -> bytes:
        """The file with the calls that are kept, of which one is torn."""

        def changed(image: bytes, number: int) -> bytes:
            if number == torn_one:
                return torn(image, self.since[number], self.rng, tear)
            return after(image, self.since[number]) if kept[number] else image

        return functools.reduce(changed, range(len(self.since)), self.synced)

    def some(self, count: int) -> Iterator[bytes]:
        """Files that are drawn."""
        for _ in range(count if self.since else 0):
            kept = [self.rng.random() < 0.5 for _ in self.since]
            torn_one = self.rng.randrange(len(self.since))
            yield self.left(kept, torn_one, self.rng.choice(TEARS))

    def every(self) -> Iterator[bytes]:
        """Each subset of the calls, whole and with each of its calls torn in each way."""
        for kept in itertools.product((False, True), repeat=len(self.since)):
            yield self.left(kept, NONE, "")
            of_it = itertools.compress(itertools.count(), kept)
            for number, tear in itertools.product(of_it, TEARS):
                yield self.left(kept, number, tear)
