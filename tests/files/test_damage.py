"""The file of a ledger of twenty batches, damaged at every place that matters, and each
form over them.

    python3 -m pytest tests/files/test_damage.py          a sample
    python3 -m pytest -m slow -n 2 -rP tests/files/test_damage.py  all of it, by two processes

Every byte of the magic, of latches, lengths and checksums, and a sample of the records, is set to
0, to 255 and to one flipped bit; runs of 4, 16 and 512 bytes are set to zeros; the file is cut at
each length. At no place is an entry absent after a start that ends with 0, no form disagrees with
`run`, and each shows only the history that was served, from its beginning on.

One that is cut within its magic may be left by a crash while a ledger is made: a start without
--existing makes a new ledger in it.
"""

import collections
import contextlib
import itertools
import os
import random
import shutil
import subprocess
import tempfile
from dataclasses import dataclass
from pathlib import Path

import pytest

from .batches import CHECKSUM, LATCH, LENGTH, MAGIC, SECONDS, serve

SEED = 7
SHARES = 4  # of all damages: each is a test of its own
FORMS = ("check", "dump", "backup")  # that only read FILE
REFUSED = (5, 6)  # exit statuses: NotAJournal, Damaged
KINDS = ("byte", "zeros", "cut")


def places(data):
    """The offsets of the bytes of magic, latches, lengths and checksums, and those of records."""
    numbers, records, at = list(range(len(MAGIC))), [], len(MAGIC)
    while at + LATCH < len(data):
        head = at + LATCH + LENGTH + CHECKSUM
        length = int.from_bytes(data[at + LATCH : at + LATCH + LENGTH], "little")
        numbers += range(at, head)
        records += range(head, head + length)
        at = head + length
    assert at + LATCH == len(data)
    return numbers + list(range(at, len(data))), records


@dataclass
class Made:
    """A folder for damaged files, the bytes of a whole one, and its history as a dump."""

    tbd: str
    folder: Path
    data: bytes
    dump: bytes
    counts: collections.Counter

    def ran(self, *words):
        done = subprocess.run(
            [self.tbd, *words],
            cwd=self.folder,
            stdin=subprocess.DEVNULL,
            capture_output=True,
            timeout=SECONDS,
            check=False,
        )
        return done.returncode, done.stdout, done.stderr

    def begins(self, dump):
        """Whether a dump is the whole history, or a part that it begins with."""
        return self.dump.startswith(dump)

    def tries(self, name, data):
        """Runs each form over such a file."""
        for it in self.folder.iterdir():
            it.unlink()
        (self.folder / "ledger").write_bytes(data)
        seen = {form: self.ran(form, "ledger", *["new"][: form == "backup"]) for form in FORMS}
        status, _, said = self.ran("run", "ledger", "8", "--existing")
        self.counts[name.split()[0].strip(":"), status] += 1
        assert status in (0, *REFUSED), (name, said)
        for form, (it, out, line) in seen.items():
            assert it == status, (name, form, it, status, said, line)
            assert not status or line == said, (name, form, said, line)
            assert form != "dump" or self.begins(out), (name, form)
        if status == 0:
            assert self.ran("dump", "ledger")[1] == self.dump, name
        else:
            assert (self.folder / "ledger").read_bytes() == data, name
            self.salvages(name)

    def salvages(self, name):
        """What is salvaged is a history that the whole one begins with."""
        (self.folder / "new").unlink(missing_ok=True)
        status, _, said = self.ran("salvage", "ledger", "new")
        assert status in (0, *REFUSED), (name, said)
        if (self.folder / "new").exists():
            assert self.begins(self.ran("dump", "new")[1]), name


@pytest.fixture(scope="module", name="made")
def fixture_made(program):
    """In memory, if that is possible: a start syncs the file."""
    memory = "/dev/shm" if os.path.isdir("/dev/shm") else None
    tbd = str(program("tbd").resolve())
    with contextlib.ExitStack() as stack:
        room = Path(stack.enter_context(tempfile.TemporaryDirectory(dir=memory)))
        serve(tbd, str(room / "whole"))
        dump = subprocess.run([tbd, "dump", room / "whole"], capture_output=True, check=True)
        (room / "damaged").mkdir()
        data = (room / "whole").read_bytes()
        assert data.startswith(MAGIC), "the file has another format"
        yield Made(tbd, room / "damaged", data, dump.stdout, collections.Counter())
        shutil.rmtree(room / "damaged")


def flipped(data, at, value):
    """The data with one byte changed; None if that changes nothing."""
    changed = bytearray(data)
    changed[at] = value
    return None if changed == data else bytes(changed)


def bytes_of(data, offsets, rng):
    """Each of these bytes set to 0, to 255 and to one flipped bit."""
    for at in offsets:
        for value in (0, 255, data[at] ^ 1 << rng.randrange(8)):
            changed = flipped(data, at, value)
            if changed is not None:
                yield f"byte {at} is {value}", changed


def runs_of(data, offsets):
    """Runs of zeros that begin at these bytes."""
    for at in offsets:
        for count in (4, 16, 512):
            end = min(at + count, len(data))
            yield f"zeros: {count} from {at} on", data[:at] + bytes(end - at) + data[end:]


def cuts_of(data, lengths):
    for length in lengths:
        yield f"cut to {length} bytes", data[:length]


def all_damages(made, records, runs, rng):
    numbers, others = places(made.data)
    yield from bytes_of(made.data, numbers, rng)
    yield from bytes_of(made.data, rng.sample(others, records), rng)
    yield from runs_of(made.data, [*numbers, *rng.sample(others, runs)])
    yield from cuts_of(made.data, range(1, len(made.data)))


def tried(made, damages):
    """Tries them, and prints what became of them."""
    made.counts.clear()
    for name, data in damages:
        made.tries(name, data)
    for kind in KINDS:
        them = {status: count for (it, status), count in made.counts.items() if it == kind}
        if them:
            print(f"{kind}: {sum(them.values())} damages, by exit status {them}")


@pytest.mark.parametrize("length", range(1, len(MAGIC) + 1))
def test_a_file_cut_within_its_magic(made, length):
    """A start that may make a ledger makes one."""
    made.tries("cut", MAGIC[:length])
    assert (made.folder / "ledger").read_bytes() == MAGIC[:length]
    assert made.ran("run", "ledger", "8")[0] == 0
    assert made.ran("check", "ledger")[1].startswith(b"records 1\nentries 0\n")


def test_a_sample_of_damages(made):
    rng = random.Random(SEED)
    every = list(all_damages(made, 100, 20, rng))
    for kind in KINDS:
        tried(made, rng.sample([it for it in every if it[0].startswith(kind)], 25))


@pytest.mark.slow(reason="damages each byte of a file", seconds=120)
@pytest.mark.parametrize("share", range(SHARES))
def test_every_damage(made, share):
    every = all_damages(made, 2000, 200, random.Random(SEED))
    tried(made, itertools.islice(every, share, None, SHARES))
