"""Files of each kind before `tbd`: a small ledger by docs/use/TBD.md and FORMATS.md, the same torn
or damaged, and files that are not a ledger. No program wrote them."""

import struct
import subprocess

from frames import dump_entry, dump_head, ids, pair, reply
from tb_client import Operation
from checksums import crc32c

SECONDS = 60  # that one run may take
MAGIC, OPENED, CLOSED = b"TBJRNL02", b"\xff" * 4, b"\x5a\xc3\x96\x69"
REGISTER = 7, 0, 0, Operation.register
LOOK_UP = 7, 1, 1, Operation.lookup_accounts
PAIRS = pair(10, *REGISTER), pair(10, *LOOK_UP, ids(2))
SCRIPT = b"".join(PAIRS)
REPLIES = reply(7, 1, 0, REGISTER[3], 0, 1) + reply(7, 1, 1, LOOK_UP[3], 0, 2)
# What the same script gets over the ledger that it made: an older register, and a repeat.
AGAIN = reply(7, 0, 0, REGISTER[3], 4, 0) + reply(7, 1, 1, LOOK_UP[3], 0, 2)
EMPTY_DUMP = dump_head(1, 2)
ENTRIES = dump_entry(1, 10, PAIRS[0][8:]), dump_entry(2, 11, PAIRS[1][8:])
DUMP = EMPTY_DUMP + b"".join(ENTRIES)


def block(record):
    """A record after its latch, its length and its checksum."""
    checked = len(record).to_bytes(3, "little") + record
    return OPENED + checked[:3] + crc32c(checked).to_bytes(4, "little") + record


def item(position, content):
    """An entry of a log."""
    numbers = struct.pack("<QI", position, len(content))
    return b"\1" + numbers + struct.pack("<I", crc32c(numbers + content)) + content


def changed(data, at):
    """Bytes with another value at one place."""
    return data[:at] + bytes([(data[at] + 1) % 256]) + data[at + 1 :]


HEAD = MAGIC + block(b"TBK1\1\2")
BLOCKS = HEAD, *map(block, ENTRIES)
LEDGER = b"".join(BLOCKS) + CLOSED
# The ends of the head, the first entry and the second one.
HEAD_END, FIRST_END, END = 25, 100, 191
TOO_LONG = 4_194_305  # one byte more than a batch can have
FILES = {
    "nothing": None,
    "no byte": b"",
    "a text": b"a text, and no journal",
    "a dump": DUMP,
    "a script": SCRIPT,
    "other bytes": bytes(range(1, 9)),
    "another version": b"TBJRNL03\0",
    "no record": MAGIC + CLOSED,
    "no head": MAGIC + block(b"\1\2\3") + CLOSED,
    "another's record": MAGIC + block(b"TBF1\1\2" + bytes(73)) + CLOSED,
    "no entry": HEAD + block(b"\1\2\3") + CLOSED,
    "a ledger": LEDGER,
    "second entry changed": changed(LEDGER, -5 + len(LEDGER)),
    "first entry changed": changed(LEDGER, 45),
    "head changed": changed(LEDGER, 22),
    "torn": LEDGER + b"\1\2\3\4\5",
    "torn long": LEDGER + b"\7" * TOO_LONG,
}


def none(why):
    """What a form reports over a file that does not begin as a journal."""
    return 5, f"tbd: NotAJournal: ledger {why}\n"


A_TEXT = none("is a text; telovamish script makes request frames of statements")
A_DUMP = none("is a dump; tbs replay and telovamish dump read it")
A_SCRIPT = none("is a script; tbs and tbd run read it as standard input")
OTHERS = none("does not begin as a ledger's file")


def up_to(end):
    """The ledger's bytes before an offset, and a closed latch."""
    return LEDGER[:end] + CLOSED


def made(folder, kind):
    """Makes a file of a kind, or no file, and returns its path."""
    path = folder / "ledger"
    if FILES[kind] is not None:
        path.write_bytes(FILES[kind])
    return path


def ran(tbd, folder, words, given=b"", **how):
    """The exit status of words in a folder, standard output, and standard error."""
    how = {"stdout": subprocess.PIPE, "stderr": subprocess.PIPE, **how}
    if not hasattr(given, "fileno"):
        how["input"] = given
    else:
        how["stdin"] = given
    done = subprocess.run([tbd, *words], cwd=folder, timeout=SECONDS, check=False, **how)
    return done.returncode, done.stdout, done.stderr.decode()
