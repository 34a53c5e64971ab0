"""Each form of `tbd` over each kind of file: the exit status, standard output, the lines of
standard error, and whether a file is made or changed.

    python3 -m pytest tests/files/test_forms.py
"""

import os
import pty
import subprocess

import pytest

from . import kinds
from .calls import environment
from .kinds import A_DUMP, A_SCRIPT, A_TEXT, AGAIN, DUMP, EMPTY_DUMP, ENTRIES, FILES
from .kinds import OTHERS, REPLIES, SCRIPT, none

CLIENTS = "CLIENTS_MAX is 1 to 64"
COMMIT = "COMMIT is 0 to 9223372036854775807"
OPTIONS = "unknown option; those of run are --existing, --progress and --drop-torn"
NO_FILE = "FILE is a number; write ./FILE"
MANY = "too many words"
UNKNOWN = "unknown; --help shows the forms"
# Words that are no form, and what is said after those up to the wrong one.
WRONG = [
    ("serve", UNKNOWN, 1),
    ("serve ledger", UNKNOWN, 1),
    ("serve 64", UNKNOWN, 1),
    ("folow ledger 2", UNKNOWN, 1),
    ("run", "FILE and CLIENTS_MAX are missing", 1),
    ("run ledger", "CLIENTS_MAX is missing, 1 to 64", 2),
    ("run ledger 0", CLIENTS, 3),
    ("run ledger 65 1", CLIENTS, 3),
    ("run ledger 64 3", "PROFILE is 1 or 2", 4),
    ("run ledger 64 --follow", OPTIONS, 4),
    ("run ledger 2 1 x", MANY, 5),
    ("run ledger 2 1 --progress x", MANY, 6),
    ("run ledger 2 --existing --existing", "an option is given once", 5),
    ("run ledger 2 1 --progress --existing x", MANY, 7),
    ("run ledger 65 --progress", CLIENTS, 3),
    ("run ledger 64 3 --progress", "PROFILE is 1 or 2", 4),
    ("run ledger 64 --progress 3", "PROFILE is 1 or 2", 5),
    ("follow", "CLIENTS_MAX is missing, 1 to 64", 1),
    ("follow 65", CLIENTS, 2),
    ("follow ledger 2", CLIENTS, 2),
    ("follow 8 3", "PROFILE is 1 or 2", 3),
    ("follow 8 2 1", MANY, 4),
    ("follow 8 --existing", "unknown option; follow has none", 3),
    ("dump", "FILE is missing", 1),
    ("dump ledger 65", MANY, 3),
    ("dump ledger --after", "COMMIT is missing, 0 to 9223372036854775807", 3),
    ("dump ledger --after 9223372036854775808", COMMIT, 4),
    ("dump ledger --follow --after x", COMMIT, 5),
    ("dump ledger --follow 1 --after", MANY, 4),
    ("dump ledger --after --follow 1", COMMIT, 4),
    ("check", "FILE is missing", 1),
    ("check ledger 2", MANY, 3),
    ("check ledger --quick --quick", "an option is given once", 4),
    ("check ledger --x", "unknown option; that of check is --quick", 3),
    ("salvage", "FILE and NEW are missing", 1),
    ("backup ledger", "NEW is missing", 2),
    ("salvage ledger 64", "NEW is a number; write ./NEW", 3),
    ("backup ledger -o", "unknown option; write ./NAME for a file of that name", 3),
    ("salvage ledger new more", MANY, 4),
    ("--help run", MANY, 2),
    ("--help 64", MANY, 2),
    # A number or an option is no FILE.
    ("run 64 1", NO_FILE, 2),
    ("run 0 64 2", NO_FILE, 2),
    ("run - 64", OPTIONS, 2),
    (f"dump {'9876543210' * 4}", NO_FILE, 2),
    ("check 1 2", NO_FILE, 2),
    ("salvage 64 new", NO_FILE, 2),
]


def named(value):
    """A value in a test's name: words and kinds of files, and neither bytes nor lines."""
    return value if isinstance(value, str) and "\n" not in value else ""


@pytest.fixture(name="tbd")
def fixture_tbd(program):
    return str(program("tbd").resolve())


@pytest.mark.parametrize("words, said, count", WRONG, ids=[words for words, *_ in WRONG])
def test_words_that_are_no_form(tbd, tmp_path, words, said, count):
    told = kinds.ran(tbd, tmp_path, words.split())
    shown = " ".join(words.split()[:count])
    assert told == (2, b"", f"tbd: Usage: {shown}: {said}\n")
    assert not list(tmp_path.iterdir())


def test_pages_are_printed(tbd, tmp_path):
    status, page, said = kinds.ran(tbd, tmp_path, ["--help"])
    assert (status, said) == (0, "") and page.startswith(b"Usage: tbd FORM\n")
    assert kinds.ran(tbd, tmp_path, ["-h"]) == (0, page, "")
    assert kinds.ran(tbd, tmp_path, []) == (2, b"", page.decode())
    assert kinds.ran(tbd, tmp_path, ["--version"]) == (0, b"tbd 0.1.0\n", "")


# Words that may name a file, and the name that is said of one that is not there. Each control
# character is shown as `?`: an escape code, a line end, a tab, U+007F, U+009B.
NAMES = [
    (["run", "./64", "1", "--existing"], "./64"),
    (["dump", "64."], "64."),
    (["check", "6-4"], "6-4"),
    (["check", "0x40"], "0x40"),
    (["check", ""], ""),
    (["check", "check"], "check"),
    (["check", "a\x1b[2J\nb"], "a?[2J?b"),
    (["dump", "\u009b\tä\x7f"], "??ä?"),
    (["run", "a\nb", "2", "--existing"], "a?b"),
    (["backup", "\x01", "new"], "?"),
]


def missing(name):
    return f"tbd: Device: cannot find {name}; look at its name and at its folder\n"


@pytest.mark.parametrize("words, name", NAMES)
def test_files_that_are_not_there(tbd, tmp_path, words, name):
    kinds.made(tmp_path, "a ledger")
    assert kinds.ran(tbd, tmp_path, words) == (1, b"", missing(name))
    assert [it.name for it in tmp_path.iterdir()] == ["ledger"]


@pytest.mark.parametrize(
    "words, said",
    [
        (["run", "a\r\n", "\x1b]0;"], f"run a?? ?]0;: {CLIENTS}"),
        (["\x07"], f"?: {UNKNOWN}"),
        ([b"check", b"\xff"], "a word is not UTF-8"),
    ],
)
def test_no_control_character_is_printed(tbd, tmp_path, words, said):
    assert kinds.ran(tbd, tmp_path, words) == (2, b"", f"tbd: Usage: {said}\n")


SALVAGE = "; tbd salvage makes a new file of the entries before it"
TORN_LONG = (
    f"tbd: Damaged: ledger: {kinds.TOO_LONG} bytes are after byte 191, more than one batch can"
    f" have{SALVAGE}\n"
)
CHANGED = (
    f"tbd: Damaged: ledger: the block at byte 100 (entry 2) is not what was written{SALVAGE}\n"
)
MADE = "tbd: made ledger\n"
READY = "tbd: ready: commit 2, time 11\n"
CUT = (
    "tbd: copied 5 bytes, from byte 195 on, 0 whole entries, to ledger.cut-195-{}\n"
    "tbd: cut 5 bytes of a batch that was not committed, after byte 191\n"
).format(f"{kinds.crc32c(bytes(range(1, 6))):08x}")
DROPPED = "tbd: cut 5 bytes of a batch that was not committed, after byte 191\n"


def summary(behind):
    return (
        "records 3\nentries 2\nprofile 1\nclients_max 2\nlast time 11\n"
        f"last date 1970-01-01T00:00:00Z\nbytes after the records {behind}\n"
        "whole: every entry was replayed\n"
    ).encode()


# What is asked for, the file, what goes out, and what is said.
DONE = [
    ("run ledger 2", "nothing", REPLIES, MADE),
    ("run ledger 2", "no byte", REPLIES, MADE),
    ("run ledger 2", "no record", REPLIES, MADE),
    ("run ledger 2", "a ledger", AGAIN, ""),
    ("run ledger 2", "torn", AGAIN, CUT),
    ("run ledger 2 1", "no byte", REPLIES, MADE),
    ("run ledger 2 --existing", "no record", REPLIES, MADE),
    ("run ledger 2 --existing", "a ledger", AGAIN, ""),
    ("run ledger 2 --progress", "a ledger", AGAIN, READY),
    ("run ledger 2 1 --progress", "a ledger", AGAIN, READY),
    ("run ledger 2 --existing --progress", "a ledger", AGAIN, READY),
    ("run ledger 2 1 --progress --existing", "a ledger", AGAIN, READY),
    ("run ledger 2 --progress", "nothing", REPLIES, f"{MADE}tbd: ready: commit 0, time 0\n"),
    ("run ledger 2 --drop-torn --progress", "torn", AGAIN, DROPPED + READY),
    ("dump ledger", "a ledger", DUMP, ""),
    ("dump ledger", "torn", DUMP, ""),
    ("dump ledger --after 1", "a ledger", ENTRIES[1], ""),
    ("dump ledger --after 2", "a ledger", b"", ""),
    ("dump ledger --after 9223372036854775807", "a ledger", b"", ""),
    ("check ledger", "a ledger", summary("0"), ""),
    ("check ledger", "torn", summary("5, not committed yet or torn"), ""),
]


@pytest.mark.parametrize("words, kind, out, said", DONE, ids=named)
def test_what_is_asked_for_is_done(tbd, tmp_path, words, kind, out, said):
    path = kinds.made(tmp_path, kind)
    assert kinds.ran(tbd, tmp_path, words.split(), SCRIPT) == (0, out, said)
    if words.startswith("run"):
        assert path.read_bytes() == kinds.LEDGER
    else:
        assert path.read_bytes() == FILES[kind]


@pytest.mark.parametrize("kind", ["a ledger", "torn"])
@pytest.mark.parametrize(
    "options, out", [([], DUMP), (["--after", "1"], ENTRIES[1]), (["--after", "2"], b"")]
)
def test_a_dump_that_goes_on(tbd, tmp_path, kind, options, out):
    """It writes all that is there at once, by options in each order, and waits then."""
    kinds.made(tmp_path, kind)
    for words in (["--follow", *options], [*options, "--follow"]):
        dump = subprocess.Popen(
            [tbd, "dump", "ledger", *words], cwd=tmp_path, stdout=subprocess.PIPE
        )
        try:
            assert dump.stdout.read(len(out)) == out
            with pytest.raises(subprocess.TimeoutExpired):
                dump.wait(0.2)
        finally:
            dump.terminate()
            rest = dump.communicate(timeout=kinds.SECONDS)[0]
        assert rest == b""


NO_HEAD = none("has a first record that is no ledger's head; restore a backup")
NO_RECORD = none("has no record yet; tbd run makes a ledger in it")
EMPTY = none("is empty; tbd run makes a ledger in it")
RULES = "tbd: OtherRules: ledger was made with CLIENTS_MAX 2 and PROFILE 1, not with"
FORMS = ("run ledger 2", "dump ledger", "check ledger")
REFUSED = [
    *((form, "a text", *A_TEXT) for form in FORMS),
    *((form, "a dump", *A_DUMP) for form in FORMS),
    *((form, "a script", *A_SCRIPT) for form in FORMS),
    *((form, "other bytes", *OTHERS) for form in FORMS),
    *((form, "another version", *OTHERS) for form in FORMS),
    *((form, "no head", *NO_HEAD) for form in FORMS),
    *((form, "another's record", *NO_HEAD) for form in FORMS),
    *((form, "torn long", 6, TORN_LONG) for form in FORMS),
    *((form, "second entry changed", 6, CHANGED) for form in FORMS),
    *((form, "no byte", *EMPTY) for form in FORMS[1:]),
    *((form, "no record", *NO_RECORD) for form in FORMS[1:]),
    *((form, "nothing", 1, missing("ledger")) for form in FORMS[1:]),
    ("run ledger 2 --existing", "nothing", 1, missing("ledger")),
    (
        "run ledger 2 --existing",
        "no byte",
        *none("is empty; without --existing tbd run makes a ledger in it"),
    ),
    (
        "run ledger 2 --progress",
        "torn long",
        6,
        f"tbd: reading ledger, 0 of 4 MB\n{TORN_LONG}",
    ),
    ("run ledger 3", "a ledger", 7, f"{RULES} CLIENTS_MAX 3 and PROFILE 1\n"),
    ("run ledger 2 2", "a ledger", 7, f"{RULES} CLIENTS_MAX 2 and PROFILE 2\n"),
]


def only(folder, *names):
    """These are the files of a folder."""
    return sorted(it.name for it in folder.iterdir()) == sorted(names)


@pytest.mark.parametrize("words, kind, status, said", REFUSED, ids=named)
def test_a_file_is_refused(tbd, tmp_path, words, kind, status, said):
    """Nothing is written: neither to the output nor to the file."""
    path = kinds.made(tmp_path, kind)
    assert kinds.ran(tbd, tmp_path, words.split(), SCRIPT) == (status, b"", said)
    if FILES[kind] is None:
        assert only(tmp_path)
    else:
        assert path.read_bytes() == FILES[kind] and only(tmp_path, "ledger")


@pytest.mark.parametrize("words", ["check ledger/x", "dump ledger/x", "run ledger/x 2"])
def test_a_file_that_cannot_be_opened(tbd, tmp_path, words):
    kinds.made(tmp_path, "a ledger")
    line = "tbd: Device: cannot open ledger/x; look at its disk and at its folder\n"
    assert kinds.ran(tbd, tmp_path, words.split()) == (1, b"", line)


def test_one_program_serves_a_file(tbd, tmp_path):
    kinds.made(tmp_path, "a ledger")
    words = [tbd, "run", "ledger", "2"]
    first = subprocess.Popen(
        words, cwd=tmp_path, stdin=subprocess.PIPE, stdout=subprocess.PIPE, stderr=subprocess.PIPE
    )
    try:
        first.stdin.write(SCRIPT)
        first.stdin.flush()
        assert first.stdout.read(len(AGAIN)) == AGAIN
        line = "tbd: Locked: ledger is open in another program; end that one first\n"
        assert kinds.ran(tbd, tmp_path, words[1:]) == (4, b"", line)
    finally:
        assert first.communicate(timeout=kinds.SECONDS) is not None
    assert first.returncode == 0


def on_terminal(tbd, folder, words, **how):
    """What words say if one of their streams is a terminal at its end."""
    ours, theirs = pty.openpty()
    try:
        os.write(ours, b"\x04")  # Ctrl-D
        streams = {name: theirs for name in how}
        streams = {"stdin": subprocess.DEVNULL, **streams}
        done = subprocess.run(
            [tbd, *words],
            cwd=folder,
            stdout=subprocess.PIPE,
            stderr=streams.pop("stderr", subprocess.PIPE),
            timeout=kinds.SECONDS,
            check=False,
            **streams,
        )
        said = done.stderr
        if said is None:
            os.write(theirs, b"\0")
            said = b""
            while not said.endswith(b"\0"):
                said += os.read(ours, 4096)
            said = said.rstrip(b"\0").replace(b"\r\n", b"\n").replace(b"^D\x08\x08", b"")
        return done.returncode, done.stdout, said.decode()
    finally:
        os.close(ours)
        os.close(theirs)


TYPED = (
    "tbd: standard input is a terminal, and run reads request frames there;"
    " telovamish repl and telovamish script take words\n"
)


def test_requests_from_a_terminal(tbd, tmp_path):
    """The form that reads requests says once where words are read."""
    kinds.made(tmp_path, "a ledger")
    assert on_terminal(tbd, tmp_path, ["run", "ledger", "2"], stdin=True) == (0, b"", TYPED)
    assert on_terminal(tbd, tmp_path, ["check", "ledger"], stdin=True) == (0, summary("0"), "")


@pytest.mark.parametrize(
    "words, kind, said",
    [
        ("run ledger 2", "a ledger", READY),
        ("run ledger 2", "torn", CUT + READY),
        ("run ledger 2", "nothing", f"{MADE}tbd: ready: commit 0, time 0\n"),
    ],
)
def test_a_start_is_reported_to_a_terminal(tbd, tmp_path, words, kind, said):
    kinds.made(tmp_path, kind)
    assert on_terminal(tbd, tmp_path, words.split(), stderr=True) == (0, b"", said)


# Forms whose output takes this many bytes, or no bytes at all.
LOST = "tbd: Device: standard output\n"
OUTPUTS = [
    ("run ledger 2", "no byte", 0, REPLIES, MADE + LOST),
    ("run ledger 2", "no byte", 95, REPLIES, MADE + LOST),
    ("run ledger 2", "no record", 95, REPLIES, MADE + LOST),
    ("dump ledger", "a ledger", 0, DUMP, LOST),
    ("dump ledger", "a ledger", 159, DUMP, LOST),
    ("dump ledger --follow", "a ledger", 159, DUMP, LOST),
    ("dump ledger", "no head", 0, b"", NO_HEAD[1]),
    ("check ledger", "a ledger", 0, summary("0"), LOST),
    ("check ledger", "a ledger", 69, summary("0"), LOST),
    ("--help", "nothing", 0, b"", LOST),
    ("--version", "nothing", 9, b"tbd 0.1.0", LOST),
    ("salvage ledger new", "a ledger", 9, b"entries 2\n", LOST),
    ("backup ledger new", "a ledger", 0, b"", LOST),
]


@pytest.mark.parametrize("words, kind, room, whole, said", OUTPUTS, ids=named)
def test_an_output_that_fails(tbd, shim, tmp_path, words, kind, room, whole, said):
    """What went out is a prefix, and no more than it takes; what was kept or copied stays."""
    kinds.made(tmp_path, kind)
    env = environment(shim, "ledger", fault=f"out {room}")
    status, out, told = kinds.ran(tbd, tmp_path, words.split(), SCRIPT, env=env)
    assert (status, told) == (1 if said.endswith(LOST) else 5, said)
    assert whole.startswith(out) and len(out) <= room
    if words.endswith("new"):
        assert (tmp_path / "new").read_bytes() == kinds.LEDGER
        assert not (tmp_path / "new.part").exists()


@pytest.mark.parametrize("words", ["run ledger 2", "dump ledger", "check ledger", "--version"])
def test_an_output_that_takes_nothing(tbd, tmp_path, words):
    kinds.made(tmp_path, "a ledger")
    with open("/dev/full", "wb") as full:
        told = kinds.ran(tbd, tmp_path, words.split(), SCRIPT, stdout=full)
    assert told == (1, None, LOST)


def test_an_input_that_fails(tbd, tmp_path):
    """A folder is opened, and each read of it fails: it is the input that is named."""
    kinds.made(tmp_path, "a ledger")
    folder = os.open(tmp_path, os.O_RDONLY)
    try:
        done = subprocess.run(
            [tbd, "run", "ledger", "2"],
            cwd=tmp_path,
            stdin=folder,
            capture_output=True,
            timeout=kinds.SECONDS,
            check=False,
        )
    finally:
        os.close(folder)
    assert (done.returncode, done.stdout) == (1, b"")
    assert done.stderr == b"tbd: Device: standard input\n"


def lost(count, at):
    """The line of a salvage that did not copy so many bytes."""
    return (
        f"tbd: Damaged: ledger: {count} bytes after byte {at} were not copied; restore a backup, or"
        " enter again what is missing\n"
    )


# What a copy prints, of which kind of file, what is said of what is lost, and how much of the
# ledger the new file has.
WHOLE = "entries 2\nlast commit 2\nlast time 11\nbytes after the records 0\n"
TORN = (
    "entries 2\nlast commit 2\nlast time 11\n"
    "bytes after the records 5, not committed yet or torn\n"
)
COPIES = [
    ("salvage", "a ledger", WHOLE, "", kinds.END),
    ("backup", "a ledger", WHOLE, "", kinds.END),
    ("salvage", "torn", TORN, "", kinds.END),
    ("backup", "torn", TORN, "", kinds.END),
    (
        "salvage",
        "torn long",
        f"entries 2\nlast commit 2\nlast time 11\nbytes lost {kinds.TOO_LONG} after byte 191:"
        f" Damaged: {kinds.TOO_LONG} bytes after byte 191, more than one batch can have\n",
        lost(kinds.TOO_LONG, 191),
        kinds.END,
    ),
    (
        "salvage",
        "second entry changed",
        "entries 1\nlast commit 1\nlast time 10\n"
        "bytes lost 91 after byte 100: Damaged: at byte 100\n",
        lost(91, 100),
        kinds.FIRST_END,
    ),
    (
        "salvage",
        "first entry changed",
        "entries 0\nlast commit 0\nlast time 0\n"
        "bytes lost 166 after byte 25: Damaged: at byte 25\n",
        lost(166, 25),
        kinds.HEAD_END,
    ),
    (
        "salvage",
        "no entry",
        "entries 0\nlast commit 0\nlast time 0\n"
        "bytes lost 14 after byte 25: Damaged: record 1: Short\n",
        lost(14, 25),
        kinds.HEAD_END,
    ),
]


@pytest.mark.parametrize("form, kind, printed, said, end", COPIES, ids=named)
def test_what_is_whole_is_copied(tbd, tmp_path, form, kind, printed, said, end):
    path = kinds.made(tmp_path, kind)
    told = kinds.ran(tbd, tmp_path, [form, "ledger", "new"])
    assert told == (6 if said else 0, printed.encode(), said)
    assert (tmp_path / "new").read_bytes() == kinds.up_to(end)
    assert path.read_bytes() == FILES[kind]


# Copies that are refused: the exit status, the line, and how much of the ledger the part has.
UNCOPIED = [
    ("salvage", "a text", *A_TEXT, None),
    ("backup", "a text", *A_TEXT, None),
    ("salvage", "no record", *NO_RECORD, None),
    ("backup", "no head", *NO_HEAD, None),
    ("salvage", "nothing", 1, missing("ledger"), None),
    (
        "salvage",
        "head changed",
        6,
        "tbd: Damaged: ledger: the block at byte 8 (the head) is not what was written; restore a"
        " backup: tbd salvage needs the head\n",
        None,
    ),
    ("backup", "second entry changed", 6, CHANGED, kinds.FIRST_END),
    ("backup", "torn long", 6, TORN_LONG, kinds.END),
    (
        "backup",
        "no entry",
        6,
        f"tbd: Damaged: ledger: entry 1 is none: Short{SALVAGE}\n",
        kinds.HEAD_END,
    ),
]


@pytest.mark.parametrize("form, kind, status, said, end", UNCOPIED, ids=named)
def test_a_file_is_not_copied(tbd, tmp_path, form, kind, status, said, end):
    kinds.made(tmp_path, kind)
    assert kinds.ran(tbd, tmp_path, [form, "ledger", "new"]) == (status, b"", said)
    part = tmp_path / "new.part"
    assert (part.read_bytes() if part.exists() else None) == (end and kinds.up_to(end))
    assert not (tmp_path / "new").exists()


@pytest.mark.parametrize("form", ["salvage", "backup"])
def test_a_new_file_is_not_made(tbd, tmp_path, form):
    kinds.made(tmp_path, "a ledger")
    (tmp_path / "new").write_bytes(b"")
    line = "tbd: Usage: new exists; give the name of one that is not there\n"
    assert kinds.ran(tbd, tmp_path, [form, "ledger", "new"]) == (2, b"", line)
    assert kinds.ran(tbd, tmp_path, [form, "ledger", "no/new"]) == (1, b"", missing("no/new"))
    assert only(tmp_path, "ledger", "new") and (tmp_path / "new").read_bytes() == b""


def test_a_ledger_without_entries_is_dumped(tbd, tmp_path):
    assert kinds.ran(tbd, tmp_path, ["run", "ledger", "2"]) == (0, b"", MADE)
    assert (tmp_path / "ledger").read_bytes() == kinds.up_to(kinds.HEAD_END)
    assert kinds.ran(tbd, tmp_path, ["dump", "ledger"]) == (0, EMPTY_DUMP, "")
