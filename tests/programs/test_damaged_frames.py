"""Damaged frames, scripts and dumps, through the readers and through the built program.

    /usr/bin/python3 -m pytest tests/programs/test_damaged_frames.py [--frames N] [--seed N]

`--frames N` (20000, and 1000000 in the long form of docs/trust/TESTED.md) is how many damaged
frames the readers are given (tb_test_refusals), and how many the program is (tbs), in scripts and
dumps. Bytes are flipped, cut off, put in and spliced; lengths, numbers, moments and commits go to
their limits. A reader of the formats written here from docs/use/FORMATS.md and docs/use/RULES.md,
apart from the crates, says what is right: the fault of each frame; and of each script and dump the
status, the line of the fault, and of each reply all but the results. The program has room for one
body as large as a header can claim, and no more; a signal, a minute's silence (CHECK_LONGER times
as long) or another answer is a failure. Needs Linux.
"""

import random
import resource
import struct
import subprocess
import tempfile
import time

import pytest
import tried

from ..conftest import found

PROGRAM, READER = map(found, ("tbs", "tb_test_refusals"))
SECONDS = 60 * tried.LONGER  # that one run may take
MAX_TIME = 2**63 - 1
ITEMS_MAX = 8190
REGISTER, ACCOUNTS, TRANSFERS, LOOK_ACCOUNTS, LOOK_TRANSFERS = 2, 129, 130, 131, 132
ASKED = {REGISTER: 0, ACCOUNTS: 128, TRANSFERS: 128, LOOK_ACCOUNTS: 16, LOOK_TRANSFERS: 16}
ANSWERED = {REGISTER: 0, ACCOUNTS: 8, TRANSFERS: 8, LOOK_ACCOUNTS: 128, LOOK_TRANSFERS: 128}
NUMBERS = {
    name: at + 1
    for at, name in enumerate(
        [
            "Short",
            "ClientZero",
            "UnknownOperation",
            "Reserved",
            "BadLength",
            "TooMany",
            "RegisterNumbers",
            "RequestZero",
            "Device",
            "NoMemory",
            "ReplyNumbers",
        ]
    )
}
REPLY, NO_SESSION, TOO_LOW, NEWER_SESSION, OLDER, COLLISION, NEWER_REQUEST = range(7)


# the formats


def length_fault(frame, length, size):
    """The tests of a body's length, and whether it is there."""
    if length if size == 0 else length % size:
        return "BadLength"
    if size and length // size > ITEMS_MAX:
        return "TooMany"
    return "Short" if len(frame) < 48 + length else None


def request_fault(frame):
    if len(frame) < 48:
        return "Short"
    session, request, operation, reserved, length = struct.unpack_from("<QIB3sI", frame, 16)
    if not any(frame[:16]):
        return "ClientZero"
    if operation not in ASKED:
        return "UnknownOperation"
    if any(reserved) or any(frame[36:48]):
        return "Reserved"
    if operation == REGISTER and (session or request):
        return "RegisterNumbers"
    if operation != REGISTER and not request:
        return "RequestZero"
    return length_fault(frame, length, ASKED[operation])


def reply_fault(frame):
    if len(frame) < 48:
        return "Short"
    session, request, operation, status, reserved, length, commit = struct.unpack_from(
        "<QIBB2sIQ", frame, 16
    )
    if not any(frame[:16]):
        return "ClientZero"
    if operation not in ANSWERED:
        return "UnknownOperation"
    if status > 7 or any(reserved) or any(frame[44:48]):
        return "Reserved"
    if operation == REGISTER and (request or (status and session)):
        return "RegisterNumbers"
    if operation != REGISTER and not request:
        return "RequestZero"
    if status:
        agree = commit == 0
    else:
        agree = session != 0 and (session == commit if operation == REGISTER else session < commit)
    if not agree:
        return "ReplyNumbers"
    return length_fault(frame, length, 0 if status else ANSWERED[operation])


def request_length(frame):
    """The bytes of a frame that has no fault."""
    return 48 + struct.unpack_from("<I", frame, 32)[0]


# the rules of sessions


class Sessions:
    """For each client its session, its last request and that one's commit; the last commit, and the
    last time."""

    def __init__(self, clients_max):
        self.clients_max, self.rows, self.commit, self.time = clients_max, {}, 0, 0

    def status(self, frame):
        """The status of the answer; None if the request is new."""
        client, (session, request, operation) = bytes(frame[:16]), struct.unpack_from(
            "<QIB", frame, 16
        )
        row = self.rows.get(client)
        if row is None:
            return None if operation == REGISTER else NO_SESSION
        last = struct.unpack_from("<I", row["frame"], 24)[0]
        if operation == REGISTER:
            return REPLY if last == 0 else OLDER
        if session != row["session"]:
            return TOO_LOW if session < row["session"] else NEWER_SESSION
        if request < last:
            return OLDER
        if request == last:
            return (
                REPLY
                if (frame[28], frame[48:]) == (row["frame"][28], row["frame"][48:])
                else COLLISION
            )
        return None if request == last + 1 else NEWER_REQUEST

    def least_time(self, frame):
        events = len(frame[48:]) // 128 if frame[28] in (ACCOUNTS, TRANSFERS) else 0
        return self.time + max(events, 1)

    def enter(self, frame, time):
        """Executes a new request, and returns the head of its reply, except its length."""
        client, session, request, operation = bytes(frame[:16]), *struct.unpack_from(
            "<QIB", frame, 16
        )
        self.commit, self.time = self.commit + 1, time
        if operation == REGISTER:
            session = self.commit
            if len(self.rows) >= self.clients_max:
                del self.rows[min(self.rows, key=lambda it: self.rows[it]["commit"])]
        self.rows[client] = {"session": session, "frame": bytes(frame), "commit": self.commit}
        return Wanted(
            client + struct.pack("<QIBB2x", session, request, operation, REPLY),
            self.commit,
            len(frame[48:]),
        )

    def refuse(self, frame, status):
        return Wanted(bytes(frame[:29]) + bytes([status, 0, 0]), 0, 0)

    def repeated(self, frame):
        """The commit of the reply that is stored."""
        return self.rows[bytes(frame[:16])]["commit"]


class Wanted:
    """A reply that is wanted: its first 32 bytes, its commit, and the bytes of the request's
    body."""

    def __init__(self, head, commit, asked):
        self.head, self.commit, self.asked = head, commit, asked

    def fits(self, length):
        """Whether a body may have this length: a result for some of the events, a record for
        some of the ids."""
        if self.head[29] != REPLY:
            return length == 0
        size = ANSWERED[self.head[28]]
        most = self.asked // 128 * 8 if size == 8 else self.asked // 16 * 128 if size else 0
        return length <= most and (length % size == 0 if size else length == 0)


# what is right of a script or a dump: the replies, the entries, and the fault


def right_of_script(script, clients_max):
    """The replies wanted (a number means the reply of that commit, given again), the
    entries, and the fault."""
    sessions, wanted, entries, at = Sessions(clients_max), [], [], 0
    while at < len(script):
        frame = script[at + 8 :]
        fault = "Short" if len(script) < at + 8 else request_fault(frame[: 48 + ITEMS_MAX * 128])
        if fault:
            return wanted, entries, fault
        frame, moment = frame[: request_length(frame)], struct.unpack_from("<Q", script, at)[0]
        at += 8 + len(frame)
        status = sessions.status(frame)
        if status is None:
            time = max(moment, sessions.least_time(frame))
            if time > MAX_TIME:
                return wanted, entries, "TimeExhausted"
            wanted.append(sessions.enter(frame, time))
            entries.append((sessions.commit, time, bytes(frame)))
        else:
            wanted.append(
                sessions.repeated(frame) if status == REPLY else sessions.refuse(frame, status)
            )
    return wanted, entries, None


def right_of_dump(dump):
    """The replies wanted, and the fault."""
    if len(dump) < 16 or dump[:8] != b"TBSDUMP1":
        return [], "Head"
    profile, clients_max = struct.unpack_from("<II", dump, 8)
    if profile not in (1, 2) or not 1 <= clients_max <= 64:
        return [], "Head"
    sessions, wanted, at = Sessions(clients_max), [], 16
    while at < len(dump):
        if len(dump) < at + 16:
            return wanted, "Short"
        commit, time = struct.unpack_from("<QQ", dump, at)
        at += 16
        if commit == 0:
            if time != 2 or profile == 2:
                return wanted, "Mark"
            profile = 2
            continue
        frame = dump[at : at + 48 + ITEMS_MAX * 128]
        fault = request_fault(frame)
        if fault:
            return wanted, fault
        frame = frame[: request_length(frame)]
        at += len(frame)
        if (
            commit != sessions.commit + 1
            or not sessions.least_time(frame) <= time <= MAX_TIME
            or sessions.status(frame) is not None
        ):
            return wanted, "NotLegal"
        wanted.append(sessions.enter(frame, time))
    return wanted, None


def are_replies(output, wanted):
    """Whether the output is these replies."""
    at, by_commit = 0, {}
    for reply in wanted:
        if isinstance(reply, int):
            stored = by_commit[reply]
            if output[at : at + len(stored)] != stored:
                return False
            at += len(stored)
            continue
        if len(output) < at + 48:
            return False
        length, commit = struct.unpack_from("<IQ", output, at + 32)
        frame = output[at : at + 48 + length]
        at += 48 + length
        if (
            reply_fault(frame)
            or frame[:32] != reply.head
            or commit != reply.commit
            or not reply.fits(length)
        ):
            return False
        by_commit[commit] = frame
    return at == len(output)


# frames, and damage


def header(client, session, request, operation, length):
    return client.to_bytes(16, "little") + struct.pack(
        "<QIB3xI12x", session, request, operation, length
    )


def body_of(chance, operation):
    count = chance.choice((0, 1, 1, 2, 3))
    if operation == ACCOUNTS:
        return b"".join(
            chance.randint(1, 9).to_bytes(16, "little")
            + bytes(96)
            + struct.pack("<IHHQ", 700, 10, chance.choice((0, 0, 1, 2, 4)), 0)
            for _ in range(count)
        )
    if operation == TRANSFERS:
        return b"".join(
            b"".join(
                it.to_bytes(16, "little")
                for it in (
                    chance.randint(1, 99),
                    chance.randint(1, 9),
                    chance.randint(1, 9),
                    chance.randint(0, 50),
                    0,
                    0,
                )
            )
            + struct.pack("<QIIIHHQ", 0, 0, 0, 700, 10, chance.choice((0, 0, 1, 2, 16)), 0)
            for _ in range(count)
        )
    return b"".join(chance.randint(0, 99).to_bytes(16, "little") for _ in range(count))


def next_frame(chance, sessions):
    """A frame that one of five clients may send next: a register, the request that is due, or
    its last one again."""
    client = chance.randint(1, 5)
    row = sessions.rows.get(client.to_bytes(16, "little"))
    if row is None or chance.random() < 0.05:
        return header(client, 0, 0, REGISTER, 0)
    if chance.random() < 0.2:
        return row["frame"]
    last = struct.unpack_from("<I", row["frame"], 24)[0]
    operation = chance.choice((ACCOUNTS, TRANSFERS, TRANSFERS, LOOK_ACCOUNTS, LOOK_TRANSFERS))
    body = body_of(chance, operation)
    return header(client, row["session"], last + 1, operation, len(body)) + body


def next_reply(chance):
    operation, status = chance.choice(list(ANSWERED)), chance.choice((0, 0, 0, 1, 2, 4, 5, 7))
    commit = chance.randint(2, 99)
    session = (
        (commit if operation == REGISTER else chance.randint(1, commit - 1))
        if status == 0
        else 0
        if operation == REGISTER
        else chance.randint(0, 99)
    )
    body = chance.randbytes(ANSWERED[operation] * chance.choice((0, 1, 2))) if status == 0 else b""
    head = chance.randint(1, 9).to_bytes(16, "little") + struct.pack(
        "<QIBB2xI",
        session,
        0 if operation == REGISTER else chance.randint(1, 9),
        operation,
        status,
        len(body),
    )
    return head + struct.pack("<Q4x", 0 if status else commit) + body


def limit_of_length(chance):
    size = chance.choice((1, 8, 16, 128))
    return chance.choice(
        (
            0,
            1,
            size - 1,
            size,
            ITEMS_MAX * size - 1,
            ITEMS_MAX * size,
            ITEMS_MAX * size + 1,
            (ITEMS_MAX + 1) * size,
            2**31,
            2**32 - size,
            2**32 - 1,
        )
    )


def damaged(chance, frame, other):
    """The frame with one to three damages; some of the bytes of another may be put in."""
    frame = bytearray(frame)
    for _ in range(chance.choice((1, 1, 1, 2, 3))):
        kind = chance.randrange(12)
        at = chance.randrange(len(frame)) if frame else 0
        if kind <= 2 and frame:
            frame[at] ^= 1 << chance.randrange(8)
        elif kind == 3 and frame:
            frame[at] = chance.choice((0, 1, 0x7F, 0x80, 0xFF))
        elif kind == 4 and len(frame) > 48:
            frame[chance.randrange(48, len(frame))] ^= 1 << chance.randrange(8)
        elif kind == 5:
            del frame[at:]
        elif kind == 6:
            frame[at:at] = chance.randbytes(chance.choice((1, 8, 16, 48)))
        elif kind == 7:
            start = chance.randrange(len(other) + 1)
            frame[at:] = other[start : start + chance.randrange(1, 400)]
        elif kind == 8 and len(frame) >= 48:
            struct.pack_into("<I", frame, 32, limit_of_length(chance))
        elif kind == 9 and len(frame) >= 48:
            struct.pack_into("<Q", frame, 16, chance.choice((0, 1, 2, 2**63, 2**64 - 1)))
        elif kind == 10 and len(frame) >= 48:
            struct.pack_into("<I", frame, 24, chance.choice((0, 1, 2, 2**31, 2**32 - 1)))
        elif kind == 11 and len(frame) >= 48:
            frame[chance.choice((28, 29))] = chance.choice(
                (0, 1, 2, 7, 8, 128, 129, 130, 131, 132, 133, 255)
            )
    return bytes(frame)


def number_near(chance, right):
    """A moment, a time or a commit: right, a little off, or a limit."""
    return chance.choice(
        [right] * 40
        + [right + 1, right + 5, max(right, 1) - 1, 0, 2, MAX_TIME, 2**63, 2**64 - 1]
    )


def make_stream(chance, sessions, lead_of, goes_on):
    """Rows of frames after their leads, damaged; most of those at which a reader would stop are
    left out, and the first that is not is the last, except for what is spliced on. Returns the
    bytes, and how many frames."""
    rows, other = [], header(3, 0, 0, REGISTER, 0)
    while len(rows) < 40:
        right = next_frame(chance, sessions)
        frame = damaged(chance, right, other) if chance.random() < 0.75 else right
        lead = lead_of(sessions, right)
        whole = request_fault(frame) is None and request_length(frame) == len(frame)
        time = goes_on(sessions, lead, frame) if whole else None
        if time is None and chance.random() < 0.96:
            continue
        rows.append(lead + frame)
        if time is None:
            break
        other = right
        if sessions.status(frame) is None:
            sessions.enter(frame, time)
    stream = b"".join(rows)
    if chance.random() < 0.2:
        stream = stream + chance.choice(
            (rows[-1], rows[0], chance.randbytes(chance.choice((1, 7, 8, 15, 16, 60))))
        )
    if chance.random() < 0.05:
        stream = stream[: chance.randrange(len(stream) + 1)]
    return stream, len(rows)


def make_script(chance, clients_max):
    def lead_of(sessions, frame):
        return struct.pack(
            "<Q", number_near(chance, chance.choice((0, sessions.time + 1, sessions.time + 1000)))
        )

    def goes_on(sessions, lead, frame):
        time = max(struct.unpack("<Q", lead)[0], sessions.least_time(frame))
        return time if sessions.status(frame) is not None or time <= MAX_TIME else None

    return make_stream(chance, Sessions(clients_max), lead_of, goes_on)


def make_dump(chance):
    profile, clients_max = chance.choice((1, 2)), chance.randint(1, 4)
    head = b"TBSDUMP1" + struct.pack("<II", profile, clients_max)
    if chance.random() < 0.05:
        head = damaged(chance, head, head)

    def lead_of(sessions, frame):
        mark = (
            struct.pack("<QQ", 0, chance.choice((2, 2, 2, 2, 3, 0)))
            if chance.random() < 0.02
            else b""
        )
        return mark + struct.pack(
            "<QQ",
            number_near(chance, sessions.commit + 1),
            number_near(chance, sessions.least_time(frame)),
        )

    def goes_on(sessions, lead, frame):
        commit, time = struct.unpack("<QQ", lead[-16:])
        legal = (
            sessions.status(frame) is None
            and commit == sessions.commit + 1
            and sessions.least_time(frame) <= time <= MAX_TIME
        )
        return time if legal else None

    stream, count = make_stream(chance, Sessions(clients_max), lead_of, goes_on)
    return head + stream, count


# the program, and the readers


def limited(kib):
    return lambda: resource.setrlimit(resource.RLIMIT_AS, (kib << 10, kib << 10))


def run(words, given, kib):
    """Status, output and standard error; no status if it is still running after a minute."""
    try:
        ran = subprocess.run(
            words, input=given, capture_output=True, timeout=SECONDS, preexec_fn=limited(kib)
        )
    except subprocess.TimeoutExpired:
        return None, b"", b"still running"
    return ran.returncode, ran.stdout, ran.stderr


def least_room():
    """The least room, in KiB, in which the program serves a register."""
    first = bytes(8) + header(7, 0, 0, REGISTER, 0)
    for kib in range(1024, 65536, 64):
        status = run([PROGRAM, "run", "64"], first, kib)[0]
        if status == 0:
            return kib
        if status is None:
            pytest.fail(f"the program does not answer a register in {kib} KiB")
    return pytest.fail("the program does not serve a register in 64 MiB")


def entries_of(entries, mark_above):
    """The entries of a dump, with the mark before the first one above a commit."""
    spelled = []
    for commit, at, frame in entries:
        if mark_above is not None and commit > mark_above:
            spelled.append(struct.pack("<QQ", 0, 2))
            mark_above = None
        spelled.append(struct.pack("<QQ", commit, at) + frame)
    return b"".join(spelled)


def one_run(chance, kib):
    """Gives the program a damaged script or dump. Returns the kind, how many frames it had, the
    fault, what was wrong, and the bytes."""
    kind = chance.choice(("run", "run", "dump", "replay", "replay"))
    if kind == "replay":
        given, count = make_dump(chance)
        words, (wanted, fault) = ["replay"], right_of_dump(given)
    else:
        clients_max = chance.randint(1, 4)
        given, count = make_script(chance, clients_max)
        wanted, entries, fault = right_of_script(given, clients_max)
        words = [kind, str(clients_max)]
        if kind == "run":
            words.append(chance.choice(("1", "2")))
        elif chance.random() < 0.5:
            words.append(str(chance.choice((0, 1, 3, 10, MAX_TIME))))
    status, output, told = run([PROGRAM, *words], given, kib)
    right = (2, f"tbs: {fault}\n".encode()) if fault else (0, b"")
    wrong = None
    if (status, told) != right:
        wrong = f"{words}: {status}, {told}; wanted {right}"
    elif kind == "dump":
        mark_above = int(words[2]) if len(words) == 3 else None
        if output != b"TBSDUMP1" + struct.pack("<II", 1, clients_max) + entries_of(
            entries, mark_above
        ):
            wrong = f"{words}: another dump"
    elif not are_replies(output, wanted):
        wrong = f"{words}: other replies"
    return kind, count, fault or "no fault", wrong, given


def keep(given):
    """Writes down what was answered wrongly."""
    with tempfile.NamedTemporaryFile(prefix="damage.", delete=False) as file:
        file.write(given)
    return file.name


def through_program(chance, frames):
    """The program's runs over a number of damaged frames. Returns how many runs were wrong."""
    # a body as large as a header can claim, and 512 KiB for requests and replies as small as those
    # here
    kib = least_room() + ITEMS_MAX * 128 // 1024 + 512
    faults, runs, count, failed, slowest = {}, 0, 0, 0, 0.0
    while count < frames:
        start = time.monotonic()
        kind, more, fault, wrong, given = one_run(chance, kib)
        slowest = max(slowest, time.monotonic() - start)
        runs, count = runs + 1, count + more
        faults[fault] = faults.get(fault, 0) + 1
        if wrong:
            failed += 1
            print(f"FAILED: {wrong}: {keep(given)}")
    print(
        f"the program, in {kib} KiB: {runs} scripts and dumps of {count} frames, {failed} "
        f"answered wrongly, the slowest in {slowest:.2f} seconds"
    )
    print("    " + ", ".join(f"{fault} {faults[fault]}" for fault in sorted(faults)))
    return failed


def kept_as(status, commit, length=0, operation=ACCOUNTS, request=1):
    """The header of a reply to client 7 in session 1."""
    head = struct.pack("<QIBB2xIQ4x", 1, request, operation, status, length, commit)
    return (7).to_bytes(16, "little") + head


def worked():
    """Frames after their kinds, and the line that each gets by docs/use/FORMATS.md."""
    lookup = header(7, 1, 1, LOOK_ACCOUNTS, 16)
    return (
        (1, header(7, 0, 0, REGISTER, 0), 0),
        (1, header(0, 0, 0, REGISTER, 0), NUMBERS["ClientZero"]),
        (1, header(7, 0, 0, 3, 0), NUMBERS["UnknownOperation"]),
        (1, header(7, 1, 0, REGISTER, 0), NUMBERS["RegisterNumbers"]),
        (1, header(7, 1, 0, LOOK_ACCOUNTS, 0), NUMBERS["RequestZero"]),
        (1, header(7, 1, 1, LOOK_ACCOUNTS, 15), NUMBERS["BadLength"]),
        (1, header(7, 1, 1, ACCOUNTS, 8191 * 128), NUMBERS["TooMany"]),
        (1, lookup, NUMBERS["Short"]),
        (1, lookup[:47], NUMBERS["Short"]),
        (1, lookup + bytes(16), 0),
        (2, kept_as(0, 1, operation=REGISTER, request=0), 0),
        (2, kept_as(0, 2, operation=REGISTER, request=0), NUMBERS["ReplyNumbers"]),
        (2, kept_as(8, 2), NUMBERS["Reserved"]),
        (2, kept_as(0, 2, length=8) + bytes(8), 0),
        (2, kept_as(4, 0), 0),
        (3, b"", 255),
    )


def read_worked():
    """Gives the readers the frames of `worked`. Returns how many were answered wrongly."""
    given = [struct.pack("<BI", kind, len(frame)) + frame for kind, frame, _ in worked()]
    status, output, told = run([READER, "read"], b"".join(given), 65536)
    answers = output.split(b"\n")[:-1]
    right = [str(line).encode() for _, _, line in worked()]
    if status == 0 and not told and answers == right:
        return 0
    print(f"FAILED: the worked frames: {status}, {told}, {answers}, wanted {right}")
    return 1


def read_batch(chance, count):
    """Gives the readers a number of damaged frames of requests and replies. Returns the faults, and
    how many were answered wrongly."""
    sessions, given, wanted, other = Sessions(5), [], [], header(3, 0, 0, REGISTER, 0)
    for _ in range(count):
        if chance.random() < 0.5:
            kind, right, fault_of = 1, next_frame(chance, sessions), request_fault
            if sessions.status(right) is None:
                sessions.enter(right, 0)
        else:
            kind, right, fault_of = 2, next_reply(chance), reply_fault
        frame = damaged(chance, right, other)
        other = right
        given.append(struct.pack("<BI", kind, len(frame)) + frame)
        wanted.append(fault_of(frame))
    status, output, told = run([READER, "read"], b"".join(given), 65536)
    answers = output.split(b"\n")[:-1]
    right = [str(NUMBERS[fault] if fault else 0).encode() for fault in wanted]
    if status != 0 or told or len(answers) != count:
        print(
            f"FAILED: the readers: {status}, {told}, {len(answers)} of {count} answers: "
            f"{keep(b''.join(given))}"
        )
        return wanted, count
    wrong = [at for at in range(count) if answers[at] != right[at]]
    for at in wrong:
        print(f"FAILED: the readers: {answers[at]}, wanted {right[at]}: {keep(given[at])}")
    return wanted, len(wrong)


def through_readers(chance, frames):
    """The readers over a number of damaged frames. Returns how many were answered wrongly."""
    faults, count, failed = {}, 0, 0
    while count < frames:
        size = min(10000, frames - count)
        found, wrong = read_batch(chance, size)
        count, failed = count + size, failed + wrong
        for fault in found:
            faults[fault or "no fault"] = faults.get(fault or "no fault", 0) + 1
    print(f"the readers: {count} frames, {failed} answered wrongly")
    print("    " + ", ".join(f"{fault} {faults[fault]}" for fault in sorted(faults)))
    return failed


@pytest.fixture
def chance(pytestconfig):
    return random.Random(pytestconfig.getoption("seed"))


@pytest.fixture
def count(pytestconfig):
    return pytestconfig.getoption("frames")


@pytest.mark.slow(reason="needs the readers of a test crate as a program", seconds=5)
def test_worked_frames(program):
    program("tb_test_refusals")
    assert read_worked() == 0


@pytest.mark.slow(reason="damages 20,000 frames", seconds=60)
def test_damaged_frames_through_readers(program, chance, count):
    program("tb_test_refusals")
    assert through_readers(chance, count) == 0


@pytest.mark.slow(reason="damages 20,000 frames", seconds=60)
def test_damaged_frames_through_the_program(tbs, chance, count):
    assert through_program(chance, count) == 0


def test_a_few_damaged_frames_through_the_program(tbs, chance):
    assert through_program(chance, 200) == 0
