"""What clients/embed/tb_embed.h and clients/embed/rust/tb_embed.rs make and read of frames, without
the library: frames.c, as C and as C++, and frames.rs write the requests that the client in Python
writes, refuse what a frame may not hold, and read requests and replies as the tests of
docs/use/FORMATS.md say: right ones, each cut at each byte, each with changed bytes, and too long
ones. The client in Python reads the same requests and replies, and takes exactly those that have no
fault and nothing after them."""

import os
import random
import shutil
import struct
import subprocess
import sys
import tempfile

HERE = os.path.dirname(os.path.abspath(__file__))
TOP = os.path.dirname(os.path.dirname(HERE))
sys.path[:0] = [f"{TOP}/tools", f"{TOP}/clients/python/src"]

import frames  # noqa: E402
from tb_client import (  # noqa: E402
    Account,
    AccountFlags,
    Operation,
    Status,
    Transfer,
    TransferFlags,
    amount_max,
)
from tb_client.errors import BadReply, InvalidValue  # noqa: E402
from tb_client.frames import Reply, Request, body_of, request_frame  # noqa: E402

FAULTS = [
    "none",
    "Short",
    "ClientZero",
    "UnknownOperation",
    "Reserved",
    "BadLength",
    "TooMany",
    "RegisterNumbers",
    "RequestZero",
    "Device",
    "NoMemory",
    "ReplyNumbers",
]
ITEM_SIZES = {129: 8, 130: 8, 131: 128, 132: 128}
ITEM_NAMES = {129: "result", 130: "result", 131: "account", 132: "transfer"}


# The programs


def programs(folder):
    """Each program that could be built, as (language, path), or (language, what the compiler
    said) with no path."""
    careful = ["-O1", "-g", "-Wall", "-Wextra", "-Wpedantic", "-Werror"]
    sanitizers = ["-fsanitize=address,undefined", "-fno-sanitize-recover=all"]
    trial = subprocess.run(
        ["cc", *sanitizers, "-x", "c", "-", "-o", f"{folder}/trial"],
        input=b"int main(void) { return 0; }",
        capture_output=True,
    )
    if trial.returncode:
        print("passed over: cc has no AddressSanitizer here")
        sanitizers = []
    kinds = [
        ("C", "cc", ["-std=c11", *careful, *sanitizers, f"{HERE}/frames.c"]),
        ("C++", "c++", ["-std=c++17", *careful, *sanitizers, "-x", "c++", f"{HERE}/frames.c"]),
        (
            "Rust",
            "rustc",
            ["--edition", "2024", "-D", "warnings", "-C", "overflow-checks", f"{HERE}/frames.rs"],
        ),
    ]
    for language, tool, words in kinds:
        path = f"{folder}/frames_{tool}"
        if not shutil.which(tool):
            print(f"passed over: {tool} is not there")
            continue
        ran = subprocess.run([tool, *words, "-o", path], capture_output=True)
        yield language, path if ran.returncode == 0 and not ran.stderr else None, ran.stderr.decode(
            errors="replace"
        )[-1500:]


# Requests


def requests():
    """The frames that each program writes."""
    client, session, number, top = 7 + (9 << 64), 0x1122334455667788, 0xFFFFFFFE, 2**64 - 1

    def wide(low, high):
        return low + (high << 64)

    def account(n):
        flags = AccountFlags.linked | AccountFlags.history | AccountFlags.closed
        return Account(
            wide(n, 1),
            wide(n + 1, 2),
            wide(n + 2, 3),
            wide(n + 3, 4),
            wide(n + 4, 5),
            wide(n + 5, top),
            n + 6,
            n + 7,
            n + 9,
            n + 10,
            flags,
            n + 11,
            reserved=n + 8,
        )

    def transfer(n):
        flags = (
            TransferFlags.pending | TransferFlags.balancing_credit | TransferFlags.closing_credit
        )
        return Transfer(
            wide(n, 1),
            wide(n + 1, 2),
            wide(n + 2, 3),
            amount_max,
            wide(n + 4, 5),
            wide(n + 5, top),
            n + 6,
            n + 7,
            n + 8,
            n + 9,
            n + 10,
            flags,
            n + 11,
        )

    ids = [wide(5, 6), 0, 2**128 - 1]
    yield request_frame(client, 0, 0, Operation.register)
    for operation, items in (
        ("create_accounts", [account(100), account(200)]),
        ("create_transfers", [transfer(300), transfer(400)]),
        ("lookup_accounts", ids),
        ("lookup_transfers", ids),
    ):
        kind = Operation[operation]
        yield request_frame(client, session, number, kind, body_of(kind, items))


REQUEST_SIZES = {129: 128, 130: 128, 131: 16, 132: 16}
REQUEST_NAMES = {129: "account", 130: "transfer", 131: "id", 132: "id"}


def request_fault(data):
    """The fault of a request, by the table of docs/use/FORMATS.md."""
    if len(data) < 48:
        return "Short"
    client = int.from_bytes(data[:16], "little")
    session, request, operation, zeros, length, more = struct.unpack_from("<QIB3sI12s", data, 16)
    register, size = operation == 2, REQUEST_SIZES.get(operation, 16)
    tests = [
        ("ClientZero", client == 0),
        ("UnknownOperation", operation != 2 and operation not in REQUEST_SIZES),
        ("Reserved", any(zeros + more)),
        ("RegisterNumbers", register and (session or request)),
        ("RequestZero", not register and request == 0),
        ("BadLength", length if register else length % size),
        ("TooMany", length // size > 8190),
        ("Short", len(data) < 48 + length),
    ]
    return next((name for name, holds in tests if holds), "none")


def asked(data):
    """What a program prints of the bytes of a request."""
    fault = request_fault(data)
    if fault != "none":
        return f"{FAULTS.index(fault)} {fault}\n"
    low, high, session, number, operation, length = struct.unpack_from("<QQQIB3xI", data)
    lines, size = [
        f"{Operation(operation).name} {high} {low} {session} {number}"
    ], REQUEST_SIZES.get(operation, 16)
    lines += [
        f"  {REQUEST_NAMES[operation]} {data[at : at + size].hex()}"
        for at in range(48, 48 + length, size)
    ]
    return "\n".join(lines) + "\n"


def header(client, session, number, operation, length):
    return frames.request(client, session, number, operation, length=length)


def right_requests():
    """Requests without a fault: a register, and each other operation with 0, 1 and 3 items, and
    numbers from the least to the greatest."""
    chance = random.Random(17)
    yield from requests()
    yield header(1, 0, 0, 2, 0)
    for operation, size in REQUEST_SIZES.items():
        for count in (0, 1, 3):
            yield header(
                2**128 - 1, 2**64 - 1, 2**32 - 1, operation, count * size
            ) + chance.randbytes(count * size)
        yield header(1 << 64, 0, 1, operation, 0)


def long_requests():
    """Requests with as many items as there may be, with one more, and with lengths that are
    wrong or greater than what is there."""
    lengths = (
        0,
        1,
        15,
        16,
        17,
        127,
        128,
        129,
        383,
        384,
        385,
        512,
        2**31,
        2**32 - 1,
        2**32 - 16,
        2**32 - 128,
    )
    for operation, size in REQUEST_SIZES.items():
        for count in (8190, 8191):
            yield header(7, 1, 1, operation, count * size) + bytes(count * size)
        for length in (*lengths, 8190 * size, 8191 * size, 8191 * size - 1):
            yield header(7, 1, 1, operation, length) + bytes(3 * size)
    for length in lengths:
        yield header(7, 0, 0, 2, length) + bytes(384)


def odd_requests():
    """Each operation, and numbers that are not one, with clients, sessions and numbers that may be
    0; and each reserved byte set."""
    for operation in (*range(0, 4), *range(127, 135), 255):
        for client in (0, 1, 1 << 64, 2**128 - 1):
            for session in (0, 1, 2**32, 2**64 - 1):
                for number in (0, 1, 2**16, 2**32 - 1):
                    yield header(client, session, number, operation, 0)
    for operation, number in ((2, 0), (129, 1), (132, 1)):
        for at in (*range(29, 32), *range(36, 48)):
            for byte in (1, 128, 255):
                frame = bytearray(header(7, 0, number, operation, 0))
                frame[at] = byte
                yield bytes(frame)


def request_kinds():
    right = list(right_requests())
    return [
        ("right requests", right),
        ("requests cut at each byte", [it[:length] for it in right for length in range(len(it))]),
        (
            "requests with more bytes behind them",
            [it + bytes([255] * more) for it in right for more in (1, 16, 48, 128)],
        ),
        ("the longest requests, and wrong lengths", list(long_requests())),
        ("requests whose numbers may not go together", list(odd_requests())),
        ("requests with changed bytes", list(changed(right))),
    ]


def taken_in_python(data):
    """Whether the client in Python reads these bytes as a request, and writes them again."""
    try:
        return Request.from_bytes(data).to_bytes() == data
    except InvalidValue:
        return False


def read_in_python(data):
    """Whether the client in Python reads these bytes as a reply, and writes them again."""
    try:
        return Reply.from_bytes(data).to_bytes() == data
    except BadReply:
        return False


def wrongly_read(several, takes, fault_of):
    """Bytes that the client in Python takes though they are no whole frame without a fault, or
    does not take though they are."""
    is_whole = [
        fault_of(it) == "none" and len(it) == 48 + int.from_bytes(it[32:36], "little")
        for it in several
    ]
    return [it[:60].hex() for it, whole in zip(several, is_whole) if takes(it) != whole]


def request_cases(kinds):
    """What the definitions of this file say of requests, and what the client in Python makes of
    them."""
    found = {request_fault(it) for _, several in kinds for it in several}
    yield "each fault of a request comes of some request", found == {*FAULTS} - {
        "Device",
        "NoMemory",
        "ReplyNumbers",
    }, str(found)
    yield "cut requests are Short", {request_fault(it) for it in kinds[1][1]} == {"Short"}, ""
    for what, several in kinds:
        wrong = wrongly_read(several, taken_in_python, request_fault)
        yield f"{len(several)} {what} in Python", not wrong, str(wrong[:1])


# Replies


def reply_fault(data):
    """The fault of a reply, by the table of docs/use/FORMATS.md."""
    if len(data) < 48:
        return "Short"
    client = int.from_bytes(data[:16], "little")
    session, request, operation, status, zeros, length, commit, more = struct.unpack_from(
        "<QIBBHIQI", data, 16
    )
    register, refusal = operation == 2, status != 0
    size = ITEM_SIZES.get(operation, 8)
    tests = [
        ("ClientZero", client == 0),
        ("UnknownOperation", operation != 2 and operation not in ITEM_SIZES),
        ("Reserved", status > 7 or zeros or more),
        ("RegisterNumbers", register and (request or (refusal and session))),
        ("RequestZero", not register and request == 0),
        (
            "ReplyNumbers",
            commit
            if refusal
            else session == 0 or (session != commit if register else session >= commit),
        ),
        ("BadLength", length if register or refusal else length % size),
        ("TooMany", length // size > 8190),
        ("Short", len(data) < 48 + length),
    ]
    return next((name for name, holds in tests if holds), "none")


def told(data):
    """What a program prints of the bytes."""
    fault = reply_fault(data)
    if fault != "none":
        return f"{FAULTS.index(fault)} {fault}\n"
    operation, status, length, commit = data[28], data[29], *struct.unpack_from("<IQ", data, 32)
    lines = [f"{Operation(operation).name} {Status(status).name} {commit}"]
    for at in range(48, 48 + length, ITEM_SIZES.get(operation, 8)):
        item = data[at : at + ITEM_SIZES[operation]]
        lines.append(
            f"  {ITEM_NAMES[operation]} "
            + ("%d %d" % struct.unpack("<II", item) if len(item) == 8 else item.hex())
        )
    return "\n".join(lines) + "\n"


def right_replies():
    """Replies without a fault: of each operation with 0, 1 and 3 items, and of each status."""
    chance = random.Random(7)
    yield Reply(7, 5, 0, 2, 0, 5, b"").to_bytes()
    for operation, size in ITEM_SIZES.items():
        for count in (0, 1, 3):
            yield Reply(
                2**128 - 1,
                2**64 - 2,
                2**32 - 1,
                operation,
                0,
                2**64 - 1,
                chance.randbytes(count * size),
            ).to_bytes()
        for status in range(1, 8):
            yield Reply(1 << 64, 3, 4, operation, status, 0, b"").to_bytes()
    for status in range(1, 8):
        yield Reply(7, 0, 0, 2, status, 0, b"").to_bytes()


def long_replies():
    """Replies with as many items as there may be, with one more, and with lengths that are wrong
    or greater than what is there."""
    for operation, size in ITEM_SIZES.items():
        for count in (8190, 8191):
            yield Reply(7, 1, 1, operation, 0, 2, bytes(count * size)).to_bytes()
        frame = bytearray(Reply(7, 1, 1, operation, 0, 2, bytes(3 * size)).to_bytes())
        for length in (
            0,
            1,
            size - 1,
            size,
            3 * size - 1,
            3 * size + 1,
            4 * size,
            8190 * size,
            8191 * size,
            2**31,
            2**32 - 1,
            2**32 - size,
        ):
            frame[32:36] = length.to_bytes(4, "little")
            yield bytes(frame)


def odd_numbers():
    """Replies to each operation, by each status, with numbers that go together or not."""
    for operation in (2, *ITEM_SIZES):
        for status in (0, 1, 7, 8):
            for session, commit in (
                (0, 0),
                (0, 1),
                (1, 0),
                (1, 1),
                (1, 2),
                (2, 1),
                (2**63, 2**63 + 1),
                (2**32, 1),
                (1, 2**32),
            ):
                for client, request in ((0, 1), (1, 0), (1, 1), (1 << 64, 2**32 - 1)):
                    yield Reply(client, session, request, operation, status, commit, b"").to_bytes()


def changed(right):
    """Frames with bytes of their headers changed at random, to numbers that mean something."""
    chance = random.Random(11)
    for _ in range(20000):
        frame = bytearray(chance.choice(right))
        for _ in range(chance.choice((1, 1, 2, 3))):
            frame[chance.randrange(48)] = chance.choice(
                (0, 0, 1, 2, 7, 8, 128, 129, 131, 132, 133, 255)
            )
        if chance.random() < 0.1:
            frame[:16] = bytes(16)
        yield bytes(
            frame[
                : chance.choice(
                    (len(frame), len(frame), len(frame), chance.randrange(len(frame) + 1))
                )
            ]
        )


def read_by(path, mode, several):
    given = b"".join(struct.pack("<I", len(it)) + it for it in several)
    ran = subprocess.run([path, mode], input=given, capture_output=True, timeout=300)
    return (
        ran.stdout.decode() if ran.returncode == 0 else ran.stderr.decode(errors="replace")[-1500:]
    )


def said(ran):
    """The end of what a program printed."""
    return (ran.stdout + ran.stderr).decode(errors="replace")[-1500:]


def cases():
    """Each case: what is tested, whether it holds, and why not."""
    right = list(right_replies())
    kinds = [
        ("right replies", right),
        ("replies cut at each byte", [it[:length] for it in right for length in range(len(it))]),
        (
            "replies with more bytes behind them",
            [it + bytes([255] * more) for it in right for more in (1, 48, 128)],
        ),
        ("the longest replies, and wrong lengths", list(long_replies())),
        ("replies whose numbers may not go together", list(odd_numbers())),
        ("replies with changed bytes", list(changed(right))),
    ]
    found = {reply_fault(it) for _, replies in kinds for it in replies}
    yield "each fault comes of some reply", found == {*FAULTS} - {"Device", "NoMemory"}, str(found)
    yield "cut replies are Short", {reply_fault(it) for it in kinds[1][1]} == {"Short"}, ""
    for what, several in kinds:
        wrong = wrongly_read(several, read_in_python, reply_fault)
        yield f"{len(several)} {what} in Python", not wrong, str(wrong[:1])
    asking = request_kinds()
    yield from request_cases(asking)
    wanted = "".join(it.hex() + "\n" for it in requests())
    with tempfile.TemporaryDirectory() as folder:
        for language, path, why in programs(folder):
            yield f"the frames in {language} are built", path is not None, why
            if path is None:
                continue
            written, refused = (
                subprocess.run([path, mode], capture_output=True, timeout=300)
                for mode in ("write", "refused")
            )
            holds = written.stdout.decode() == wanted
            yield f"requests in {language} are those of the client in Python", holds, said(written)
            holds = refused.stdout == b"ok\n" and refused.returncode == 0
            yield f"requests that have no frame in {language}", holds, said(refused)
            for mode, tell, several in (("requests", asked, asking), ("read", told, kinds)):
                for what, given in several:
                    got, lines = read_by(path, mode, given), "".join(map(tell, given))
                    yield f"{len(given)} {what} in {language}", got == lines, difference(got, lines)


def difference(got, wanted):
    pairs = zip(got.splitlines(), wanted.splitlines())
    return next(
        (f"{a[:200]} in place of {b[:200]}" for a, b in pairs if a != b),
        got[-1500:] if got != wanted else "",
    )
