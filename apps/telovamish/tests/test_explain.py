"""Where and why `tbs` stops in a script or a dump."""
from __future__ import annotations

import struct
import subprocess

import pytest
from conftest import APP, ran

EXAMPLES = APP.parent.parent / "examples"
SCRIPT = (EXAMPLES / "first.script").read_bytes()
FIRST, SECOND = 56, 56 + 56 + 256  # the ends of its first two pairs: a register, two accounts
LATE = (2**63).to_bytes(8, "little")


def changed(data: bytes, at: int, *values: int) -> bytes:
    return data[:at] + bytes(values) + data[at + len(values) :]


def explained(data: bytes, tbs: str) -> str:
    status, out, errors = ran("explain", "--tbs", tbs, given=data)
    assert (status, errors) == (0, "")
    return out.decode()


@pytest.mark.parametrize(
    "data, said",
    [
        pytest.param(SCRIPT, f"a script, 3 pairs in {len(SCRIPT)} bytes: tbs reads it to its end", id="whole"),
        pytest.param(b"", "a script, 0 pairs in 0 bytes: tbs reads it to its end", id="empty"),
        pytest.param(SCRIPT[:-1], f"pair 3, at byte {SECOND}: the bytes end within it (Short)", id="cut"),
        pytest.param(changed(SCRIPT, FIRST + 8, 0), f"pair 2, at byte {FIRST}: its client is 0 (ClientZero)", id="no-client"),
        pytest.param(changed(SCRIPT, FIRST + 36, 9), f"pair 2, at byte {FIRST}: no operation has its number (UnknownOperation)", id="no-operation"),
        pytest.param(changed(SCRIPT, FIRST + 37, 1), f"pair 2, at byte {FIRST}: a byte that must be 0 is not (Reserved)", id="reserved"),
        pytest.param(changed(SCRIPT, FIRST + 32, 0), f"pair 2, at byte {FIRST}: its request is 0, and it is no register (RequestZero)", id="request-0"),
        pytest.param(changed(SCRIPT, 32, 1), "pair 1, at byte 0: it is a register, and its session or request is not 0 (RegisterNumbers)", id="register"),
        pytest.param(LATE + SCRIPT[8:], "pair 1, at byte 0: its moment is above 2^63 - 1; if its request is new, no time is left (TimeExhausted)", id="late"),
        pytest.param(b"register;\n" * 9, "pair 1, at byte 0: no operation has its number (UnknownOperation)\nIt looks like text: telovamish script makes a script of statements.", id="text"),
        pytest.param(b"TBJRNL02" + bytes(20), "a ledger's file of tbd: tbd check FILE finds where it ends, tbd dump FILE makes a dump of it", id="ledger"),
    ],
)  # fmt: skip
def test_a_script(tbs: str, data: bytes, said: str) -> None:
    assert explained(data, tbs) == f"{said}\n"


@pytest.fixture(scope="module")
def dump(tbs: str) -> bytes:
    """The dump of the example: a head of 16 bytes, entries at 16, 80 and 400."""
    return subprocess.run([tbs, "dump", "2"], input=SCRIPT, capture_output=True).stdout


@pytest.mark.parametrize(
    "at, values, said",
    [
        pytest.param(0, [], "a dump, 3 entries in 512 bytes: tbs replays it to its end", id="whole"),
        pytest.param(12, [65], "the head, at byte 0: the first 16 bytes are no head: TBSDUMP1, profile 1 or 2, 1 to 64 clients (Head)", id="head"),
        pytest.param(80, [3], "entry 2, at byte 80: its commit number is 3, and 2 comes next (NotLegal)", id="commit"),
        pytest.param(88, [11], "entry 2, at byte 80: its time is 11, and 12 to 2^63 - 1 is allowed (NotLegal)", id="time-of-two-events"),
        pytest.param(408, [12], "entry 3, at byte 400: its time is 12, and 13 to 2^63 - 1 is allowed (NotLegal)", id="time-of-a-lookup"),
        pytest.param(440, [1], "entry 3, at byte 400: its request is not new: Collision (NotLegal)", id="collision"),
        pytest.param(440, [9], "entry 3, at byte 400: its request is not new: NewerRequest (NotLegal)", id="skips"),
        pytest.param(432, [9], "entry 3, at byte 400: its request is not new: NewerSession (NotLegal)", id="session"),
    ],
)  # fmt: skip
def test_a_dump(tbs: str, dump: bytes, at: int, values: list[int], said: str) -> None:
    assert explained(changed(dump, at, *values), tbs) == f"{said}\n"


def test_a_first_entry_that_is_wrong(tbs: str, dump: bytes) -> None:
    """Its place is after the head."""
    said = "entry 1, at byte 16: its commit number is 2, and 1 comes next (NotLegal)\n"
    assert explained(changed(dump, 16, 2), tbs) == said


def test_an_entry_after_a_mark_that_is_wrong(tbs: str, dump: bytes) -> None:
    """Its place is after the mark."""
    data = dump + struct.pack("<QQ", 0, 2)
    said = f"entry 4, at byte {len(data)}: its commit number is 9, and 4 comes next (NotLegal)\n"
    assert explained(data + changed(dump[400:], 0, 9), tbs) == said


def test_a_mark_that_is_wrong(tbs: str, dump: bytes) -> None:
    said = f"entry 4, at byte {len(dump)}: a mark is not 2, or is there under profile 2 (Mark)\n"
    assert explained(dump + struct.pack("<QQ", 0, 3), tbs) == said
