"""`telovamish replies --script`: replies shown as by `run`, each after its request."""

import pytest

from conftest import ran

# client 7 registers at moment 10, and its reply; then accounts 1 and 2, and that reply
REGISTER = bytes.fromhex("0a00000000000000" "07" + "00" * 27 + "02" + "00" * 19)
REGISTERED = bytes.fromhex(
    "07000000000000000000000000000000"
    "01000000000000000000000002000000"
    "00000000010000000000000000000000"
)
ACCOUNT = bytes.fromhex("01" + "00" * 111 + "bc0200000a0000000000000000000000")
CREATE = (
    bytes.fromhex(
        "0a00000000000000"
        "07000000000000000000000000000000"
        "01000000000000000100000081000000"
        "00010000000000000000000000000000"
    )
    + ACCOUNT
    + b"\2"
    + ACCOUNT[1:]
)
CREATED = bytes.fromhex(
    "07000000000000000000000000000000"
    "01000000000000000100000081000000"
    "00000000020000000000000000000000"
)
LINES = "client 7 has session 1\n2 of 2 accounts created\n"


def shown(path, replies):
    """The status, the output and what was printed of the command over a script's replies."""
    status, output, said = ran("replies", "--script", str(path), given=replies)
    return status, output.decode(), said.replace(str(path), "FILE")


@pytest.mark.parametrize(
    ("script", "replies", "status", "lines", "said"),
    [
        pytest.param(REGISTER + CREATE, REGISTERED + CREATED, 0, LINES, "", id="each"),
        pytest.param(
            REGISTER + REGISTER,
            REGISTERED + REGISTERED,
            0,
            f"{LINES[:23]}{LINES[:23]}first reply again (commit 1): nothing was executed\n",
            "",
            id="a repeat",
        ),
        pytest.param(
            REGISTER + CREATE,
            REGISTERED,
            2,
            LINES[:23],
            "telovamish: FILE: request 2 has no reply\n",
            id="a reply is missing",
        ),
        pytest.param(
            CREATE,
            REGISTERED,
            2,
            "",
            "telovamish: reply 1 is not that to request 1 of FILE\n",
            id="a reply to another request",
        ),
        pytest.param(
            REGISTER,
            REGISTERED + CREATED,
            2,
            LINES[:23],
            "telovamish: FILE has 1 requests, and there are more replies\n",
            id="more replies",
        ),
    ],
)
def test_replies_to_a_script(tmp_path, script, replies, status, lines, said):
    path = tmp_path / "script"
    path.write_bytes(script)
    assert shown(path, replies) == (status, lines, said)


def test_a_script_that_is_missing(tmp_path):
    said = "telovamish: Device: FILE: No such file or directory\n"
    assert shown(tmp_path / "none", b"") == (1, "", said)
