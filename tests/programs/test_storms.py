"""Storms of the built program: many client threads at once, and the same four lines each time.
`--storms N` has each storm run N times."""

import resource
import signal

import pytest

from ..conftest import ran


def totals(clients, transfers):
    """A register and a request for all accounts, then a register and the transfers 1, 2, 3 and
    so on of each client."""
    commits = 2 + clients * (transfers + 1)
    credited = clients * transfers * (transfers + 1) // 2
    counts = {"clients": clients, "commits": commits, "transfers": clients * transfers}
    counts["credited"] = credited
    return "".join(f"{name} {count}\n" for name, count in counts.items()).encode()


@pytest.mark.parametrize("clients, transfers", [(16, 1000), (2, 3)])
def test_totals(tbs, request, clients, transfers):
    for _ in range(request.config.getoption("--storms")):
        found = ran([tbs, "storm", clients, transfers], seconds=600)
        assert found == (0, totals(clients, transfers), b"")


def limited(room):
    """Before a program begins: no file gets longer than this many bytes."""

    def limit():
        signal.signal(signal.SIGXFSZ, signal.SIG_IGN)
        resource.setrlimit(resource.RLIMIT_FSIZE, (room, room))

    return limit


@pytest.mark.parametrize("room", [0, 30, 44])
def test_an_output_that_is_full(tbs, tmp_path, room):
    """It has the first bytes of the lines, as many as it takes."""
    with open(tmp_path / "lines", "wb") as lines:
        found = ran([tbs, "storm", 2, 3], stdout=lines, preexec_fn=limited(room))
    assert found == (1, b"", b"tbs: Device\n")
    assert (tmp_path / "lines").read_bytes() == totals(2, 3)[:room]
