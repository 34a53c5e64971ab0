"""What a shared client says of a server that does not reply."""
import time

import pytest
from tb_client import CannotConnect, ClientSync, InvalidType, Operation, ReplyLost
from tb_client import pools
from tb_client.frames import Reply, header_of


class Server:
    """Replies, or raises the fault that it has."""

    def __init__(self):
        self.fault, self.commit = None, 0

    def exchange(self, moment, frame):
        if self.fault:
            raise self.fault
        it = header_of(frame)
        self.commit += 1
        session = it.session or self.commit
        return Reply(it.client, session, it.number, it.operation, 0, self.commit, b"").to_bytes()


def waited(holds):
    deadline = time.monotonic() + 30
    while not holds():
        assert time.monotonic() < deadline
        time.sleep(0.01)


@pytest.mark.parametrize(
    "fault", [CannotConnect("refused"), ReplyLost("ended: Full", "Full")], ids=["away", "lost"]
)
def test_it_is_said_once_that_calls_wait(monkeypatch, fault):
    monkeypatch.setattr(pools, "SILENCE_MAX", 0.1)
    server, said = Server(), []
    with ClientSync(0, "3001", connect=lambda: server, report=said.append) as client:
        for outages in (1, 2):
            client.lookup_accounts([1])
            assert len(said) == outages - 1
            server.fault = fault
            call = client._pool.ask(Operation.lookup_accounts, [1])
            waited(lambda: len(said) == outages)
            time.sleep(0.5)
            assert len(said) == outages  # once
            assert str(fault) in said[-1] and "or for timeout= of the client" in said[-1]
            server.fault = None
            call.future.result(30)


def test_a_pause_is_not_named():
    server, said = Server(), []
    with ClientSync(0, "3001", connect=lambda: server, report=said.append) as client:
        server.fault = ReplyLost("lost")
        call = client._pool.ask(Operation.lookup_accounts, [1])
        time.sleep(0.3)
        server.fault = None
        call.future.result(30)
    assert said == []


def test_a_report_is_a_function():
    with pytest.raises(InvalidType, match="^report"):
        ClientSync(0, "3001", report="x")
