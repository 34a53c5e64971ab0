"""Sessions, numbers, lost replies and repeats, over a server that is in place of the proved one."""
from __future__ import annotations

import struct
import time
from unittest import mock

import pytest
from tb_client import Busy, CannotConnect, Direct, ProgramEnded, Reply, ReplyLost, Request

from telovamish import sending
from telovamish.ledgers import Ledger
from telovamish.repeats import History
from telovamish.sending import Ahead, Desk, Late, NotServed
from telovamish.texts import Text, Wrong


class Server:
    """Replies to each request with the status that is next, 0 without one; loses those of `lost`;
    gives a repeat the commit of the first time."""

    def __init__(self, statuses=(), lost=()):
        self.frames, self.statuses, self.lost = [], list(statuses), list(lost)
        self.moments, self.commits, self.body = [], {}, b""

    def serve(self, moment, frame):
        self.frames.append(frame)
        self.moments.append(moment)
        if len(self.frames) in self.lost:
            raise ReplyLost("no reply in 5 seconds")
        it = Request.from_bytes(frame)
        status = self.statuses.pop(0) if self.statuses else 0
        commit = 0 if status else self.commits.setdefault(frame, len(self.frames))
        is_register = it.operation.name == "register"
        session = commit if is_register else it.session
        return Reply(
            it.client, session, it.number, it.operation, status, commit, self.body
        ).to_bytes()

    def asked(self):
        return [
            (it.client, it.session, it.number, it.operation.name)
            for it in map(Request.from_bytes, self.frames)
        ]


@pytest.fixture(autouse=True)
def errors():
    """What is reported, without pauses."""
    found: list[str] = []
    with mock.patch.object(sending.time, "sleep"), mock.patch.object(
        sending, "report", found.append
    ):
        yield found


def desk_of(server, history=None):
    return Desk(Ledger(Direct(server.serve), history or History()), 5)


def serve(desk, text):
    reading, served = Text(desk.live), []
    reading.feed(text.encode())
    while statement := reading.next():
        served += desk.serve(statement)
    reading.end()
    return served


def test_registers_and_numbers():
    server = Server()
    desk = desk_of(server)
    for text in (
        "lookup_accounts;",
        "lookup_accounts;",
        "client=9 lookup_accounts;",
        "lookup_accounts;",
    ):
        serve(desk, text)
    assert server.asked() == [
        (5, 0, 0, "register"),
        (5, 1, 1, "lookup_accounts"),
        (5, 1, 2, "lookup_accounts"),
        (9, 0, 0, "register"),
        (9, 4, 1, "lookup_accounts"),
        (9, 4, 2, "lookup_accounts"),
    ]


def test_registers_at_the_moment_of_the_statement():
    server = Server()
    serve(desk_of(server), "at=7 lookup_accounts;")
    assert server.moments == [7, 7]


def test_only_a_request_registers_and_another_session_begins_with_1():
    server = Server(statuses=[0, 0, 0, 0, 3, 1])
    desk = desk_of(server)
    for text in ("request=1", "request=2", "session=1", "session=9", "client=6 session=2"):
        serve(desk, f"{text} lookup_accounts;")
    assert [it[:3] for it in server.asked()] == [
        (5, 0, 0), (5, 1, 1), (5, 1, 2), (5, 1, 3), (5, 9, 1), (6, 2, 1),
    ]  # fmt: skip


def test_client_and_request_fill_in_nothing_and_the_session_is_0(errors):
    server = Server(statuses=[2])
    desk = desk_of(server)
    serve(desk, "client=5 request=1 lookup_accounts;")
    assert server.asked() == [(5, 0, 1, "lookup_accounts")]
    assert "no session was written" in errors[0]


def test_a_wrong_statement_sends_nothing():
    server = Server()
    with pytest.raises(Wrong):
        serve(desk_of(server), "lookup_accounts wrong;")
    assert server.frames == []


def test_a_lost_reply_sends_the_same_bytes_again(errors):
    server = Server(lost=[2, 3])
    desk = desk_of(server)
    serve(desk, "lookup_accounts;")
    assert len(server.frames) == 4 and len(set(server.frames[1:])) == 1
    assert "the same bytes are sent again, try 2 of 8" in errors[0]


def test_the_last_try_is_reported(errors):
    server = Server(lost=range(2, 100))
    desk = desk_of(server)
    with pytest.raises(NotServed, match="may have been executed"):
        serve(desk, "lookup_accounts;")
    assert (len(server.frames), len(errors)) == (1 + 8, 7)


def test_a_server_that_was_never_there_is_reported_at_once(errors):
    desk = desk_of(Server())
    away = mock.Mock(side_effect=CannotConnect("it: No such file"))
    with mock.patch.object(desk.ledger.transport, "exchange", away):
        with pytest.raises(NotServed, match="^it: No such file$"):
            serve(desk, "lookup_accounts;")
    assert (away.call_count, errors) == (1, [])


def test_a_server_that_was_there_is_called_again(errors):
    desk = desk_of(Server())
    serve(desk, "lookup_accounts;")
    away = mock.Mock(side_effect=CannotConnect("it: refused"))
    with mock.patch.object(desk.ledger.transport, "exchange", away):
        with pytest.raises(NotServed):
            serve(desk, "lookup_accounts;")
    assert (away.call_count, len(errors)) == (8, 7)


@pytest.mark.parametrize("lost", [1, 2])
def test_lost_and_then_not_there(lost):
    """It may have been executed: that no connection can be made does not say so."""
    desk = desk_of(Server(lost=[lost]))
    exchange = desk.ledger.transport.exchange
    faults = [None] * lost + [CannotConnect("it: refused")] * 8

    def fails(moment, frame):
        fault = faults.pop(0)
        if fault:
            raise fault
        return exchange(moment, frame)

    with mock.patch.object(desk.ledger.transport, "exchange", fails):
        with pytest.raises(NotServed, match="it: refused\n.*may have been executed"):
            serve(desk, "lookup_accounts;")


@pytest.mark.parametrize("name", ["ClientNotAllowed", "NotAllowed", "BadLength"])
def test_a_final_refusal_is_reported_as_final(name, errors):
    server = Server()
    desk = desk_of(server)
    refused = mock.Mock(side_effect=ReplyLost(f"the server closed the connection: {name}", name))
    with mock.patch.object(desk.ledger.transport, "exchange", refused):
        with pytest.raises(
            NotServed, match=f"^{name}: .*. Nothing was executed, and it is not sent"
        ):
            serve(desk, "lookup_accounts;")
    assert (refused.call_count, errors) == (1, [])


def test_a_final_refusal_after_a_lost_reply_is_in_doubt():
    desk = desk_of(Server())
    faults = [ReplyLost("lost"), ReplyLost("closed: ClientNotAllowed", "ClientNotAllowed")]
    with mock.patch.object(desk.ledger.transport, "exchange", mock.Mock(side_effect=faults)):
        with pytest.raises(NotServed, match="An earlier sending of it may have been executed"):
            serve(desk, "lookup_accounts;")


def test_a_ledger_in_memory_ends_with_its_program():
    desk = desk_of(Server())
    desk.ledger = desk.ledger._replace(is_memory=True)
    ended = mock.Mock(side_effect=ProgramEnded("TimeExhausted", 2))
    with mock.patch.object(desk.ledger.transport, "exchange", ended):
        with pytest.raises(
            NotServed, match="the server ended, and its ledger with it: TimeExhausted"
        ):
            serve(desk, "lookup_accounts;")


def test_a_collision_is_reported_and_the_next_number_follows(errors):
    server = Server(statuses=[0, 0, 5])
    desk = desk_of(server)
    for _ in range(3):
        serve(desk, "lookup_accounts;")
    assert [asked[2] for asked in server.asked()] == [0, 1, 2, 3]
    assert "request 2 was executed before, with other content" in errors[0]


@pytest.mark.parametrize(
    "operation, body",
    [("create_accounts", struct.pack("<II", 7, 21)), ("lookup_accounts", bytes(128))],
)
def test_a_reply_that_says_what_none_says_is_not_shown(operation, body):
    server = Server()
    desk = desk_of(server)
    serve(desk, "lookup_accounts;")
    server.body = body
    with pytest.raises(NotServed):
        serve(desk, f"{operation};")
    server.body = b""
    serve(desk, f"{operation};")
    assert [asked[2] for asked in server.asked()] == [0, 1, 2, 2]


def test_an_eviction_registers_again(errors):
    server = Server(statuses=[0, 0, 2])
    desk = desk_of(server)
    for _ in range(3):
        serve(desk, "lookup_accounts;")
    names = [asked[3] for asked in server.asked()]
    assert names == [
        "register",
        "lookup_accounts",
        "lookup_accounts",
        "register",
        "lookup_accounts",
    ]
    assert "no session any more" in errors[0]


def test_a_refusal_of_another_session_says_that_the_client_has_none():
    server = Server(statuses=[0, 0, 1])
    desk = desk_of(server)
    for text in ("", "session=9 request=1 ", ""):
        serve(desk, f"{text}lookup_accounts;")
    assert [asked[3] for asked in server.asked()][-2:] == ["register", "lookup_accounts"]


def test_the_client_named_last_may_be_one_that_was_refused():
    server = Server(statuses=[0, 0, 1])
    desk = desk_of(server)
    for text in ("", "client=9 request=1 ", ""):
        serve(desk, f"{text}lookup_accounts;")
    assert [asked[0] for asked in server.asked()] == [5, 5, 9, 9, 9]


def test_a_refused_number_is_not_kept():
    server = Server(statuses=[0, 0, 6])
    desk = desk_of(server)
    for text in ("", "request=9 ", ""):
        serve(desk, f"{text}lookup_accounts;")
    assert [asked[2] for asked in server.asked()] == [0, 1, 9, 2]


def test_a_repeat_is_known_by_its_commit():
    desk = desk_of(Server())
    assert [it.is_repeat for it in serve(desk, "lookup_accounts id=1;")] == [False, False]
    assert [it.is_repeat for it in serve(desk, "request=1 lookup_accounts id=1;")] == [True]
    assert [it.is_repeat for it in serve(desk, "lookup_accounts id=1;")] == [False]


def test_a_repeat_of_before_is_not_claimed_unless_its_commit_was_seen():
    """The first reply of a ledger that others used: its commit is above what was seen."""
    server = Server()
    other = desk_of(server)
    serve(other, "lookup_accounts id=1;")
    for history, is_known in ((History(), False), (History(seen=2), True)):
        desk = desk_of(server, history)
        served = serve(desk, "client=5 session=1 request=1 lookup_accounts id=1;")
        assert [it.is_repeat for it in served] == [is_known]


# what became of it

DOUBT = [
    pytest.param(None, False, True, id="amid-the-exchange"),
    pytest.param(ReplyLost("lost"), False, True, id="lost"),
    pytest.param(CannotConnect("refused"), True, False, id="no-connection"),
    pytest.param(Busy("later"), True, False, id="busy"),
]


@pytest.mark.parametrize("is_typed, words", [(True, "Typed"), (False, "same ids")])
@pytest.mark.parametrize("fault, is_sure, may_be_sent", DOUBT)
def test_what_ctrl_c_leaves(fault, is_sure, may_be_sent, is_typed, words):
    """Ctrl-C in a pause after a fault, or amid an exchange."""
    desk = desk_of(Server())
    serve(desk, "lookup_accounts;")
    desk.is_typed = is_typed
    faults = [fault or KeyboardInterrupt()]
    pause = mock.Mock(side_effect=KeyboardInterrupt)
    with mock.patch.object(desk.ledger.transport, "exchange", mock.Mock(side_effect=faults)):
        with mock.patch.object(sending.time, "sleep", pause):
            with pytest.raises(KeyboardInterrupt):
                serve(desk, "lookup_accounts;")
    assert ("may have been executed" in desk.doubt()) == may_be_sent
    assert ("nothing was sent" in desk.doubt()) == (not may_be_sent)
    assert (words in desk.doubt()) == may_be_sent


# the days of a batch

MIDNIGHT = 20727 * 86400 * 10**9  # 2026-10-01
BOTH_DAYS = """events are of the day before: from 2026-09-30T23:59:59.999999999Z to \
2026-10-01T00:00:00.000000000Z"""


@pytest.mark.parametrize(
    "at, count, said",
    [
        pytest.param(0, 2, f"the first 1 of its 2 {BOTH_DAYS}", id="at-midnight"),
        pytest.param(1, 2, None, id="as-many-later"),
        pytest.param(1, 3, "the first 1 of its 3 events", id="too-few-later"),
        pytest.param(0, 1, None, id="one-event"),
        pytest.param(-1, 9, None, id="before"),
        pytest.param(5, 9, "the first 3 of its 9 events", id="amid"),
    ],
)  # fmt: skip
def test_a_batch_of_two_days_is_named(errors, at, count, said):
    desk = desk_of(Server())
    events = ", ".join(f"id={it} ledger=1 code=1" for it in range(1, count + 1))
    serve(desk, f"at=5 register; at={MIDNIGHT + at} create_accounts {events};")
    assert [it.startswith(said) for it in errors] == [True] if said else errors == []


def test_a_repeat_and_a_refusal_name_no_days(errors):
    desk = desk_of(Server(statuses=[0, 0, 0, 6]))
    text = f"request=1 at={MIDNIGHT} create_accounts id=1 ledger=1 code=1, id=2 ledger=1 code=1;"
    serve(desk, f"at=5 register; {text} {text} {text.replace('=1', '=9', 1)}")
    assert len(errors) == 1


# moments

SECOND = 10**9
NO_LOOK_BACK = "at= does not look back: this is the ledger as it is now, at"
LAST = 1_000_000 * SECOND  # the time of the ledger's last entry, in 1970


def kept(server, time=LAST):
    desk = desk_of(server, History(seen=3, time=time))
    desk.ledger = desk.ledger._replace(ahead_max=60.0)
    return desk


@pytest.mark.parametrize("operation", ["lookup_accounts id=1", "create_accounts", "register"])
@pytest.mark.parametrize("ahead, is_sent", [(70, False), (50, True), (-50, True)])
def test_a_moment_far_ahead_is_not_sent_to_a_kept_ledger(operation, ahead, is_sent):
    server = Server()
    text = f"at={time.time_ns() + ahead * SECOND} {operation};"
    if is_sent:
        serve(kept(server), text)
    else:
        with pytest.raises(Ahead, match="^at= is (70|69) seconds ahead of this computer's clock"):
            serve(kept(server), text)
    assert bool(server.frames) == is_sent


def test_a_moment_far_ahead_is_sent_to_a_ledger_in_memory():
    server = Server()
    serve(desk_of(server), f"at={2**62} lookup_accounts id=1;")
    assert server.moments == [2**62, 2**62]


@pytest.mark.parametrize(
    "at, said",
    [
        pytest.param(5 * SECOND, "at= moves the ledger's time to 1970-01-12T13:46:45.", id="later"),
        pytest.param(1, None, id="now"),
        pytest.param(-5 * SECOND, f"{NO_LOOK_BACK} 1970-01-12T13:46:40.", id="earlier"),
    ],
)
def test_a_lookup_says_what_its_moment_does(errors, at, said):
    serve(kept(Server()), f"at={LAST + at} lookup_accounts id=1;")
    assert [it.startswith(said) for it in errors] == [True] if said else errors == []


def test_a_ledger_in_memory_says_it_once(errors):
    desk = desk_of(Server(), History(seen=3, time=LAST))
    desk.ledger = desk.ledger._replace(is_memory=True)
    for seconds in (5, 10, 15):
        serve(desk, f"at={LAST + seconds * SECOND} lookup_accounts id=1;")
    assert len(errors) == 1


def test_a_clock_that_jumps_ahead_moves_no_kept_ledger():
    server, now = Server(), time.time_ns()
    desk = kept(server)
    serve(desk, "lookup_accounts id=1;")
    with mock.patch.object(sending.time, "time_ns", lambda: now + 3600 * SECOND):
        with pytest.raises(Ahead, match="clock jumped ahead"):
            serve(desk, "lookup_accounts id=1;")
    assert len(server.frames) == 2


def test_a_moment_that_cannot_be_entered_is_refused_before_it_is_sent():
    server = Server()
    desk = desk_of(server)
    last = 2**63 - 1
    for at in (last + 1, 2**64 - 1):
        with pytest.raises(Late, match="TimeExhausted"):
            serve(desk, f"at={at} lookup_accounts;")
    assert server.frames == []
    serve(desk, f"at={last - 2} lookup_accounts;")  # the register, then the lookup at last - 1
    accounts = "id=1 ledger=1 code=1, id=2 ledger=1 code=1"
    with pytest.raises(Late):
        serve(desk, f"create_accounts {accounts};")  # two events take two nanoseconds, one is left
    serve(desk, "at=5 lookup_accounts;")
    with pytest.raises(Late):
        serve(desk, "at=5 lookup_accounts;")
    sent = len(server.frames)
    assert serve(desk, f"at={2**64 - 1} request=2 lookup_accounts;")[0].is_repeat
    assert len(server.frames) == sent + 1
