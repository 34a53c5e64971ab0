"""Frames, saved sessions and addresses that hypothesis draws: each is refused by a named error, or
comes back as it was. So many examples, the same in each run; a failure prints the smallest one."""

import struct

import hypothesis
import pytest
import tb_client as tb
from hypothesis import strategies as st
from tb_client import Account, Direct, EventResult, Operation, Session, Transfer
from tb_client.clients import addresses_of
from tb_client.frames import HEADER, reply_fault, request_fault
from tb_client.names import CreateAccountResult, CreateTransferResult

EXAMPLES = 300
drawn = hypothesis.settings(
    max_examples=EXAMPLES,
    derandomize=True,
    deadline=None,
    database=None,
    suppress_health_check=[hypothesis.HealthCheck.too_slow],
)
FAULTS = {"Short", "ClientZero", "UnknownOperation", "Reserved", "RegisterNumbers", "RequestZero"}
FAULTS |= {"ReplyNumbers", "BadLength", "TooMany"}


def whole(bits, least=0):
    """Numbers of so many bits, of which the ends come often."""
    return st.one_of(
        st.sampled_from([least, 1, 2 ** (bits - 1), 2**bits - 1]),
        st.integers(least, 2**bits - 1),
    )


U128, U64, U32, U16 = (whole(it) for it in (128, 64, 32, 16))
ACCOUNTS = st.builds(
    Account,
    U128,
    ledger=U32,
    code=U16,
    flags=U16,
    user_data_128=U128,
    user_data_64=U64,
    user_data_32=U32,
)
TRANSFERS = st.builds(
    Transfer, U128, U128, U128, U128, pending_id=U128, timeout=U32, ledger=U32, code=U16, flags=U16
)
ITEMS = {
    Operation.create_accounts: ACCOUNTS,
    Operation.create_transfers: TRANSFERS,
    Operation.lookup_accounts: U128,
    Operation.lookup_transfers: U128,
}


@st.composite
def requests(draw):
    operation = draw(st.sampled_from([Operation.register, *ITEMS]))
    client = draw(whole(128, least=1))
    if operation == Operation.register:
        return tb.Request(client, 0, 0, operation, ())
    items = tuple(draw(st.lists(ITEMS[operation], max_size=3)))
    return tb.Request(client, draw(U64), draw(whole(32, least=1)), operation, items)


@drawn
@hypothesis.given(requests())
def test_a_request_comes_back(request):
    frame = request.to_bytes()
    assert request_fault(frame) is None
    assert tb.Request.from_bytes(frame) == request


@st.composite
def headers(draw, tail):
    """Bytes that are nearly a frame: each field is mostly one that it may have."""
    mostly = st.sampled_from([*map(int, [Operation.register, *ITEMS]), 133])
    client, session, number = draw(U128), draw(U64), draw(U32)
    length = draw(st.sampled_from([0, 8, 16, 128, 256, 127, 8190 * 128, 8191 * 128]))
    middle = struct.pack("<QIB", session, number, draw(mostly))
    return client.to_bytes(16, "little") + middle + tail(draw, length)


def request_tail(draw, length):
    rest = draw(st.sampled_from([bytes(12), bytes(11) + b"\1"]))
    return draw(st.sampled_from([bytes(3), b"\1\0\0"])) + struct.pack("<I", length) + rest


def reply_tail(draw, length):
    zeros = draw(st.sampled_from([bytes(2), bytes(2), b"\0\1"]))
    rest = draw(st.sampled_from([bytes(4), bytes(4), b"\0\0\0\1"]))
    numbers = struct.pack("<IQ", length, draw(U64))
    return bytes([draw(st.integers(0, 9))]) + zeros + numbers + rest


@drawn
@hypothesis.given(st.one_of(headers(request_tail), st.binary(max_size=HEADER + 16)))
def test_a_request_is_refused_or_comes_back(frame):
    """`request_fault` sees the header, `Request.from_bytes` the whole frame."""
    fault = request_fault(frame)
    assert fault is None or fault in FAULTS
    try:
        request = tb.Request.from_bytes(frame)
    except tb.InvalidValue:
        assert fault or len(frame) != HEADER + int.from_bytes(frame[32:36], "little")
    else:
        assert fault is None and request.to_bytes() == frame


@drawn
@hypothesis.given(st.one_of(headers(reply_tail), st.binary(max_size=HEADER + 16)))
def test_a_reply_is_refused_or_comes_back(frame):
    fault = reply_fault(frame)
    assert fault is None or fault in FAULTS
    try:
        reply = tb.Reply.from_bytes(frame)
    except tb.BadReply:
        assert fault or len(frame) != HEADER + int.from_bytes(frame[32:36], "little")
    else:
        assert fault is None and reply.to_bytes() == frame


CODES = {
    Operation.create_accounts: CreateAccountResult,
    Operation.create_transfers: CreateTransferResult,
}


@drawn
@hypothesis.given(st.sampled_from([*CODES]), st.lists(st.tuples(U32, st.integers(0, 80))))
def test_results_are_refused_or_come_back(operation, rows):
    body = b"".join(struct.pack("<II", *row) for row in rows)
    reply = tb.Reply(7, 1, 1, operation, 0, 2, body)
    names = {int(it) for it in CODES[operation]}
    if all(code in names for _, code in rows):
        assert reply.items == [EventResult(at, CODES[operation](code)) for at, code in rows]
    else:
        with pytest.raises(tb.BadReply):
            reply.items


@drawn
@hypothesis.given(requests())
def test_a_session_comes_back_from_what_it_saved(request):
    """With its request in doubt, which is refused if it is not of the session."""
    number = request.number - (request.operation != Operation.register)
    saved = {
        "client": request.client,
        "session": request.session,
        "number": number,
        "pending": request.to_bytes().hex(),
    }
    try:
        session = Session.resumed(Direct(lambda *_: b""), saved)
    except tb.InvalidValue:
        assert request.operation != Operation.register and request.session == 0
        return
    assert session.saved == saved and session.in_doubt == request


JSON = st.recursive(
    st.none() | st.booleans() | st.integers() | st.floats() | st.text(max_size=5),
    lambda inner: st.lists(inner, max_size=2),
    max_leaves=3,
)
SAVED = {
    "client": U128 | JSON,
    "session": U64 | JSON,
    "number": U32 | JSON,
    "pending": st.just("") | JSON,
}


@drawn
@hypothesis.given(st.fixed_dictionaries(SAVED) | st.dictionaries(st.sampled_from([*SAVED]), JSON))
def test_what_is_no_session_is_refused(saved):
    try:
        session = Session.resumed(Direct(lambda *_: b""), saved)
    except (tb.InvalidValue, tb.InvalidType) as why:
        assert "saved" in why.field
    else:
        assert saved["client"] > 0
        assert session.saved == saved


ADDRESSES = st.text(st.sampled_from("0123456789.:[]/ax,- "), max_size=12)


@drawn
@hypothesis.given(ADDRESSES | st.text(max_size=12))
def test_an_address_is_refused_or_comes_back(text):
    try:
        found = addresses_of(text)
    except tb.InvalidValue as why:
        assert why.field in ("replica_addresses", "port")
        return
    assert len(found) == text.count(",") + 1
    again = [it if isinstance(it, str) else f"[{it[0]}]:{it[1]}" for it in found]
    assert addresses_of(",".join(again)) == found
