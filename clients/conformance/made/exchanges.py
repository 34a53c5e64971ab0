"""What goes wrong on the way: replies that are lost, late, twice or wrong, connections that break,
and what a server reports."""
from .frames import (
    ACCOUNTS,
    FIND_ACCOUNTS,
    FIND_TRANSFERS,
    LONG,
    LOST,
    NAMES,
    NOTHING,
    SHORT,
    SOME,
    TRANSFERS,
    accept,
    account,
    account_bytes,
    ask,
    close,
    connect,
    empty,
    error,
    frame_of,
    read,
    refusal,
    registered,
    registers,
    reply,
    results,
    retry,
    saved,
    scenario,
    send,
    served,
    told,
    transfer,
    transfer_bytes,
    u128,
)
from .table import PAUSES

ASKED = frame_of(1, TRANSFERS)
DONE = empty(1, TRANSFERS)
OK = {"ok": {"results": []}}
SALE = [transfer(11)]


def groups():
    return {
        "lost": list(lost()),
        "bad-replies": list(bad_replies()),
        "told": list(what_is_told()),
        "refusals": list(refusals()),
        "addresses": list(addresses()),
    }


def sale(server, wants=None, **more):
    return ask(TRANSFERS, SALE, server, wants or OK, **more)


def again(name="d"):
    """The same bytes on another connection, and their reply."""
    return [accept(name), *served(ASKED, DONE, name)]


def lost():
    large = frame_of(1, ACCOUNTS, [account(1)])[48:]
    header = frame_of(1, ACCOUNTS, [account(1)] * 8190)[:48]
    many = {"header": header.hex(), "first": large.hex(), "count": 8190}
    yield scenario(
        "large-request-cut",
        "The connection breaks within a large request: all of it again.",
        ask(
            ACCOUNTS,
            {"count": 8190, "first": account(1)},
            [
                read("many", first=100_000),
                {"close": "c"},
                accept("d"),
                read("many", "d"),
                send(empty(1, ACCOUNTS), "d"),
            ],
        ),
        saved(1),
        frames={"many": many},
    )
    yield scenario(
        "request-not-read",
        "The server reads no large request: the limit ends the sending too.",
        ask(
            ACCOUNTS,
            {"count": 8190, "first": account(1)},
            [{"wait": 1.0}, {"drain": "c", "of": "many"}],
            LOST,
            at_most=0.9,
        ),
        begin="hurried-once",
        frames={"many": many},
    )
    yield from late()
    yield from unreachable()


def late():
    yield scenario(
        "reply-slow-in-pieces",
        "The limit is for the whole reply: single bytes do not put it off.",
        sale(
            [
                read(ASKED),
                *[it for at in range(20) for it in (send(DONE[at : at + 1]), {"wait": 0.1})],
            ],
            LOST,
            at_most=1.5,
        ),
        saved(0, ASKED),
        begin="hurried-once",
    )
    asked = frame_of(1, FIND_ACCOUNTS, ["1"])
    found = reply(1, FIND_ACCOUNTS, account_bytes(account(1)))
    yield scenario(
        "reply-body-late",
        "The limit is for the body of a reply too, whether it stops or comes slowly.",
        ask(
            FIND_ACCOUNTS,
            ["1"],
            [read(asked), send(found[:100]), {"ended": "c"}],
            LOST,
            at_least=0.25,
            at_most=3.0,
        ),
        retry(
            [
                accept("d"),
                read(asked, "d"),
                send(found[:100], "d"),
                *[
                    it
                    for at in range(100, 120)
                    for it in ({"wait": 0.1}, send(found[at : at + 1], "d"))
                ],
            ],
            LOST,
            at_most=1.5,
        ),
        saved(0, asked),
        begin="hurried-once",
    )


def unreachable():
    yield scenario(
        "nobody-listens",
        "Nobody listens: CannotConnect, and it is as if it had not been asked.",
        {"server": [{"close": "c"}, {"unlisten": "a"}]},
        sale((), error("CannotConnect", sent=False), at_least=0.2, at_most=4.0),
        saved(0),
        {"server": [{"listen": "a"}]},
        ask(
            FIND_ACCOUNTS,
            ["1"],
            [accept("d"), *served(frame_of(1, FIND_ACCOUNTS, ["1"]), empty(1, FIND_ACCOUNTS), "d")],
        ),
        saved(1),
        begin="hurried",
    )
    yield scenario(
        "lost-then-nobody-listens",
        "The first sending was lost, and then nobody listens: ReplyLost, since it may have been "
        "executed.",
        sale([read(ASKED), {"unlisten": "a"}, {"close": "c"}], error("ReplyLost", sent=True)),
        saved(0, ASKED),
        {"server": [{"listen": "a"}]},
        retry(again(), OK),
        saved(1),
        begin="hurried",
    )
    yield scenario(
        "listens-later",
        "Who calls before the server listens is connected as soon as it does.",
        {"server": [{"close": "c"}, {"unlisten": "a"}]},
        sale([{"wait": 0.3}, {"listen": "a"}, *again()]),
        saved(1),
    )
    yield scenario(
        "closed-session",
        "A session's close closes its transport.",
        close(session="s"),
        {"server": [{"ended": "c"}]},
        sale((), error("Closed", sent=False)),
        saved(0),
    )
    yield scenario(
        "closed-twice",
        "A transport may be closed twice.",
        close(transport="t"),
        close(transport="t"),
    )


FAULTS = {
    "short-text": b"hello, this is another server\n",
    "http": b"HTTP/1.1 400 Bad Request\r\nContent-Type: text/plain; "
    b"charset=utf-8\r\nConnection: close\r\n\r\n400 Bad Request",
    "client-zero": reply(1, TRANSFERS, client=0),
    "unknown-operation": reply(1, 133),
    "reserved-30": reply(1, TRANSFERS, zeros=b"\1\0"),
    "reserved-31": reply(1, TRANSFERS, zeros=b"\0\1"),
    "reserved-44": reply(1, TRANSFERS, more=b"\1\0\0\0"),
    "reserved-47": reply(1, TRANSFERS, more=b"\0\0\0\1"),
    "status-8": reply(1, TRANSFERS, status=8),
    "status-255": reply(1, TRANSFERS, status=255),
    "request-zero": reply(0, TRANSFERS, commit=9),
    "session-zero": reply(1, TRANSFERS, session=0, commit=9),
    "commit-zero": reply(1, TRANSFERS, commit=0),
    "commit-not-above-session": reply(1, TRANSFERS, commit=1),
    "refusal-with-commit": reply(1, TRANSFERS, status=1, commit=9),
    "refusal-with-body": reply(1, TRANSFERS, results((0, 46)), status=1),
    "length-7": reply(1, TRANSFERS, b"1234567"),
    "register": registered(),
}
ITEM_SIZES = {ACCOUNTS: 8, TRANSFERS: 8, FIND_ACCOUNTS: 128, FIND_TRANSFERS: 128}
LENGTHS = {  # what a header says of a body that no reply has: it is not waited for
    f"{how}-{NAMES[operation]}": (operation, length)
    for operation, size in ITEM_SIZES.items()
    for how, length in (("4-GiB-of", 2**32 - 128), ("8191-of", 8191 * size))
}
BODIES = {
    "index-1-of-1": (TRANSFERS, SALE, results((1, 46))),
    "index-twice": (TRANSFERS, [transfer(11), transfer(12)], results((0, 46), (0, 46))),
    "index-falls": (TRANSFERS, [transfer(11), transfer(12)], results((1, 46), (0, 46))),
    "result-ok": (TRANSFERS, SALE, results((0, 0))),
    "record-not-asked": (FIND_ACCOUNTS, ["1"], account_bytes(account(2))),
    "records-in-another-order": (
        FIND_ACCOUNTS,
        ["1", "2"],
        account_bytes(account(2)) + account_bytes(account(1)),
    ),
    "transfer-not-asked": (FIND_TRANSFERS, ["11"], transfer_bytes(transfer(12))),
    "record-twice": (FIND_ACCOUNTS, ["1"], account_bytes(account(1)) * 2),
    "results-of-none": (ACCOUNTS, [], results((0, 21))),
}


def bad_replies():
    """Each with the reply it gets, and that the request is in doubt, and its bytes go on."""
    for name, wrong in FAULTS.items():
        body_follows = [{"half": "c"}] if name in ("short-text", "http") else []
        yield scenario(
            f"bad-reply-{name}",
            "What comes is no reply to this request: BadReply, the connection is closed, and "
            "the request "
            "stays in doubt.",
            sale(
                [read(ASKED), send(wrong), *body_follows, {"ended": "c"}],
                {"either": [error("BadReply", sent=True), LOST]}
                if name == "short-text"
                else error("BadReply", sent=True),
            ),
            saved(0, ASKED),
            retry(again(), OK),
            saved(1),
            begin="registered-once",
        )
    for name, (operation, length) in LENGTHS.items():
        asked = frame_of(1, operation)
        yield scenario(
            f"bad-reply-{name}",
            "The header says more than any reply has: BadReply, and no body is waited for.",
            ask(
                operation,
                SOME[operation],
                [read(asked), send(reply(1, operation, length=length)), {"ended": "c"}],
                error("BadReply", sent=True),
            ),
            saved(0, asked),
            begin="registered-once",
        )
    for name, (operation, items, body) in BODIES.items():
        asked, right = frame_of(1, operation, items), {"ok": NOTHING[operation]}
        yield scenario(
            f"bad-body-{name}",
            "The body is no answer to this request: BadReply, and it stays in doubt.",
            ask(
                operation,
                items,
                [read(asked), send(reply(1, operation, body)), {"close": "c"}],
                error("BadReply", sent=True),
            ),
            saved(0, asked),
            retry([accept("d"), *served(asked, empty(1, operation), "d")], right),
            saved(1),
        )
    yield scenario(
        "bad-reply-to-register-session",
        "A register's reply whose session is not its commit.",
        {
            "call": {
                "do": "register",
                "session": "s",
                "transport": "t",
                "client": "7",
                "attempts": 1,
            },
            "server": [
                accept(),
                read(registers()),
                send(u128(7) + registered()[16:36] + (2).to_bytes(8, "little") + bytes(4)),
                {"ended": "c"},
            ],
            "wants": error("BadReply", sent=True),
        },
        begin="connected",
    )


def what_is_told():
    yield scenario(
        "told-Busy-before-request",
        "Told Busy and closed before the request was read.",
        {"server": [{"close": "c"}]},
        sale(
            [
                accept(),
                send(told("Busy")),
                {"close": "c"},
                accept("d", not_before=0.07),
                *served(ASKED, DONE, "d"),
            ]
        ),
        saved(1),
        begin="registered-thrice",
    )
    yield scenario(
        "told-in-pieces",
        "What is told may come in pieces.",
        sale(
            [read(ASKED), send(told("Slow"), cuts=[1, 10, 13]), {"close": "c"}],
            error("ReplyLost", told="Slow"),
        ),
        begin="registered-once",
    )
    yield scenario(
        "told-then-reset",
        "What is told counts where the connection breaks behind it.",
        sale(
            [read(ASKED), send(told("Busy")), {"wait": 0.05}, {"reset": "c"}],
            error("Busy", sent=True, told="Busy"),
        ),
        saved(0, ASKED),
        begin="registered-once",
        over="tcp",
        needs=["tcp"],
    )


def refusals():
    not_yet, most = refusal(1, TRANSFERS, 7), PAUSES["later"][1]
    yield scenario(
        "refused-NotYet-for-long",
        "The pauses grow to the longest one, and no further.",
        sale(3 * served(ASKED, not_yet) + served(ASKED, DONE), at_most=0.6 + 3 * most),
        saved(1),
        begin="registered-slowly",
    )


def addresses():
    three = ("a", "b", "c")
    register = {
        "do": "register",
        "session": "s",
        "transport": "t",
        "client": "7",
        "attempts": 4,
        "pause": 0.01,
    }
    answer = {"ok": {"client": "7", "session": "1"}}

    def at(name, server):
        return accept(name, server=server)

    def begun(server, timeout=LONG, **more):
        return [
            connect(servers=three, timeout=timeout),
            {"call": register, "server": server, "wants": answer, **more},
        ]

    yield scenario(
        "addresses-second",
        "The first does not listen: the second.",
        begun([at("c", "b"), *served(registers(), registered())]),
        sale(served(ASKED, DONE)),
        begin=None,
        needs=["addresses"],
        servers={"a": {"listens": False}, "b": {}, "c": {}},
    )
    yield scenario(
        "addresses-third",
        "Two do not listen: the third.",
        begun([at("c", "c"), *served(registers(), registered())]),
        sale(served(ASKED, DONE)),
        begin=None,
        needs=["addresses"],
        servers={"a": {"listens": False}, "b": {"listens": False}, "c": {}},
    )
    yield scenario(
        "addresses-none",
        "None listens: CannotConnect after the timeout, and nothing was sent.",
        connect(servers=three, timeout=SHORT),
        {
            "call": register,
            "wants": error("CannotConnect", sent=False),
            "at_least": 0.2,
            "at_most": 4.0,
        },
        begin=None,
        needs=["addresses"],
        servers={it: {"listens": False} for it in three},
    )
