"""Ids, TLS, and the caller's own limits."""
from .frames import (
    FIND_ACCOUNTS,
    LONG,
    SHORT,
    TRANSFERS,
    accept,
    account,
    account_bytes,
    ask,
    connect,
    empty,
    error,
    frame_of,
    read,
    registered,
    registers,
    reply,
    retry,
    saved,
    scenario,
    send,
    served,
    told,
    transfer,
    whole_account,
    prepare,
)

SALE = [transfer(11)]
ASKED, DONE, OK = frame_of(1, TRANSFERS), empty(1, TRANSFERS), {"ok": {"results": []}}
MILLISECOND = 1 << 80


def groups():
    return {"ids": list(ids()), "tls": list(tls()), "cancel": list(cancelled())}


def ids():
    def made(name, says, times, random, wants):
        return scenario(
            f"id-{name}",
            says,
            {
                "call": {"do": "ids", "times": times, "random": random},
                "wants": {"ok": [str(it) for it in wants]},
            },
            begin=None,
        )

    drawn = ["00112233445566778899", "ffeeddccbbaa99887766", "01000000000000000000"]
    low = [int.from_bytes(bytes.fromhex(it), "little") for it in drawn]
    most = "ff" * 10
    yield made(
        "first",
        "48 bits of milliseconds above ten random bytes, the low byte first.",
        [1_700_000_000_000],
        drawn[:1],
        [1_700_000_000_000 * MILLISECOND + low[0]],
    )
    yield made(
        "later",
        "A later millisecond draws again.",
        [1000, 1001, 2000],
        drawn,
        [1000 * MILLISECOND + low[0], 1001 * MILLISECOND + low[1], 2000 * MILLISECOND + low[2]],
    )
    yield made(
        "same-millisecond",
        "In the same millisecond ids rise by one.",
        [1000, 1000, 1000],
        drawn[:1],
        [1000 * MILLISECOND + low[0] + it for it in range(3)],
    )
    yield made(
        "clock-set-back",
        "A clock set back between two calls: ids rise all the same.",
        [1000, 999, 1, 1000, 1001],
        drawn[:2],
        [1000 * MILLISECOND + low[0] + it for it in range(4)] + [1001 * MILLISECOND + low[1]],
    )
    yield made(
        "clock-set-far-back",
        "A clock set back by years, and forward again.",
        [1_700_000_000_000, 0, 5, 1_700_000_000_000, 1_700_000_000_001],
        drawn[:2],
        [1_700_000_000_000 * MILLISECOND + low[0] + it for it in range(4)]
        + [1_700_000_000_001 * MILLISECOND + low[1]],
    )
    yield made(
        "overflow",
        "The random bits overflow into the millisecond.",
        [1000, 1000, 1000],
        [most],
        [1000 * MILLISECOND + MILLISECOND - 1, 1001 * MILLISECOND, 1001 * MILLISECOND + 1],
    )
    yield made(
        "overflow-then-clock",
        "After an overflow the clock has to pass the new millisecond.",
        [1000, 1000, 1001, 1002],
        [most, drawn[2]],
        [
            1000 * MILLISECOND + MILLISECOND - 1,
            1001 * MILLISECOND,
            1001 * MILLISECOND + 1,
            1002 * MILLISECOND + low[2],
        ],
    )
    yield made(
        "time-zero",
        "At time 0 nothing is drawn, and no id is 0.",
        [0, 0, 1],
        drawn[:1],
        [1, 2, MILLISECOND + low[0]],
    )
    yield scenario(
        "ids-of-now",
        "Ids have the time, rise, and differ.",
        {"call": {"do": "ids", "count": 2000}, "wants": {"ids": {"count": 2000, "rise": True}}},
        begin=None,
    )
    yield scenario(
        "ids-of-threads",
        "Ids made at once differ.",
        {"call": {"do": "ids", "count": 8000, "threads": 8}, "wants": {"ids": {"count": 8000}}},
        begin=None,
        needs=["parallel"],
    )


def tls():
    ca = {"ca": {"certificate": "ca"}}
    mine = {**ca, "cert": {"certificate": "client"}, "key": {"certificate": "client_key"}}

    def begins(servers=("a",), given=ca, attempts=2):
        call = {
            "do": "register",
            "session": "s",
            "transport": "t",
            "client": "7",
            "attempts": attempts,
            "pause": 0.01,
        }
        return [
            connect(tls=given, servers=servers),
            {
                "call": call,
                "server": [accept(), *served(registers(), registered())],
                "wants": {"ok": {"client": "7", "session": "1"}},
            },
        ]

    def one(name, says, *steps, cert="server", needs=("tls",), **kind):
        return scenario(
            f"tls-{name}",
            says,
            *steps,
            begin=None,
            over="tcp",
            needs=list(needs),
            servers={"a": {"tls": {"cert": cert, **kind}}},
        )

    def refused(name, says, cert="server", given=ca, **kind):
        """Waiting does not mend it: it is reported at once."""
        call = {"do": "register", "session": "s", "transport": "t", "client": "7", "attempts": 2}
        return one(
            name,
            says,
            connect(tls=given, timeout=20.0),
            {
                "call": call,
                "server": [{"accept": "c", "handshake": "fails"}],
                "wants": error("CannotConnect", sent=False),
                "at_most": 10.0,
            },
            cert=cert,
            **kind,
        )

    found = reply(2, FIND_ACCOUNTS, account_bytes(account(1)), commit=9)
    yield one(
        "request",
        "Requests and replies over TLS, on one connection.",
        begins(),
        ask(TRANSFERS, SALE, served(ASKED, DONE)),
        ask(
            FIND_ACCOUNTS,
            ["1"],
            served(frame_of(2, FIND_ACCOUNTS, ["1"]), found),
            {"ok": {"records": [whole_account(account(1))]}},
        ),
        saved(2),
    )
    yield one(
        "1.2",
        "The same by TLS 1.2.",
        begins(),
        ask(TRANSFERS, SALE, served(ASKED, DONE)),
        saved(1),
        version="TLSv1_2",
    )
    flights = begins(given=mine)
    flights[1]["server"][0]["handshake"] = "in flights"
    again = [
        step
        for name in "defgh"
        for step in (
            {"server": [{"close": "c" if name == "d" else chr(ord(name) - 1)}]},
            ask(
                TRANSFERS,
                SALE,
                [
                    accept(name, handshake="in flights"),
                    *served(
                        frame_of(ord(name) - 99, TRANSFERS, SALE),
                        empty(ord(name) - 99, TRANSFERS, commit=99),
                        name,
                    ),
                ],
            ),
        )
    ]
    yield one(
        "1.2-flights",
        "What the client says for its part of agreeing on TLS 1.2 goes out in one write: a server "
        "that refuses it at the first message closes the connection.",
        flights,
        again,
        clients=True,
        version="TLSv1_2",
    )
    yield one(
        "client-certificate",
        "A client shows its certificate.",
        begins(given=mine),
        ask(TRANSFERS, SALE, served(ASKED, DONE)),
        saved(1),
        clients=True,
    )
    yield one(
        "lost",
        "A connection that is cut: the same bytes over another one.",
        begins(),
        ask(
            TRANSFERS,
            SALE,
            [
                read(ASKED),
                send(DONE[:20]),
                {"wait": 0.05},
                {"reset": "c"},
                accept("d"),
                *served(ASKED, DONE, "d"),
            ],
        ),
        saved(1),
    )
    yield one(
        "told",
        "What a server tells comes over TLS too.",
        begins(attempts=1),
        ask(
            TRANSFERS,
            SALE,
            [read(ASKED), send(told("ProgramEnded")), {"close": "c"}],
            error("ReplyLost", told="ProgramEnded"),
        ),
        saved(0, ASKED),
        retry([accept("d"), *served(ASKED, DONE, "d")], OK),
    )
    yield one(
        "closed-at-rest",
        "A connection that was closed while nothing was asked is made again.",
        begins(attempts=1),
        {"server": [{"close": "c"}]},
        ask(TRANSFERS, SALE, [accept("d"), *served(ASKED, DONE, "d")]),
        saved(1),
    )
    large = frame_of(1, TRANSFERS, [transfer(1)])[48:]
    header = frame_of(1, TRANSFERS, [transfer(1)] * 8190)[:48]
    row = one(
        "8190",
        "The largest request over TLS.",
        begins(),
        ask(TRANSFERS, {"count": 8190, "first": transfer(1)}, served("many", DONE)),
    )
    yield {**row, "frames": {"many": {"header": header.hex(), "first": large.hex(), "count": 8190}}}
    hurried = connect(tls=ca, timeout=1.0)
    yield one(
        "late",
        "No reply in time over TLS: the connection is closed, and the same bytes go over another.",
        [hurried, begins()[1]],
        ask(TRANSFERS, SALE, [read(ASKED), {"ended": "c"}, accept("d"), *served(ASKED, DONE, "d")]),
        saved(1),
    )
    left = [accept("d"), *served(ASKED, DONE, "d"), {"drain": "c", "of": ""}]
    yield one(
        "bytes-before-request",
        "Bytes that came over TLS while nothing was asked are no reply to what is asked next.",
        begins(attempts=1),
        {"server": [send(DONE), {"wait": 0.05}]},
        ask(TRANSFERS, SALE, left),
        saved(1),
    )
    second = [
        accept("d"),
        *served(frame_of(2, FIND_ACCOUNTS, ["1"]), empty(2, FIND_ACCOUNTS, commit=9), "d"),
        {"drain": "c", "of": ""},
    ]
    yield one(
        "reply-twice",
        "A reply comes twice in one record: the first is taken, and the connection is left.",
        begins(),
        ask(TRANSFERS, SALE, [read(ASKED), send(DONE + DONE)]),
        ask(FIND_ACCOUNTS, ["1"], second),
        saved(2),
    )
    yield refused("stranger", "A certificate of another authority.", cert="stranger")
    yield refused("expired", "A certificate that has expired.", cert="expired")
    yield refused("other-host", "A certificate of another host.", cert="other_host")
    for version in (None, "TLSv1_2"):
        by = {"clients": True, "version": version} if version else {"clients": True}
        end = "-1.2" if version else ""
        yield refused(
            f"no-client-certificate{end}",
            "The server asks for a certificate, and the client has none.",
            **by,
        )
        for name, says in (
            ("stranger", "The client's certificate is of another authority."),
            ("expired", "The client's certificate has expired."),
        ):
            theirs = {"cert": {"certificate": name}, "key": {"certificate": f"{name}_key"}}
            yield refused(f"client-{name}{end}", says, given={**ca, **theirs}, **by)
    servers = {"a": {"tls": {"cert": "server", "clients": True}}, "b": {"tls": {"cert": "server"}}}
    call = {"do": "register", "session": "s", "transport": "t", "client": "7", "attempts": 1}
    yield scenario(
        "tls-refused-by-one",
        "One address refuses the client's certificate: the next one is taken.",
        connect(tls=ca, servers=("a", "b")),
        {
            "call": call,
            "server": [
                {"accept": "c", "handshake": "fails"},
                {"accept": "d", "server": "b"},
                *served(registers(), registered(), "d"),
            ],
            "wants": {"ok": {"client": "7", "session": "1"}},
        },
        begin=None,
        over="tcp",
        needs=["tls", "addresses"],
        servers=servers,
    )
    servers = {"a": {"listens": False}, "b": {"tls": {"cert": "stranger"}}}
    yield scenario(
        "tls-distrust-and-nobody",
        "One address does not listen yet, and one is not trusted: the first may be back in time.",
        connect(tls=ca, servers=("a", "b"), timeout=SHORT),
        {
            "call": call,
            "server": [{"accept": "c", "server": "b", "handshake": "fails"}],
            "wants": error("CannotConnect", sent=False),
            "at_least": SHORT * 0.9,
        },
        begin=None,
        over="tcp",
        needs=["tls", "addresses"],
        servers=servers,
        ignored=["b"],
    )
    yield scenario(
        "tls-plain-server",
        "The server speaks no TLS: no byte of a request goes to it in the clear.",
        connect(tls=ca, timeout=SHORT),
        {
            "call": {
                "do": "register",
                "session": "s",
                "transport": "t",
                "client": "7",
                "attempts": 1,
            },
            "server": [accept(), {"hello": "c"}, {"close": "c"}],
            "wants": error("CannotConnect", sent=False),
        },
        begin=None,
        over="tcp",
        needs=["tls"],
        ignored=["a"],
    )
    call = {"do": "register", "session": "s", "transport": "t", "client": "7", "attempts": 1}
    yield scenario(
        "tls-silent",
        "The server takes the connection and says nothing: CannotConnect when the time is over.",
        connect(tls=ca, timeout=SHORT),
        {
            "call": call,
            "server": [accept(), {"hello": "c"}, {"wait": 1.2}, {"close": "c"}],
            "wants": error("CannotConnect", sent=False),
            "at_most": 0.9,
        },
        begin=None,
        over="tcp",
        needs=["tls"],
        ignored=["a"],
    )


def cancelled():
    """The caller's own limit."""

    def within(step, seconds):
        return {**step, "call": {**step["call"], "within": seconds}}

    yield scenario(
        "cancelled",
        "The caller's limit ends a call: the request stays in doubt, and the connection is closed.",
        within(
            ask(
                TRANSFERS,
                SALE,
                [read(ASKED), {"ended": "c"}],
                error("Cancelled"),
                at_least=0.15,
                at_most=10.0,
            ),
            0.2,
        ),
        saved(0, ASKED),
        retry([accept("d"), *served(ASKED, DONE, "d")], OK),
        saved(1),
        needs=["cancel"],
    )
    yield scenario(
        "cancelled-retry",
        "So it is with a retry.",
        prepare(TRANSFERS, SALE),
        within(retry([read(ASKED), {"ended": "c"}], error("Cancelled"), at_most=10.0), 0.2),
        saved(0, ASKED),
        retry([accept("d"), *served(ASKED, DONE, "d")], OK),
        saved(1),
        needs=["cancel"],
    )
    yield scenario(
        "cancelled-pause",
        "The limit ends a pause too.",
        {"server": [{"close": "c"}]},
        within(
            ask(
                TRANSFERS,
                SALE,
                [accept(), send(told("Busy")), {"half": "c"}, {"drain": "c", "of": ASKED.hex()}],
                error(["Cancelled", "Busy"]),
                at_most=10.0,
            ),
            0.3,
        ),
        saved(0, ASKED),
        begin="patient",
        needs=["cancel"],
    )
    unreached = error(["Cancelled", "CannotConnect"], sent=False)
    yield scenario(
        "cancelled-unreachable",
        "And a connecting.",
        {"server": [{"close": "c"}, {"unlisten": "a"}]},
        within(ask(TRANSFERS, SALE, (), unreached, at_most=10.0), 0.2),
        saved(0),
        {"server": [{"listen": "a"}]},
        ask(TRANSFERS, SALE, [accept("d"), *served(ASKED, DONE, "d")]),
        saved(1),
        needs=["cancel"],
    )
    yield scenario(
        "cancelled-unreachable-prepared",
        "A prepared request stays in doubt then.",
        prepare(TRANSFERS, SALE),
        {"server": [{"close": "c"}, {"unlisten": "a"}]},
        within(retry((), unreached, at_most=10.0), 0.2),
        saved(0, ASKED),
        needs=["cancel"],
    )
    yield scenario(
        "cancelled-after-loss",
        "The first sending was lost, and the limit ends the connecting for the second: the request "
        "may have been sent, and stays in doubt.",
        within(
            ask(
                TRANSFERS,
                SALE,
                [read(ASKED), {"unlisten": "a"}, {"close": "c"}],
                error("Cancelled", sent=True),
                at_most=10.0,
            ),
            0.3,
        ),
        ask(FIND_ACCOUNTS, ["1"], (), error("InDoubt", sent=False)),
        saved(0, ASKED),
        {"server": [{"listen": "a"}]},
        retry([accept("d"), *served(ASKED, DONE, "d")], OK),
        saved(1),
        needs=["cancel"],
    )
    asked = frame_of(1, FIND_ACCOUNTS, ["1"])
    find = {"do": "ask", "session": "s", "operation": "lookup_accounts", "items": ["1"]}
    yield scenario(
        "cancelled-at-once",
        "Of two calls at once one is sent, and the limit ends both: what was sent stays in doubt.",
        {
            "call": {"do": "parallel", "calls": [{**find, "within": 0.4}] * 2},
            "server": [read(asked), {"ended": "c"}],
            "wants": {
                "answers": [
                    error("Cancelled", sent=True),
                    error(["Cancelled", "InDoubt"], sent=False),
                ]
            },
        },
        saved(0, asked),
        retry([accept("d"), *served(asked, empty(1, FIND_ACCOUNTS), "d")], {"ok": {"records": []}}),
        saved(1),
        needs=["cancel", "parallel"],
    )
    yield scenario(
        "not-cancelled",
        "A call that ends in time is not touched.",
        within(ask(TRANSFERS, SALE, served(ASKED, DONE)), LONG),
        saved(1),
        ask(
            FIND_ACCOUNTS,
            ["1"],
            [
                read(frame_of(2, FIND_ACCOUNTS, ["1"])),
                {"wait": 0.1},
                send(empty(2, FIND_ACCOUNTS, commit=9)),
            ],
        ),
        needs=["cancel"],
    )
