"""Clients that callers share: what waits is joined, each caller gets its own results, and one that
leaves stops no other. The client's ids are its own: the server's actions `asked` and `says` know
the sessions by their numbers."""
from .frames import (
    ACCOUNT_CODES,
    ACCOUNTS,
    BODIES,
    FIND_ACCOUNTS,
    FIND_TRANSFERS,
    NAMES,
    NOTHING,
    REGISTER,
    TRANSFER_CODES,
    TRANSFERS,
    account,
    account_bytes,
    accept,
    error,
    scenario,
    told,
    transfer,
    transfer_bytes,
    whole_account,
    whole_transfer,
)

TURN = 0.05  # seconds within which a call that was begun waits after the others
SOON = 15.0  # seconds that a call takes at most; it makes a scenario one that may be tried again
CLOSE = {"close": "c"}


def groups():
    made = [*joined(), *lost(), *evicted(), *refused(), *leaving(), *ending()]
    return {"sharing": [shared(*it) for it in made]}


def shared(name, says, *steps):
    needs = ["shared", "parallel"]
    return scenario(f"shared-{name}", says, share(), *steps, begin=None, needs=needs)


# Steps


def share(**more):
    call = {"do": "share", "shared": "s", "addresses": [{"address": "a"}], "timeout": 20.0}
    return {"call": {**call, **more}, "wants": {"ok": None}}


def ask(operation, items, server=(), wants=None, **more):
    call = {"do": "ask", "shared": "s", "operation": NAMES[operation], "items": items, **more}
    return {"call": call, "server": list(server), "wants": wants or {"ok": NOTHING[operation]}}


def begin(name, operation, items, server=None, **more):
    """Begins a call. Without `server` it waits after others, and sends nothing."""
    call = {"do": "begin", "call": name, "shared": "s", "operation": NAMES[operation]}
    server = [{"wait": TURN}] if server is None else list(server)
    return {"call": {**call, "items": items, **more}, "server": server, "at_most": SOON}


def end(name, wants=None, **more):
    return {"call": {"do": "end", "call": name}, "wants": wants or {"ok": {"results": []}}, **more}


def leave(name):
    return {"call": {"do": "leave", "call": name}, "wants": {"ok": None}}


def server(*actions):
    return {"server": list(actions)}


def others(*items):
    """Transfers that another client made before."""
    return {"others": [[NAMES[TRANSFERS], list(items)]] if items else []}


# What the server does


def asked(number, operation, *lists, session=1, on="c", **more):
    """Reads the request of these lists, in any order."""
    bodies = [
        {**it, "first": BODIES[operation]([it["first"]]).hex()}
        if isinstance(it, dict)
        else BODIES[operation](it).hex()
        for it in lists
    ]
    return {"asked": [session, number, operation], "lists": bodies, "on": on, **more}


def says(*rows, on="c", **more):
    """Replies to the last request: a list of results, or of records, for each of its lists."""
    return {"says": list(rows), "on": on, **more}


def registers(session=1, on="c"):
    return [asked(0, REGISTER, session=0, on=on), says(session=session, on=on)]


def opened(session=1, on="c"):
    return [accept(on), *registers(session, on)]


def exists(*places):
    return [[it, TRANSFER_CODES["exists"]] for it in places]


def told_results(*rows):
    return {"ok": {"results": [{"index": at, "result": name} for at, name in rows]}}


def row(at, name, codes=TRANSFER_CODES):
    return [at, codes[name]]


def one(id, **fields):
    return [transfer(id, **fields)]


def rising(first, count):
    return {"count": count, "first": str(first)}


def many(first, count):
    return [transfer(first + at) for at in range(count)]


CANCELLED = {
    "either": [error("Cancelled", sent=None), error("Cancelled", sent=True)],
}
NOT_SENT = {
    "either": [error("Cancelled", sent=None), error("Cancelled", sent=False)],
}
FIRST = begin("a", TRANSFERS, one(11), [*opened(), asked(1, TRANSFERS, one(11))])


# Scenarios


def joined():
    yield (
        "registers",
        "The first call registers, the next ones do not.",
        ask(TRANSFERS, one(11), [*opened(), asked(1, TRANSFERS, one(11)), says([])]),
        ask(FIND_ACCOUNTS, ["1"], [asked(2, FIND_ACCOUNTS, ["1"]), says([])]),
    )
    yield (
        "joins",
        "Calls that wait go out as one request, and each gets its own results by its own indexes.",
        FIRST,
        begin("b", TRANSFERS, many(20, 3)),
        begin("c", TRANSFERS, many(30, 1)),
        begin("d", TRANSFERS, many(40, 2)),
        server(
            says([]),
            asked(2, TRANSFERS, many(20, 3), many(30, 1), many(40, 2)),
            says(
                [row(1, "exists")],
                [row(0, "code_must_not_be_zero")],
                [row(0, "exists"), row(1, "exists")],
            ),
        ),
        end("a"),
        end("b", told_results((1, "exists"))),
        end("c", told_results((0, "code_must_not_be_zero"))),
        end("d", told_results((0, "exists"), (1, "exists"))),
    )
    yield (
        "joins-accounts",
        "Accounts are joined as transfers are.",
        FIRST,
        begin("b", ACCOUNTS, [account(5), account(6)]),
        begin("c", ACCOUNTS, [account(7), account(8)]),
        server(
            says([]),
            asked(2, ACCOUNTS, [account(5), account(6)], [account(7), account(8)]),
            says([row(1, "exists", ACCOUNT_CODES)], [row(0, "exists", ACCOUNT_CODES)]),
        ),
        end("a"),
        end("b", told_results((1, "exists"))),
        end("c", told_results((0, "exists"))),
    )
    for kind, name, as_bytes, whole, made in (
        (FIND_ACCOUNTS, "accounts", account_bytes, whole_account, account),
        (FIND_TRANSFERS, "transfers", transfer_bytes, whole_transfer, transfer),
    ):
        record = {it: as_bytes(made(it)).hex() for it in (1, 3, 4)}
        shown = {it: whole(made(it)) for it in (1, 3, 4)}
        yield (
            f"joins-lookups-{name}",
            "Lookups are joined: each gets the records of its own ids; some are not there.",
            FIRST,
            begin("b", kind, ["1", "2", "3"]),
            begin("c", kind, ["4", "1"]),
            begin("d", kind, ["9"]),
            server(
                says([]),
                asked(2, kind, ["1", "2", "3"], ["4", "1"], ["9"]),
                says([record[1], record[3]], [record[4], record[1]], []),
            ),
            end("a"),
            end("b", {"ok": {"records": [shown[1], shown[3]]}}),
            end("c", {"ok": {"records": [shown[4], shown[1]]}}),
            end("d", {"ok": {"records": []}}),
        )
    yield (
        "empty-list",
        "An empty list is a request of its own, or joined to others.",
        ask(TRANSFERS, [], [*opened(), asked(1, TRANSFERS, []), says([])]),
        begin("a", TRANSFERS, one(11), [asked(2, TRANSFERS, one(11))]),
        begin("b", TRANSFERS, []),
        begin("c", TRANSFERS, one(12)),
        server(says([]), asked(3, TRANSFERS, [], one(12)), says([], [row(0, "exists")])),
        end("a"),
        end("b"),
        end("c", told_results((0, "exists"))),
    )
    yield (
        "too-many",
        "A list that no request can hold is refused, and is no other caller's fault.",
        ask(FIND_ACCOUNTS, {"count": 8191, "first": "1"}, [], error("Invalid", sent=False)),
        ask(FIND_ACCOUNTS, ["1"], [*opened(), asked(1, FIND_ACCOUNTS, ["1"]), says([])]),
    )


def lost():
    again = [accept("d"), asked(1, TRANSFERS, one(11), on="d", again=True)]
    lookup = [accept("d"), asked(1, FIND_TRANSFERS, ["11"], on="d", again=True)]
    yield (
        "lookup-lost",
        "The reply to a lookup is lost: the same bytes again.",
        ask(
            FIND_TRANSFERS,
            ["11"],
            [*opened(), asked(1, FIND_TRANSFERS, ["11"]), CLOSE, *lookup, says([], on="d")],
        ),
    )
    yield (
        "joined-lost",
        "The reply to a joined request is lost: the same bytes again, without what came meanwhile.",
        FIRST,
        begin("b", TRANSFERS, one(12)),
        begin("c", TRANSFERS, one(13)),
        server(says([]), asked(2, TRANSFERS, one(12), one(13))),
        end("a"),
        begin("d", TRANSFERS, one(14)),
        server(
            CLOSE,
            accept("d"),
            asked(2, TRANSFERS, one(12), one(13), on="d", again=True),
            says([row(0, "exists")], [], on="d"),
            asked(3, TRANSFERS, one(14), on="d"),
            says([], on="d"),
        ),
        end("b", told_results((0, "exists"))),
        end("c"),
        end("d"),
    )
    losses = [
        it
        for name in "defgh"
        for it in (accept(name), asked(1, TRANSFERS, one(11), on=name, again=True), {"close": name})
    ]
    yield (
        "lost-often",
        "A call goes on however often its reply is lost.",
        ask(
            TRANSFERS,
            one(11),
            [
                *opened(),
                asked(1, TRANSFERS, one(11)),
                CLOSE,
                *losses,
                accept("i"),
                asked(1, TRANSFERS, one(11), on="i", again=True),
                says([], on="i"),
            ],
        ),
    )
    yield (
        "register-lost",
        "The reply to the register is lost: the same register again.",
        ask(
            TRANSFERS,
            one(11),
            [
                accept("c"),
                asked(0, REGISTER, session=0),
                CLOSE,
                accept("d"),
                asked(0, REGISTER, session=0, on="d", again=True),
                says(session=1, on="d"),
                asked(1, TRANSFERS, one(11), on="d"),
                says([], on="d"),
            ],
        ),
    )
    yield (
        "nobody-after-a-loss",
        "The reply is lost, and nobody listens for a while: the same bytes again.",
        ask(
            TRANSFERS,
            one(11),
            [
                *opened(),
                asked(1, TRANSFERS, one(11)),
                {"unlisten": "a"},
                CLOSE,
                {"wait": 0.2},
                {"listen": "a"},
                *again,
                says([], on="d"),
            ],
        ),
    )


def evicted():
    yield (
        "evicted-lookup",
        "A lookup of a session that was evicted is asked again in a new one.",
        ask(
            FIND_ACCOUNTS,
            ["1"],
            [
                *opened(),
                asked(1, FIND_ACCOUNTS, ["1"]),
                says(status=1),
                *registers(session=5),
                asked(1, FIND_ACCOUNTS, ["1"], session=5),
                says([]),
            ],
        ),
    )
    moved = [CLOSE, accept("d"), asked(1, TRANSFERS, one(11), on="d", again=True)]
    yield (
        "evicted-after-a-loss",
        "Lost and then evicted: what a new session says of the same records is answered.",
        ask(
            TRANSFERS,
            one(11),
            [
                *opened(),
                asked(1, TRANSFERS, one(11)),
                *moved,
                says(status=1, on="d"),
                *registers(session=5, on="d"),
                asked(1, TRANSFERS, one(11), session=5, on="d"),
                says(exists(0), on="d"),
            ],
            told_results((0, "exists")),
        ),
    )
    chain = [transfer(20, flags=["linked"]), transfer(21)]
    refused_chain = [row(0, "exists"), row(1, "linked_event_failed")]
    same = [transfer_bytes({**it, "timestamp": "9"}).hex() for it in chain]
    rest = {**chain[1], "amount": "5"}
    other = [same[0], transfer_bytes(rest).hex()]
    half = others(chain[0], transfer(22))
    for name, what, found, wants, before in (
        ("done", "is there: each event exists.", same, ((0, "exists"), (1, "exists")), others()),
        (
            "other",
            "is there with another content: its results as they are.",
            other,
            ((0, "exists"), (1, "linked_event_failed")),
            others(chain[0], rest),
        ),
        (
            "half",
            "is there in part: its results as they are.",
            same[:1],
            ((0, "exists"), (1, "linked_event_failed")),
            half,
        ),
    ):
        yield (
            f"evicted-chain-{name}",
            f"Lost and then evicted: a chain that is refused since its first event exists {what}",
            before,
            ask(
                TRANSFERS,
                chain,
                [
                    *opened(),
                    asked(1, TRANSFERS, chain),
                    CLOSE,
                    accept("d"),
                    asked(1, TRANSFERS, chain, on="d", again=True),
                    says(status=1, on="d"),
                    *registers(session=5, on="d"),
                    asked(1, TRANSFERS, chain, session=5, on="d"),
                    says(refused_chain, on="d"),
                    asked(2, FIND_TRANSFERS, ["20", "21"], session=5, on="d"),
                    says(found, on="d"),
                ],
                told_results(*wants),
            ),
        )
    yield (
        "evicted-chain-never-lost",
        "Evicted without a loss before: a chain whose first event exists was refused as it is.",
        half,
        ask(
            TRANSFERS,
            chain,
            [
                *opened(),
                asked(1, TRANSFERS, chain),
                says(status=1),
                *registers(session=5),
                asked(1, TRANSFERS, chain, session=5),
                says(refused_chain),
            ],
            told_results((0, "exists"), (1, "linked_event_failed")),
        ),
    )
    pair = [account(5, flags=["linked"]), account(6)]
    there = [account_bytes({**it, "debits_posted": "7", "timestamp": "9"}).hex() for it in pair]
    yield (
        "evicted-chain-of-accounts",
        "Lost and then evicted: a chain of accounts that were created and used since.",
        ask(
            ACCOUNTS,
            pair,
            [
                *opened(),
                asked(1, ACCOUNTS, pair),
                CLOSE,
                accept("d"),
                asked(1, ACCOUNTS, pair, on="d", again=True),
                says(status=1, on="d"),
                *registers(session=5, on="d"),
                asked(1, ACCOUNTS, pair, session=5, on="d"),
                says(
                    [row(0, "exists", ACCOUNT_CODES), row(1, "linked_event_failed", ACCOUNT_CODES)],
                    on="d",
                ),
                asked(2, FIND_ACCOUNTS, ["5", "6"], session=5, on="d"),
                says(there, on="d"),
            ],
            told_results((0, "exists"), (1, "exists")),
        ),
    )
    yield (
        "evicted-joined",
        "Lost and then evicted: joined calls get their own results, settled.",
        FIRST,
        begin("b", TRANSFERS, one(30)),
        begin("c", TRANSFERS, chain),
        server(
            says([]),
            asked(2, TRANSFERS, one(30), chain),
            CLOSE,
            accept("d"),
            asked(2, TRANSFERS, one(30), chain, on="d", again=True),
            says(status=1, on="d"),
            *registers(session=5, on="d"),
            asked(1, TRANSFERS, one(30), chain, session=5, on="d"),
            says(exists(0), refused_chain, on="d"),
            asked(2, FIND_TRANSFERS, ["20", "21"], session=5, on="d"),
            says(same, on="d"),
        ),
        end("a"),
        end("b", told_results((0, "exists"))),
        end("c", told_results((0, "exists"), (1, "exists"))),
    )


def refused():
    yield (
        "bad-reply",
        "A bad reply is reported, and the next call has a session of a new id.",
        ask(
            TRANSFERS,
            one(11),
            [*opened(), asked(1, TRANSFERS, one(11)), says([row(1, "exists")]), {"drop": "c"}],
            error("BadReply", sent=True),
        ),
        ask(
            TRANSFERS,
            one(12),
            [
                *opened(session=5, on="d"),
                asked(1, TRANSFERS, one(12), session=5, on="d"),
                says([], on="d"),
            ],
        ),
    )
    yield (
        "not-allowed",
        "Told NotAllowed: reported at once.",
        ask(
            TRANSFERS,
            one(11),
            [
                accept("c"),
                asked(0, REGISTER, session=0),
                {"send": told("NotAllowed"), "on": "c"},
                CLOSE,
            ],
            error("ReplyLost", told="NotAllowed"),
        ),
    )


def leaving():
    yield (
        "leaves-before",
        "A caller that leaves before its call is sent: it is not executed, and the others are.",
        FIRST,
        begin("b", TRANSFERS, one(12)),
        begin("c", TRANSFERS, one(13)),
        leave("b"),
        end("b", NOT_SENT),
        server(says([]), asked(2, TRANSFERS, one(13)), says([])),
        end("a"),
        end("c"),
    )
    yield (
        "leaves-amid",
        "A caller leaves while its request is in flight: the client waits for the reply.",
        FIRST,
        leave("a"),
        end("a", CANCELLED),
        begin("b", TRANSFERS, one(12)),
        server(says([]), asked(2, TRANSFERS, one(12)), says([])),
        end("b"),
    )
    yield (
        "leaves-amid-a-loss",
        "A caller leaves, then the reply is lost: its request is sent again, before the next one.",
        FIRST,
        leave("a"),
        end("a", CANCELLED),
        begin("b", TRANSFERS, one(12)),
        server(
            CLOSE,
            accept("d"),
            asked(1, TRANSFERS, one(11), on="d", again=True),
            says([], on="d"),
            asked(2, TRANSFERS, one(12), on="d"),
            says([], on="d"),
        ),
        end("b"),
    )
    yield (
        "leaves-joined",
        "A caller of a joined request leaves: the others get their results.",
        FIRST,
        begin("b", TRANSFERS, one(12)),
        begin("c", TRANSFERS, one(13)),
        server(says([]), asked(2, TRANSFERS, one(12), one(13))),
        end("a"),
        leave("b"),
        end("b", CANCELLED),
        server(says(exists(0), [row(0, "code_must_not_be_zero")])),
        end("c", told_results((0, "code_must_not_be_zero"))),
    )
    yield (
        "limit",
        "A caller's limit ends its call alone.",
        begin("a", TRANSFERS, one(11), [*opened(), asked(1, TRANSFERS, one(11))], within=0.2),
        begin("b", TRANSFERS, one(12)),
        end("a", CANCELLED),
        server(says([]), asked(2, TRANSFERS, one(12)), says([])),
        end("b"),
    )
    yield (
        "limit-before",
        "A caller's limit ends before its call is sent: it is not executed.",
        FIRST,
        begin("b", TRANSFERS, one(12), within=0.1),
        end("b", NOT_SENT),
        begin("c", TRANSFERS, one(13)),
        server(says([]), asked(2, TRANSFERS, one(13)), says([])),
        end("a"),
        end("c"),
    )
    yield (
        "nobody-listens",
        "Nobody listens: a call waits until its caller's limit, and a later one is answered.",
        server({"unlisten": "a"}),
        ask(TRANSFERS, one(11), [], NOT_SENT, within=0.2),
        server({"listen": "a"}),
        ask(TRANSFERS, one(12), [*opened(), asked(1, TRANSFERS, one(12)), says([])]),
    )


def ending():
    yield (
        "closed",
        "A client that was closed answers nothing.",
        ask(TRANSFERS, one(11), [*opened(), asked(1, TRANSFERS, one(11)), says([])]),
        {"call": {"do": "close", "shared": "s"}, "wants": {"ok": None}},
        ask(TRANSFERS, one(12), [{"ended": "c"}], error("Closed", sent=False)),
    )
    yield (
        "closed-amid",
        "At the end a request in flight is waited for, and what was not sent is Closed.",
        FIRST,
        begin("b", TRANSFERS, one(12)),
        {
            "call": {"do": "close", "shared": "s"},
            "server": [{"wait": TURN}, says([])],
            "wants": {"ok": None},
        },
        end("a"),
        end("b", error("Closed", sent=False)),
    )
