"""The request in doubt: what may follow it, and who else uses the session."""
from .frames import (
    FIND_ACCOUNTS,
    LOST,
    SHORT,
    TRANSFERS,
    accept,
    ask,
    connect,
    empty,
    error,
    frame_of,
    load,
    prepare,
    read,
    registered,
    registers,
    reply,
    results,
    retry,
    save,
    saved,
    scenario,
    send,
    served,
    transfer,
)

SALE = [transfer(11)]
ASKED, DONE, OK = frame_of(1, TRANSFERS), empty(1, TRANSFERS), {"ok": {"results": []}}
WAITING = {"client": "7", "session": "1", "number": "0", "pending": ASKED.hex()}


def groups():
    return {"doubt": list(doubts()), "crashes": list(crashes()), "shared": list(shared())}


def doubts():
    yield scenario(
        "wrong-then-right",
        "A request that was refused for its values takes no number.",
        ask(
            TRANSFERS,
            [{**transfer(11), "amount": "-1"}],
            (),
            {**error("Invalid", sent=False), "typed": True},
        ),
        ask(TRANSFERS, SALE, served(ASKED, DONE)),
        saved(1),
    )
    yield scenario(
        "in-doubt-after-wrong",
        "Nor does one that was refused while another is in doubt.",
        prepare(TRANSFERS, SALE),
        ask(
            TRANSFERS,
            [{**transfer(12), "amount": str(2**128)}],
            (),
            {**error(["InDoubt", "InvalidValue", "InvalidType"], sent=False), "typed": True},
        ),
        saved(0, ASKED),
        retry(served(ASKED, DONE), OK),
    )
    yield scenario(
        "retry-required",
        "A retry may require that all was accepted.",
        prepare(TRANSFERS, SALE),
        retry(
            served(ASKED, reply(1, TRANSFERS, results((0, 46)))),
            error("EventsFailed", results=[{"index": 0, "result": "exists"}]),
            require_ok=True,
        ),
        saved(1),
    )


def crashes():
    """The client is killed, or gone."""
    again = retry([accept("d"), *served(ASKED, DONE, "d")], OK)
    yield scenario(
        "killed-then-nobody-listens",
        "After the crash nobody listens: what was loaded stays in doubt.",
        prepare(TRANSFERS, SALE),
        save(),
        {"server": [{"close": "c"}, {"unlisten": "a"}]},
        {"kill": True},
        connect(timeout=SHORT),
        load({"ok": WAITING}),
        retry((), error("CannotConnect", sent=False)),
        saved(0, ASKED),
        {"server": [{"listen": "a"}]},
        again,
        saved(1),
    )
    yield scenario(
        "dropped-unsaved",
        "A session that was never saved is gone with its object: a new one has a new id.",
        ask(TRANSFERS, SALE, served(ASKED, DONE)),
        {"call": {"do": "drop", "session": "s"}, "wants": {"ok": None}},
        {
            "call": {"do": "register", "session": "u", "transport": "t"},
            "server": [read(registers(), any=[[0, 16]]), send(registered(9), client=True)],
            "wants": {"ok": {"client": {"any": True}, "session": "9"}},
        },
    )


def shared():
    """A session used by two, and calls at once."""
    calls = [
        {"do": "ask", "session": name, "operation": "lookup_accounts", "items": ["1"]}
        for name in ("s", "v")
        for _ in range(4)
    ]
    register = {
        "call": {"do": "register", "session": "v", "transport": "t", "client": "8"},
        "server": served(registers(8), registered(2, 8)),
        "wants": {"ok": {"client": "8", "session": "2"}},
    }
    found = {"ok": {"records": []}}
    yield scenario(
        "at-once",
        "Calls at once over two sessions and one transport: each is whole, and each session's "
        "numbers rise.",
        register,
        {
            "call": {"do": "parallel", "calls": calls},
            "server": [{"answer": 8}],
            "wants": {"answers": [found] * 8},
        },
        saved(4),
        saved(4, session=2, client=8, name="v"),
        needs=["parallel"],
    )
    same = [{"do": "ask", "session": "s", "operation": "lookup_accounts", "items": ["1"]}] * 3
    asked = frame_of(1, FIND_ACCOUNTS, ["1"])
    yield scenario(
        "at-once-lost",
        "Calls at once over one session: while one is in doubt the others are InDoubt.",
        {
            "call": {"do": "parallel", "calls": same},
            "server": [read(asked), {"close": "c"}],
            "wants": {
                "answers": [LOST, error("InDoubt", sent=False), error("InDoubt", sent=False)]
            },
        },
        saved(0, asked),
        begin="registered-once",
        needs=["parallel"],
    )
    again = {"do": "retry", "session": "s"}
    yield scenario(
        "retry-at-once",
        "Retries at once send the request once: to the others nothing is in doubt.",
        prepare(TRANSFERS, SALE),
        {
            "call": {"do": "parallel", "calls": [again] * 3},
            "server": served(ASKED, DONE),
            "wants": {"answers": [OK, *[error("NothingInDoubt", sent=False)] * 2]},
        },
        saved(1),
        needs=["parallel"],
    )
    makes = {"do": "prepare", "session": "s", "operation": "create_transfers", "items": SALE}
    yield scenario(
        "prepare-at-once",
        "Of requests that are prepared at once one is made, and the others are InDoubt.",
        {
            "call": {"do": "parallel", "calls": [makes] * 4},
            "wants": {"answers": [{"ok": None}, *[error("InDoubt", sent=False)] * 3]},
        },
        saved(0, ASKED),
        retry(served(ASKED, DONE), OK),
        saved(1),
        needs=["parallel"],
    )
    yield scenario(
        "at-once-two-transports",
        "Calls at once over two transports do not wait for one another.",
        connect("u"),
        {
            "call": {"do": "register", "session": "v", "transport": "u", "client": "8"},
            "server": [accept("d"), *served(registers(8), registered(2, 8), "d")],
            "wants": {"ok": {"client": "8", "session": "2"}},
        },
        {
            "call": {"do": "parallel", "calls": [calls[0], calls[4]]},
            "server": [
                read(asked),
                read(frame_of(1, FIND_ACCOUNTS, ["1"], 2, 8), "d"),
                send(empty(1, FIND_ACCOUNTS)),
                send(empty(1, FIND_ACCOUNTS, 2, 8), "d"),
            ],
            "wants": {"answers": [found, found]},
        },
        needs=["parallel"],
    )
