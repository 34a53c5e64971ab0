"""What a client sends, byte for byte, and how it reads records and results."""
from .frames import (
    ACCOUNT_CODES,
    ACCOUNT_FIELDS,
    ACCOUNT_FLAGS,
    ACCOUNTS,
    FIND_ACCOUNTS,
    FIND_TRANSFERS,
    MOST,
    NAMES,
    SOME,
    TRANSFER_CODES,
    TRANSFER_FIELDS,
    TRANSFER_FLAGS,
    TRANSFERS,
    account,
    account_bytes,
    accept,
    ask,
    empty,
    error,
    frame_of,
    read,
    registered,
    registers,
    reply,
    request,
    results,
    saved,
    scenario,
    send,
    served,
    transfer_bytes,
    whole_account,
    whole_transfer,
)

KINDS = {
    "account": (
        ACCOUNTS,
        FIND_ACCOUNTS,
        ACCOUNT_FIELDS,
        ACCOUNT_FLAGS,
        ACCOUNT_CODES,
        account_bytes,
        whole_account,
    ),
    "transfer": (
        TRANSFERS,
        FIND_TRANSFERS,
        TRANSFER_FIELDS,
        TRANSFER_FLAGS,
        TRANSFER_CODES,
        transfer_bytes,
        whole_transfer,
    ),
}


def groups():
    return {
        "registers": list(register_scenarios()),
        "requests": list(request_scenarios()),
        "records": list(record_scenarios()),
        "results": list(result_scenarios()),
    }


def register_call(client=None, wants=None, server=(), **more):
    call = {"do": "register", "session": "s", "transport": "t", "attempts": 2, "pause": 0.01}
    if client is not None:
        call["client"] = str(client)
    return {"call": call, "server": list(server), "wants": wants, **more}


def register_scenarios():
    yield scenario(
        "register-own-id",
        "Where no id is given the client makes one: not 0, and the reply has it again.",
        register_call(
            None,
            {"ok": {"client": {"any": True}, "session": "1"}},
            [accept(), read(registers(), any=[[0, 16]]), send(registered(), client=True)],
        ),
        begin="connected",
    )


def request_scenarios():
    for operation in (ACCOUNTS, TRANSFERS, FIND_ACCOUNTS, FIND_TRANSFERS):
        name, items = NAMES[operation].replace("_", "-"), SOME[operation]
        yield scenario(
            f"{name}-some",
            "The bytes of a request, and its reply with nothing in it.",
            ask(operation, items, served(frame_of(1, operation), empty(1, operation))),
            saved(1),
        )
        yield scenario(
            f"{name}-none",
            "A request may have no items.",
            ask(operation, [], served(request(1, operation), empty(1, operation))),
        )
        first = items[0]
        body = frame_of(1, operation, [first])[48:]
        whole = request(1, operation, body * 8190)[:48]
        many = {"header": whole.hex(), "first": body.hex(), "count": 8190}
        yield scenario(
            f"{name}-8190",
            "A request has up to 8190 items.",
            ask(operation, {"count": 8190, "first": first}, served("many", empty(1, operation))),
            frames={"many": many},
        )
        yield scenario(
            f"{name}-8191",
            "8191 items are refused, and nothing is sent.",
            ask(operation, {"count": 8191, "first": first}, (), error("Invalid", sent=False)),
            ask(operation, items, served(frame_of(1, operation), empty(1, operation))),
            saved(1),
        )
    body = account_bytes(account(1))
    many = {
        "header": reply(1, FIND_ACCOUNTS, body * 8190)[:48].hex(),
        "first": body.hex(),
        "count": 8190,
    }
    whole = {
        "header": request(1, FIND_ACCOUNTS, bytes(16 * 8190))[:48].hex(),
        "first": (1).to_bytes(16, "little").hex(),
        "count": 8190,
    }
    yield scenario(
        "reply-of-8190-records",
        "A reply has up to 8190 records.",
        ask(
            FIND_ACCOUNTS,
            {"count": 8190, "first": "1"},
            served("asked", "found"),
            {"ok": {"records": {"count": 8190, "first": whole_account(account(1))}}},
        ),
        frames={"asked": whole, "found": many},
    )


def field_of(name, number, flags):
    """A field's value, made of a number."""
    return [list(flags)[number % len(flags)]] if name == "flags" else str(number)


def record_scenarios():
    for kind, (create, find, fields, flags, _, to_bytes, whole) in KINDS.items():
        for at, field in enumerate(fields):
            if field == "flags":
                continue
            given = {"id": "5", field: str(MOST[at])}
            if field == "id":
                given = {"id": str(MOST[at])}
            yield scenario(
                f"{kind}-{field}",
                f"The field {field}: its place, its size and its greatest number, both ways.",
                ask(create, [given], served(request(1, create, to_bytes(given)), empty(1, create))),
                ask(
                    find,
                    [given["id"]],
                    served(
                        frame_of(2, find, [given["id"]]), reply(2, find, to_bytes(given), commit=9)
                    ),
                    {"ok": {"records": [whole(given)]}},
                ),
            )
        for flag in flags:
            given = {"id": "5", "flags": [flag]}
            yield scenario(
                f"{kind}-flag-{flag}",
                f"The flag {flag}, both ways.",
                ask(create, [given], served(request(1, create, to_bytes(given)), empty(1, create))),
                ask(
                    find,
                    ["5"],
                    served(frame_of(2, find, ["5"]), reply(2, find, to_bytes(given), commit=9)),
                    {"ok": {"records": [whole(given)]}},
                ),
            )
        every = {"id": "5", "flags": list(flags)}
        yield scenario(
            f"{kind}-flags-together",
            "All flags together.",
            ask(create, [every], served(request(1, create, to_bytes(every)), empty(1, create))),
            ask(
                find,
                ["5"],
                served(frame_of(2, find, ["5"]), reply(2, find, to_bytes(every), commit=9)),
                {"ok": {"records": [whole(every)]}},
            ),
        )
        long = [
            {
                name: field_of(name, MOST[at] // 41 * it - at, flags)
                for at, name in enumerate(fields)
            }
            for it in range(1, 41)
        ]
        ids, body = [it["id"] for it in long], b"".join(map(to_bytes, long))
        yield scenario(
            f"{kind}s-40",
            "40 records, each field of which differs from all others, both ways.",
            ask(create, long, served(request(1, create, body), empty(1, create))),
            ask(
                find,
                ids,
                served(frame_of(2, find, ids), reply(2, find, body, commit=9)),
                {"ok": {"records": [whole(it) for it in long]}},
            ),
        )
        twice, absent = [whole({"id": "5"}), whole({"id": "5"}), whole({"id": "6"})], [
            "5",
            "9",
            "5",
            "6",
        ]
        body = b"".join(to_bytes(it) for it in ({"id": "5"}, {"id": "5"}, {"id": "6"}))
        yield scenario(
            f"lookup-{kind}s-absent-and-twice",
            "Records come in the order of the ids; an absent one is left out, one asked "
            "twice comes twice.",
            ask(
                find,
                absent,
                served(frame_of(1, find, absent), reply(1, find, body)),
                {"ok": {"records": twice}},
            ),
        )


def result_scenarios():
    for kind, (create, _, _, _, codes, _, _) in KINDS.items():
        failing = {name: code for name, code in codes.items() if code}
        count = len(failing)
        items = {"count": count, "first": SOME[create][0]}
        first = frame_of(1, create, [SOME[create][0]])[48:]
        asked = {
            "header": request(1, create, first * count)[:48].hex(),
            "first": first.hex(),
            "count": count,
        }
        body = results(*enumerate(failing.values()))
        yield scenario(
            f"results-of-{kind}s",
            "Each result code by its name.",
            ask(
                create,
                items,
                served("asked", reply(1, create, body)),
                {
                    "ok": {
                        "results": [
                            {"index": at, "result": name} for at, name in enumerate(failing)
                        ]
                    }
                },
            ),
            frames={"asked": asked},
        )
        yield scenario(
            f"results-of-{kind}s-required",
            "Events that failed are an error where that is asked for, and the session goes on.",
            ask(
                create,
                SOME[create],
                served(frame_of(1, create), reply(1, create, results((0, codes["exists"])))),
                error("EventsFailed", results=[{"index": 0, "result": "exists"}]),
                require_ok=True,
            ),
            saved(1),
            ask(
                create, SOME[create], served(frame_of(2, create), empty(2, create)), require_ok=True
            ),
        )
        for name, code in (
            ("above", max(codes.values()) + 1),
            ("18" if kind == "transfer" else "1000", 18 if kind == "transfer" else 1000),
        ):
            yield scenario(
                f"results-of-{kind}s-unknown-{name}",
                "A result code without a name is no reply.",
                ask(
                    create,
                    SOME[create],
                    [
                        read(frame_of(1, create)),
                        send(reply(1, create, results((0, code)))),
                        {"close": "c"},
                    ],
                    error("BadReply", sent=True),
                ),
                saved(0, frame_of(1, create)),
            )
    yield scenario(
        "results-of-some",
        "Events without a result were accepted.",
        ask(
            ACCOUNTS,
            [account(it) for it in range(1, 6)],
            served(
                frame_of(1, ACCOUNTS, [account(it) for it in range(1, 6)]),
                reply(1, ACCOUNTS, results((1, 21), (4, 13))),
            ),
            {
                "ok": {
                    "results": [
                        {"index": 1, "result": "exists"},
                        {"index": 4, "result": "ledger_must_not_be_zero"},
                    ]
                }
            },
        ),
        saved(1),
    )
