"""Values that no field may hold: each is refused, and nothing is sent."""
from .frames import (
    ACCOUNT_FIELDS,
    ACCOUNTS,
    FIND_ACCOUNTS,
    FIND_TRANSFERS,
    MOST,
    TRANSFER_FIELDS,
    TRANSFERS,
    U128,
    accept,
    account,
    ask,
    connect,
    empty,
    error,
    frame_of,
    registered,
    registers,
    saved,
    scenario,
    served,
    transfer,
)

BAD = {
    "float": {"float": "10.99"},
    "whole-float": {"float": "10.0"},
    "text": {"text": "10"},
    "null": None,
    "bool": {"bool": True},
    "negative": "-1",
}


def groups():
    return {"values": list(fields()) + list(lists()) + list(options())}


def typed(field):
    return {**error("Invalid", field=field, sent=False), "typed": True}


def fields():
    kinds = (
        ("account", ACCOUNTS, ACCOUNT_FIELDS, account(1)),
        ("transfer", TRANSFERS, TRANSFER_FIELDS, transfer(11)),
    )
    for kind, operation, names, right in kinds:
        asked = frame_of(1, operation, [right])
        for at, name in enumerate(names):
            bad = [*BAD.values(), str(MOST[at] + 1), str(2**200)]
            yield scenario(
                f"{kind}-{name}-wrong",
                "10.99, 10.0, text, null, a truth value, -1 and what is too large: refused by "
                "the field's "
                "name, and not sent.",
                [ask(operation, [{**right, name: it}], (), typed(name)) for it in bad],
                ask(operation, [right], served(asked, empty(1, operation))),
                saved(1),
            )


def lists():
    for name, operation, find in (
        ("accounts", ACCOUNTS, FIND_ACCOUNTS),
        ("transfers", TRANSFERS, FIND_TRANSFERS),
    ):
        right = account(1) if operation == ACCOUNTS else transfer(11)
        other = {
            **(transfer(11) if operation == ACCOUNTS else account(1)),
            "kind": "transfer" if operation == ACCOUNTS else "account",
        }
        last = ask(operation, [right], served(frame_of(1, operation, [right]), empty(1, operation)))
        yield scenario(
            f"{name}-no-list",
            "What is no list of records.",
            [
                ask(operation, it, (), typed(name))
                for it in (None, {"text": "records"}, {"float": "1.0"}, "7")
            ],
            last,
        )
        yield scenario(
            f"{name}-wrong-items",
            "Items that are no records of this kind.",
            [
                ask(operation, [right, it], (), typed(name))
                for it in (other, None, "7", {"text": "a record"})
            ],
            last,
        )
        yield scenario(
            f"lookup-{name}-wrong-ids",
            "Ids that are none.",
            [
                ask(find, ["1", it], (), typed("ids"))
                for it in (
                    "-1",
                    str(U128 + 1),
                    {"float": "1.0"},
                    {"text": "1"},
                    None,
                    {"bool": True},
                )
            ],
            ask(find, ["1"], served(frame_of(1, find, ["1"]), empty(1, find))),
        )
    yield scenario(
        "lookup-id-bounds",
        "Ids 0 and 2^128 - 1 may be looked up.",
        ask(
            FIND_ACCOUNTS,
            ["0", str(U128)],
            served(frame_of(1, FIND_ACCOUNTS, ["0", str(U128)]), empty(1, FIND_ACCOUNTS)),
        ),
    )
    yield scenario(
        "operation-wrong",
        "No such operation.",
        [
            {
                "call": {"do": "prepare", "session": "s", "operation": it, "items": []},
                "wants": typed("operation"),
            }
            for it in ("133", "0", "-1", {"text": "create"}, None)
        ],
        saved(0),
    )


def options():
    def register(wants, **given):
        return {
            "call": {"do": "register", "session": "s", "transport": "t", **given},
            "wants": wants,
        }

    yield scenario(
        "client-wrong",
        "Ids that no client may have.",
        [
            register(typed("client"), client=it)
            for it in ("0", "-1", str(U128 + 1), {"float": "7.0"}, {"text": "7"}, {"bool": True})
        ],
        begin="connected",
    )
    yield scenario(
        "attempts-wrong",
        "Numbers of sendings that are none.",
        [
            register(typed("attempts"), client="7", attempts=it)
            for it in (0, -1, {"text": "3"}, {"float": "1.5"})
        ],
        begin="connected",
    )
    yield scenario(
        "pause-wrong",
        "Pauses that are none.",
        [
            register(typed("pause"), client="7", pause=it)
            for it in (-1, {"text": "1"}, {"float": "nan"})
        ],
        begin="connected",
    )
    yield scenario(
        "timeout-wrong",
        "Timeouts that are none.",
        [
            {"call": {**connect()["call"], "timeout": it}, "wants": typed("timeout")}
            for it in (0, -1, {"text": "1"}, {"float": "nan"})
        ],
        begin="connected",
    )
    yield scenario(
        "addresses-wrong",
        "No address at all.",
        {"call": {"do": "connect", "transport": "u", "addresses": []}, "wants": typed("address")},
        begin="connected",
        needs=["addresses"],
    )
    yield scenario(
        "right-after-wrong",
        "After all that the session works.",
        register(typed("client"), client="0"),
        {
            "call": {"do": "register", "session": "s", "transport": "t", "client": "7"},
            "server": [accept(), *served(registers(), registered())],
            "wants": {"ok": {"client": "7", "session": "1"}},
        },
        begin="connected",
    )
