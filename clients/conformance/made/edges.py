"""Items that change, files that went away, ids over threads."""
from .frames import (
    ACCOUNTS,
    FIND_ACCOUNTS,
    FIND_TRANSFERS,
    NAMES,
    TRANSFERS,
    accept,
    account,
    connect,
    empty,
    frame_of,
    load,
    prepare,
    read,
    retry,
    save,
    saved,
    scenario,
    served,
    transfer,
)

SALE = [transfer(11)]
ASKED = frame_of(1, TRANSFERS, SALE)


def groups():
    return {"edges": [*items(), *files(), *ids()]}


def changed(operation, items):
    step = prepare(operation, items)
    return {**step, "call": {**step["call"], "changes": True}}


def items():
    for operation, given in (
        (ACCOUNTS, [account(1), account(2)]),
        (TRANSFERS, [transfer(11), transfer(12)]),
        (FIND_ACCOUNTS, ["1", "2"]),
        (FIND_TRANSFERS, ["11", "12"]),
    ):
        asked, done = frame_of(1, operation, given), empty(1, operation)
        wants = {"ok": {"results": []} if operation in (ACCOUNTS, TRANSFERS) else {"records": []}}
        yield scenario(
            f"items-change-{NAMES[operation]}",
            "Items that change after prepare: what is sent are the items as they were.",
            changed(operation, given),
            saved(0, asked),
            retry([read(asked), {"close": "c"}, accept("d"), *served(asked, done, "d")], wants),
            saved(1),
        )


def files():
    kept = {"client": 7, "session": 1, "number": 0, "pending": ""}
    file = {"file": "session.json"}
    yield scenario(
        "save-after-deletion",
        "The file was deleted: it is made again.",
        save(),
        {**file, "unlink": True},
        save(),
        {**file, "is": kept, "alone": True},
        prepare(TRANSFERS, SALE),
        {**file, "unlink": True},
        save(),
        {**file, "is": {**kept, "pending": ASKED.hex()}},
        load({"ok": {name: str(it) for name, it in kept.items()} | {"pending": ASKED.hex()}}),
    )
    yield scenario(
        "save-mode",
        "A file that was not there before is its owner's alone.",
        save(),
        {**file, "mode": "600", "is": kept},
        {**file, "unlink": True},
        save(),
        {**file, "mode": "600", "is": kept},
    )


def ids():
    one = {"do": "ids", "threads": 4, "count": 8}
    yield scenario(
        "ids-rise-over-threads",
        "Each id is above those that other threads made before.",
        connect(),
        [{"call": one, "wants": {"ids": {"count": 8, "after": True}}} for _ in range(40)],
        begin=None,
        needs=["parallel"],
    )
