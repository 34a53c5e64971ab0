"""A session saved, cut, edited and loaded."""
import json

from .frames import (
    FIND_ACCOUNTS,
    TRANSFERS,
    U32,
    U64,
    U128,
    accept,
    ask,
    connect,
    empty,
    error,
    frame_of,
    load,
    prepare,
    request,
    retry,
    save,
    saved,
    scenario,
    served,
    transfer,
)

SALE = [transfer(11)]
ASKED, DONE, OK = frame_of(1, TRANSFERS), empty(1, TRANSFERS), {"ok": {"results": []}}
PLAIN = {"client": 7, "session": 1, "number": 0, "pending": ""}
WAITING = {**PLAIN, "pending": ASKED.hex()}


def as_answer(kept):
    return {name: it if name == "pending" else str(it) for name, it in kept.items()}


def groups():
    return {"saving": list(saving()), "loading": list(loading()), "resuming": list(resuming())}


def saving():
    yield scenario(
        "save-plain",
        "What a file has of a session with nothing in doubt.",
        save(),
        {"file": "session.json", "is": PLAIN},
    )
    yield scenario(
        "save-in-doubt",
        "And of one with a request in doubt.",
        prepare(TRANSFERS, SALE),
        save(),
        {"file": "session.json", "is": WAITING},
    )
    yield scenario(
        "save-after-reply",
        "And after its reply.",
        ask(TRANSFERS, SALE, served(ASKED, DONE)),
        save(),
        {"file": "session.json", "is": {**PLAIN, "number": 1}},
    )
    wide = {"client": str(U128), "session": str(U64), "number": str(U32), "pending": ""}
    yield scenario(
        "save-greatest",
        "The greatest numbers of each field.",
        {
            "call": {"do": "resume", "session": "s", "transport": "t", "saved": wide},
            "wants": {"ok": wide},
        },
        save(),
        {
            "file": "session.json",
            "is": {"client": U128, "session": U64, "number": U32, "pending": ""},
        },
        load({"ok": wide}),
        begin="connected",
    )
    yield scenario(
        "save-whole",
        "A file is replaced, never written over: who holds the old one has the old bytes.",
        save(),
        {"file": "session.json", "link": "old.json"},
        prepare(TRANSFERS, SALE),
        save(),
        {"file": "old.json", "is": PLAIN},
        {"file": "session.json", "is": WAITING},
    )
    yield scenario(
        "save-permissions",
        "The new file has the permissions of the old one, more of them or fewer.",
        [
            step
            for mode in ("600", "666", "400")
            for step in (
                save(),
                {"file": "session.json", "chmod": mode},
                save(),
                {"file": "session.json", "mode": mode, "is": PLAIN},
            )
        ],
    )
    yield scenario(
        "save-symbolic-link",
        "Where the path is a symbolic link the file that it names is written, at first and again.",
        {"file": "links", "folder": True},
        {"file": "links/session.json", "symlink": "other.json"},
        {"file": "links/other.json", "symlink": "../kept.json"},
        save("links/session.json"),
        {"file": "kept.json", "is": PLAIN},
        prepare(TRANSFERS, SALE),
        save("links/session.json"),
        {"file": "kept.json", "is": WAITING},
    )
    yield scenario(
        "save-alone",
        "Nothing is left next to the file.",
        save(),
        prepare(TRANSFERS, SALE),
        save(),
        {"file": "session.json", "alone": True},
    )
    writes = [{"do": "save", "session": "s", "path": "$DIR/session.json"}] * 8
    yield scenario(
        "save-at-once",
        "Savings at once: each ends well, and the file is whole.",
        {"call": {"do": "parallel", "calls": writes}, "wants": {"answers": [{"ok": None}] * 8}},
        {"file": "session.json", "is": PLAIN, "alone": True},
        needs=["parallel"],
    )
    yield scenario(
        "save-over-damaged",
        "A damaged file is replaced.",
        {"file": "session.json", "write": "damaged"},
        save(),
        {"file": "session.json", "is": PLAIN},
    )
    yield scenario(
        "save-no-folder",
        "There is no such folder.",
        save("none/session.json", wants=error("File", sent=False)),
        saved(0),
    )
    yield scenario(
        "save-on-folder",
        "A folder stands there.",
        {"file": "session.json", "folder": True},
        save(wants={"either": [error("File"), error("Invalid", field="path")]}),
        saved(0),
    )
    whole = json.dumps(WAITING)
    yield scenario(
        "save-then-cut",
        "A file that was cut anywhere is refused.",
        prepare(TRANSFERS, SALE),
        [
            step
            for length in (0, 1, 12, 30, len(whole) // 2, len(whole) - 1)
            for step in (
                save(),
                {"file": "session.json", "cut": length},
                load(error("Invalid", sent=False), session="u"),
            )
        ],
        saved(0, ASKED),
    )
    for name, pattern, text in (
        ("number", r'"number": ?0', '"number": 1'),
        ("session", r'"session": ?1', '"session": 2'),
        ("client", r'"client": ?7', '"client": 8'),
    ):
        yield scenario(
            f"save-then-edited-{name}",
            "A file whose numbers no longer fit the bytes in doubt is refused.",
            prepare(TRANSFERS, SALE),
            save(),
            {"file": "session.json", "replace": [pattern, text]},
            load(error("Invalid", field="pending", sent=False), session="u"),
            saved(0, ASKED),
        )
    large = {"count": 8190, "first": transfer(1)}
    body = frame_of(1, TRANSFERS, [transfer(1)])[48:]
    header = request(1, TRANSFERS, body * 8190)[:48]
    many = {"header": header.hex(), "first": body.hex(), "count": 8190}
    yield scenario(
        "save-8190",
        "The largest request is saved, and loaded.",
        {
            "call": {
                "do": "prepare",
                "session": "s",
                "operation": "create_transfers",
                "items": large,
            },
            "wants": {"ok": None},
        },
        save(),
        {"kill": True},
        connect(),
        load({"ok": {"client": "7", "session": "1", "number": "0", "pending": {"any": True}}}),
        retry([accept("d"), *served("many", DONE, "d")], OK),
        frames={"many": many},
    )


def file(text, **more):
    return {
        "file": "session.json",
        "write": text if isinstance(text, str) else json.dumps(text),
        **more,
    }


def loading():
    fields = list(WAITING)
    yield scenario(
        "load-reordered",
        "Fields in any order, with JSON's white space.",
        file(
            '\n{ "pending" :\t"" ,\r\n "number": 4, "session":2,\n\n'
            '"client": 340282366920938463463374607431768211455 }\n'
        ),
        load({"ok": {"client": str(U128), "session": "2", "number": "4", "pending": ""}}),
        begin="connected",
    )
    yield scenario(
        "load-in-doubt",
        "A request in doubt is sent by a retry, the same bytes.",
        file(WAITING),
        load({"ok": as_answer(WAITING)}),
        retry([accept(), *served(ASKED, DONE)], OK),
        saved(1),
        begin="connected",
    )
    yield scenario(
        "load-then-ask",
        "What was loaded in doubt stays so: nothing else is asked, and it is saved again.",
        file(WAITING),
        load({"ok": as_answer(WAITING)}),
        ask(FIND_ACCOUNTS, ["1"], (), error("InDoubt", sent=False)),
        prepare(TRANSFERS, [transfer(12)], error("InDoubt", sent=False)),
        save("again.json"),
        {"file": "again.json", "is": WAITING},
        retry([accept(), *served(ASKED, DONE)], OK),
        saved(1),
        begin="connected",
    )
    yield scenario(
        "load-next-number",
        "With nothing in doubt the next number follows.",
        file({**PLAIN, "number": 41}),
        load({"ok": as_answer({**PLAIN, "number": 41})}),
        ask(
            FIND_ACCOUNTS,
            ["1"],
            [accept(), *served(frame_of(42, FIND_ACCOUNTS, ["1"]), empty(42, FIND_ACCOUNTS))],
        ),
        begin="connected",
    )
    yield scenario(
        "load-none", "There is no file.", load(error("File", sent=False)), begin="connected"
    )
    yield scenario(
        "load-folder",
        "A folder is no session.",
        {"file": "session.json", "folder": True},
        load({"either": [error("Invalid", field="path"), error("File")]}),
        begin="connected",
    )
    yield scenario(
        "load-pipe",
        "A pipe is no session, and is not waited for.",
        {"file": "session.json", "pipe": True},
        load({"either": [error("Invalid", field="path"), error("File")]}),
        begin="connected",
    )
    whole = json.dumps(WAITING)
    for name, text in {
        "empty": "",
        "text": "a session",
        "list": "[]",
        "null": "null",
        "number": "7",
        "cut": whole[:-1],
        "cut-in-number": whole[:12],
        "two-fields": json.dumps(PLAIN)[:-1] + ', "number": 0}',
        "two-objects": whole + whole,
        "comma": whole[:-1] + ",}",
        "deep": "[" * 100_000,
        "not-ascii": '{"client": 7, "session": 1, "number": 0, "pending": "\u00e4"}',
        "comment": whole + "// x",
    }.items():
        blamed = ["pending", "saved"] if name == "not-ascii" else ["saved"]
        yield scenario(
            f"load-{name}",
            "Damaged: it is refused, and nothing of it is taken.",
            file(text),
            load({"either": [error("Invalid", field=it, sent=False) for it in blamed]}),
            begin="connected",
        )
    yield scenario(
        "load-5-MiB",
        "More than a session can have.",
        {"file": "session.json", "spaces": 5 << 20},
        load(error("Invalid", field="saved", sent=False)),
        begin="connected",
    )
    for field in fields:
        yield scenario(
            f"load-without-{field}",
            "A field is missing.",
            file({it: WAITING[it] for it in fields if it != field}),
            load(error("Invalid", field=field, sent=False)),
            begin="connected",
        )
    for field, most in (("client", U128), ("session", U64), ("number", U32)):
        yield scenario(
            f"load-wrong-{field}",
            "Values that the field may not hold.",
            [
                step
                for it in (
                    "-1",
                    str(most + 1),
                    "1.0",
                    "1e0",
                    "true",
                    "null",
                    '"7"',
                    "[7]",
                    *(["0"] if field == "client" else []),
                )
                for step in (
                    file(
                        '{"client": 7, "session": 1, "number": 0, "pending": ""}'.replace(
                            f'"{field}": {PLAIN[field]}', f'"{field}": {it}'
                        )
                    ),
                    load(error("Invalid", field=field, sent=False)),
                )
            ],
            begin="connected",
        )
    yield from wrong_pending()


def wrong_pending():
    register = request(0, 2, session=0)
    wrong = {
        "no-hex": "zz",
        "odd": ASKED.hex()[:-1],
        "cut": ASKED[:-1].hex(),
        "cut-header": ASKED[:47].hex(),
        "longer": ASKED.hex() + "00",
        "other-client": frame_of(1, TRANSFERS, client=8).hex(),
        "other-session": frame_of(1, TRANSFERS, session=2).hex(),
        "number-2": frame_of(2, TRANSFERS).hex(),
        "number-0": request(0, TRANSFERS).hex(),
        "unknown-operation": request(1, 133).hex(),
        "reserved": (ASKED[:29] + b"\1" + ASKED[30:]).hex(),
        "register-of-registered": register.hex(),
        "bad-length": request(1, TRANSFERS, bytes(127)).hex(),
    }
    for name, pending in wrong.items():
        yield scenario(
            f"load-pending-{name}",
            "Bytes in doubt that are not the next request of this session.",
            file({**PLAIN, "pending": pending}),
            load(error("Invalid", field="pending", sent=False)),
            begin="connected",
        )
    for value in ("7", "null", "[]"):
        yield scenario(
            f"load-pending-{ {'7': 'integer', 'null': 'null', '[]': 'list'}[value]}",
            "Bytes in doubt that are no text.",
            file(f'{{"client": 7, "session": 1, "number": 0, "pending": {value}}}'),
            load(error("Invalid", field="pending", sent=False)),
            begin="connected",
        )


def resuming():
    def resume(kept, wants):
        return {
            "call": {
                "do": "resume",
                "session": "s",
                "transport": "t",
                "attempts": 2,
                "pause": 0.01,
                "saved": kept,
            },
            "wants": wants,
        }

    yield scenario(
        "resume",
        "A session from what a database kept.",
        resume(as_answer(WAITING), {"ok": as_answer(WAITING)}),
        retry([accept(), *served(ASKED, DONE)], OK),
        saved(1),
        begin="connected",
    )
    for field, most in (("client", U128), ("session", U64), ("number", U32)):
        bad = [
            str(most + 1),
            "-1",
            {"float": "7.0"},
            {"text": "7"},
            {"bool": True},
            None,
            *(["0"] if field == "client" else []),
        ]
        yield scenario(
            f"resume-wrong-{field}",
            "Values that the field may not hold.",
            [
                resume(
                    {**as_answer(PLAIN), field: it},
                    {**error("Invalid", field=field, sent=False), "typed": True},
                )
                for it in bad
            ],
            begin="connected",
        )
    yield scenario(
        "resume-wrong-pending",
        "Bytes in doubt of another session, of one that is not registered, and a register where"
        " the number is not 0.",
        [
            resume(
                {**as_answer({**PLAIN, **it}), "pending": pending.hex()},
                error("Invalid", field="pending", sent=False),
            )
            for it, pending in (
                ({}, frame_of(1, TRANSFERS, session=2)),
                ({"session": 0}, frame_of(1, TRANSFERS, session=0)),
                ({"session": 0, "number": 5}, request(0, 2, session=0)),
            )
        ],
        begin="connected",
    )
