"""Scenarios that the table of transitions makes (rules.toml): each row for a session, and for a
client that callers share; and what is packed into requests."""
from . import sharing
from .frames import (
    LOST,
    NAMES,
    SHORT,
    TRANSFERS,
    account,
    accept,
    ask,
    empty,
    frame_of,
    read,
    refusal,
    reply,
    retry,
    saved,
    scenario,
    send,
    told,
    transfer,
)
from .sharing import asked, begin, end, says, server
from .table import PACKS, PAUSES, RULES, STATUS_OF

SALE = [transfer(11)]
ASKED, DONE = frame_of(1, TRANSFERS), empty(1, TRANSFERS)
OK = {"ok": {"results": []}}
SURE = 0.7  # of a pause: a client's clock may be ahead
KINDS = {name: kind for kind, name in NAMES.items()}
MANY = 100  # items from which a list is written as its first one and their count


def groups():
    rows = [*(it for rule in RULES.values() for it in of_session(rule)), *lates()]
    shares = [sharing.shared(*it) for rule in RULES.values() for it in of_shared(rule)]
    return {"rules": rows, "rules-shared": shares, "packs": [packed(it) for it in PACKS]}


def named(rule):
    return rule.comes.replace(" ", "-").replace("'", "")


def comes(rule, on="c"):
    """What the server does after it read the request."""
    if rule.comes == "Reply":
        return [send(DONE, on)]
    if rule.comes in STATUS_OF:
        return [send(refusal(1, TRANSFERS, STATUS_OF[rule.comes]), on)]
    if rule.is_told:
        return [send(told(rule.comes), on), {"close": on}]
    if rule.comes == "another request's reply":
        return [send(empty(2, TRANSFERS), on), {"ended": on}]
    part = [send(DONE[:20], on)] if rule.comes == "a part of the reply" else []
    return [*part, {"close": on}]


def reads(rule, on, pause=0.0):
    """The same bytes, over a connection that is made after a pause, or over the old one."""
    least = {"not_before": pause * SURE} if pause else {}
    if rule.kept:
        return [read(ASKED, on, **least)]
    return [accept(on, **least), read(ASKED, on)]


def next_one(rule):
    return "c" if rule.kept else "d"


# A session


def of_session(rule):
    pause = PAUSES.get(rule.session, [0.0])[0]
    if rule.session == "connects":
        yield connecting(rule)
        return
    wants = OK if rule.session == "returns" else rule.fails
    once = [sale([read(ASKED), *comes(rule)], wants)]
    once += [saved(0, ASKED)] if rule.doubt else [saved(1)]
    if rule.doubt and rule.comes in STATUS_OF:  # and it stays so, whatever is said of a retry
        once += [retry([read(ASKED), *comes(rule)], wants), saved(0, ASKED)]
    elif rule.doubt:
        once += [retry([*reads(rule, "d"), send(DONE, "d")], OK), saved(1)]
    says = f"After {rule.comes} a call of one sending ends; the request is "
    says += "stored, and sent again." if rule.doubt else "done."
    yield scenario(f"after-{named(rule)}", says, once, begin="registered-once")
    if rule.goes_on:
        yield going_on(rule, pause)
    elif rule.session == "ends":
        yield scenario(
            f"after-{named(rule)}-no-more",
            f"After {rule.comes} a call ends that might send more often.",
            sale([read(ASKED), *comes(rule)], wants),
            saved(0, ASKED),
            begin="registered-thrice",
        )


def sale(actions, wants, **more):
    return ask(TRANSFERS, SALE, actions, wants, **more)


def going_on(rule, pause):
    """Two sendings that fail, and a third."""
    second, third = ("c", "c") if rule.kept else ("d", "e")
    actions = [read(ASKED), *comes(rule), *reads(rule, second, pause), *comes(rule, second)]
    actions += [*reads(rule, third, 2 * pause), send(DONE, third)]
    how = "after a pause, then after twice as long" if pause else "at once"
    return scenario(
        f"after-{named(rule)}-twice",
        f"After {rule.comes} the same bytes are sent again {how}.",
        sale(actions, OK),
        saved(1),
        begin="thrice" if pause else "patient",
    )


def connecting(rule):
    """Again within one sending."""
    pause, actions = PAUSES["connects"][0], [read(ASKED), *comes(rule)]
    for name, least in (("d", pause), ("e", 2 * pause)):
        actions += [accept(name, not_before=SURE * least), read(ASKED, name)]
        actions += comes(rule, name) if name == "d" else [send(DONE, name)]
    return scenario(
        f"after-{named(rule)}",
        f"After {rule.comes} the client connects again within one sending, after a short pause.",
        sale(actions, OK),
        saved(1),
        begin="registered-once",
    )


def lates():
    """No reply in time is as none."""
    rule = RULES["nothing"]
    if not rule.goes_on:
        return
    late = [read(ASKED), {"ended": "c"}]
    yield scenario(
        "after-no-reply-in-time-twice",
        "No reply in time: the connection is closed, and the same bytes go over another one.",
        sale([*late, *reads(rule, "d"), send(DONE, "d")], OK, at_least=SHORT * SURE),
        saved(1),
        begin="hurried",
    )
    yield scenario(
        "after-no-reply-in-time",
        "No reply in time, and one sending allowed.",
        sale(late, LOST, at_least=SHORT * SURE, at_most=10 * SHORT),
        saved(0, ASKED),
        retry([*reads(rule, "d"), send(DONE, "d")], OK),
        begin="hurried-once",
    )


# A shared client


def of_shared(rule):
    if rule.shared == "returns":
        return
    begun = [*sharing.opened(), asked(1, TRANSFERS, SALE)]
    on, ended = next_one(rule), sharing_comes(rule)
    pause = PAUSES.get(rule.shared, [0.0])[0]
    least = {"not_before": pause * SURE} if pause else {}
    over = [] if rule.kept else [accept(on, **least)]
    late = least if rule.kept else {}
    name, says_it = f"after-{named(rule)}", f"After {rule.comes} a shared client {rule.shared}"
    new = [*over, *sharing.registers(session=5, on=on)]
    if rule.shared == "reports":
        other = [transfer(12)]
        later = [*new, asked(1, TRANSFERS, other, session=5, on=on), says([], on=on)]
        yield (
            name,
            f"{says_it} it; the next call has a session of a new id.",
            sharing.ask(TRANSFERS, SALE, [*begun, *ended], rule.fails),
            sharing.ask(TRANSFERS, other, later),
        )
        return
    if rule.shared == "registers":
        actions = [*new, asked(1, TRANSFERS, SALE, session=5, on=on), says([], on=on)]
        yield name, f"{says_it} anew, and sends the same records.", sharing.ask(
            TRANSFERS, SALE, [*begun, *ended, *actions]
        )
        return
    actions = [*over, asked(1, TRANSFERS, SALE, on=on, again=True, **late), says([], on=on)]
    says_it = f"After {rule.comes} a shared client sends the same bytes again."
    yield name, says_it, sharing.ask(TRANSFERS, SALE, [*begun, *ended, *actions])


def sharing_comes(rule):
    """As `comes`, to a client whose ids are its own."""
    if rule.comes in STATUS_OF:
        return [says(status=STATUS_OF[rule.comes])]
    if rule.comes == "another request's reply":
        return [{"send": reply(2, TRANSFERS).hex(), "on": "c"}, {"drop": "c"}]
    return comes(rule)


# What is packed


def packed(row):
    lists = [made(text, place) for place, text in enumerate(row["lists"])]
    names, actions = "bcdefgh", [says([])]
    for number, request in enumerate(row["requests"], 2):
        parts = [lists[at] for at in request]
        # the others' order is the client's own, and a list after an open chain would be part of it
        is_open = any("open" in row["lists"][at] for at in request)
        more = {"ordered": True} if is_open else {}
        actions += [
            asked(number, parts[0][0], *(items for _, items in parts), **more),
            says(*([] for _ in parts)),
        ]
    steps = [begin(name, *it) for name, it in zip(names, lists)]
    ends = [end(name, {"ok": sharing.NOTHING[kind]}) for name, (kind, _) in zip(names, lists)]
    count = len(row["requests"])
    return sharing.shared(
        f"packs-{row['what'].replace(' ', '-')}",
        f"Lists that wait go out in {count} request{'s' if count > 1 else ''}: {row['what']}.",
        sharing.FIRST,
        *steps,
        server(*actions),
        end("a"),
        *ends,
    )


def made(text, place):
    """A list that a row has: its operation and its items, with ids of its own."""
    name, count, *chain = text.split()
    kind, first, count = KINDS[name], 10000 * (place + 1), int(count)
    if name.startswith("lookup"):
        ids = {"count": count, "first": str(first)}
        return kind, ids if count > MANY else [str(first + at) for at in range(count)]
    make = transfer if kind == TRANSFERS else account
    linked = count if chain == ["open"] else count - 1 if chain else 0
    flags = [{"flags": ["linked"]} if at < linked else {} for at in range(count)]
    return kind, [make(first + at, **it) for at, it in enumerate(flags)]
