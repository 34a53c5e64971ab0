"""Draws requests and statements, and damages texts."""
from __future__ import annotations

from hypothesis import strategies as st

import grammar
from telovamish.reader import Pair

NAMES = {name: flags.split() for name, flags in grammar.FLAGS.items()}


def below(bits: int):
    return st.one_of(st.integers(0, 20), st.integers(0, 2**bits - 1), st.just(2**bits - 1))


def record(operation: str):
    """The bytes of an event or an id."""
    fields = grammar.KINDS[operation]
    return st.tuples(*(st.one_of(st.just(0), below(bits)) for bits in fields.values())).map(
        lambda it: b"".join(
            number.to_bytes(bits // 8, "little") for number, bits in zip(it, fields.values())
        )
    )


@st.composite
def pairs(draw) -> Pair:
    operation = draw(st.sampled_from([*grammar.KINDS]))
    client = draw(below(128).map(lambda it: it or 1))
    at = draw(below(64))
    if operation == "register":
        return Pair(at, client, 0, 0, operation, b"")
    body = b"".join(draw(st.lists(record(operation), max_size=4)))
    request = draw(below(32).map(lambda it: it or 1))
    return Pair(at, client, draw(below(64)), request, operation, body)


def spelled(bits: int):
    return st.tuples(below(bits), st.sampled_from(["{}", "0x{:x}", "0x{:X}", "000{}"])).map(
        lambda it: it[1].format(it[0])
    )


GAPS = st.sampled_from(["", "", " ", "\t", "\n", "\r\n", "# x; = y\n", "  #\n"])
SPACES = st.sampled_from([" ", " ", "\n", "\t ", " # ;\n"])
DATES = st.sampled_from(
    ["2026-11-26", "2026-02-28T10:59Z", "1999-12-31T23:59:59Z", "2262-04-11T23:47:16.854775807Z"]
    + ["2026-02-30", "1969-12-31", "2262-04-12", "2026-11-26T24:00Z", "2026-11-26T10:00"]
)


@st.composite
def values(draw, operation: str, name: str) -> str:
    if name == "flags" and draw(st.integers(0, 4)):
        names = draw(st.lists(st.sampled_from(NAMES[operation]), min_size=1, max_size=3))
        return f"{draw(GAPS)}|{draw(GAPS)}".join(names)
    if name == "amount" and not draw(st.integers(0, 4)):
        return "amount_max"
    if name == "at" and not operation and not draw(st.integers(0, 2)):
        return draw(DATES)
    return draw(spelled((grammar.KINDS[operation] if operation else grammar.BITS)[name]))


@st.composite
def fields(draw, operation: str, names: list[str]) -> str:
    shown = [f"{it}{draw(GAPS)}={draw(GAPS)}{draw(values(operation, it))}" for it in names]
    return draw(SPACES).join(shown)


@st.composite
def statements(draw, is_whole: bool = False) -> str:
    """A statement, mostly right; one that is whole leaves nothing out."""
    operation = draw(st.sampled_from([*grammar.KINDS]))
    wanted = ["client"] if operation == "register" else ["client", "request", "session"]
    if not is_whole:
        wanted = draw(
            st.lists(st.sampled_from(["client", "request", "session"]), unique=True, max_size=3)
        )
    names = draw(st.permutations([*wanted, *draw(st.sampled_from([[], ["at"]]))]))
    head = draw(fields("", names))
    events = []
    if operation != "register":
        known = [*grammar.KINDS[operation]]
        for _ in range(draw(st.sampled_from([0, 1, 1, 2, 3]))):
            picked = draw(st.lists(st.sampled_from(known), unique=True, min_size=1, max_size=6))
            events.append(draw(fields(operation, picked)))
    body = draw(SPACES) + f"{draw(GAPS)},{draw(GAPS)}".join(events) if events else ""
    return f"{head}{draw(SPACES) if head else ''}{operation}{body}{draw(GAPS)};{draw(GAPS)}"


WORDS = (
    "id amount flags at client session request ledger code linked pending register create_accounts"
    " amount_max 0 7 0x 99999 = | , ; # éa get_account_transfers"
).split()


@st.composite
def damaged(draw, texts) -> str:
    """A text with a byte or a word left out, put in or changed; as latin-1."""
    data = draw(texts).encode()
    at = draw(st.integers(0, max(0, len(data) - 1)))
    byte = bytes([draw(st.sampled_from(b"0179=,;| #\nxaz_A-:\0\xc3"))])
    words = data.split(b" ")
    place = draw(st.integers(0, len(words) - 1))
    word = draw(st.sampled_from(WORDS)).encode()
    changed = [
        data,
        data[:at] + byte + data[at:],
        data[:at] + data[at + 1 :],
        data[:at] + byte + data[at + 1 :],
        data[:at],
        b" ".join(words[:place] + words[place + 1 :]),
        b" ".join(words[:place] + [word] + words[place:]),
        b" ".join(words[:place] + [word] + words[place + 1 :]),
        b" ".join(words[:place] + [words[place]] * 2 + words[place + 1 :]),
    ]
    return draw(st.sampled_from(changed)).decode("latin-1")
