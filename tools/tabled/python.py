"""The parts of the client in Python, of the embedded server's module, and of the command."""
import json

from . import table as t

FORMATS = {"u8": "B", "u16": "H", "u32": "I", "u64": "Q"}
NAMES = {"operation": "Operation", "status": "Status"}
NAMES |= {"account_result": "CreateAccountResult", "transfer_result": "CreateTransferResult"}
ITEMS = {"account": "accounts", "transfer": "transfers", "id": "ids"}


def names(table):
    """The classes of names. All but a status have them in capitals too, as TigerBeetle's client in
    Python."""
    kinds = t.kinds(table)
    found = {}
    for kind, name in NAMES.items():
        rows = [(word, at) for at, word, _ in kinds[kind]]
        lines = [f"class {name}(enum.IntEnum):", *members(rows)]
        found[kind] = "\n".join(lines + ([] if kind == "status" else capitals(rows))) + "\n"
    for kind, flags in t.flags(table).items():
        rows = [(word, bit) for bit, word, _ in flags]
        lines = ["@_kept_apart", f"class {t.camel(kind)}Flags(enum.IntFlag):", "    NONE = 0"]
        found[f"{kind}_flags"] = "\n".join(lines + members(rows) + capitals(rows)) + "\n"
    return found


def members(rows):
    return [f"    {word} = {number}" for word, number in rows]


def capitals(rows):
    return members((word.upper(), number) for word, number in rows)


def layout(table):
    """The whole of tb_client/layout.py."""
    size, most = t.sizes(table), t.limits(table)
    lines = [
        '"""Sizes, limits and layouts of frames.',
        "",
        "tools/tables.py --write makes this file from tools/ledger.json.",
        '"""',
        "from __future__ import annotations",
        "",
        "import struct",
        "from typing import Dict, Tuple",
        "",
        "from .names import Operation",
        "",
        f"HEADER = {size['header']}  # bytes of the header of a request or reply",
        f"RECORD = {size['record']}  # bytes of an account or a transfer",
        f"ID = {size['id']}",
        f"RESULT = {size['result']}",
        f"FLAGS_AT = {place(table, 'flags')}  # of a record",
        f"ITEMS_MAX = {most['items_max']}  # accounts, transfers or ids in a request",
        f"CLIENTS_MAX = {most['clients_max']}  # clients that can have a session at one time",
        f"NUMBER_MAX = {most['number_max']}  # the last number of a request in its session",
        f"TIME_MAX = {most['time_max']}  # nanoseconds",
        f"AMOUNT_MAX = {most['amount_max']}",
        f"SECOND = {most['nanoseconds_per_second']}  # nanoseconds",
        "",
        "# what follows the client's 16 bytes",
        f'REQUEST = struct.Struct("{packed(table, "request_header", 16)}")',
        f'REPLY = struct.Struct("{packed(table, "reply_header", 16)}")',
        f'RESULT_FORMAT = struct.Struct("{packed(table, "result", 0)}")',
        "# what follows the six numbers of 16 bytes that each record begins with",
        f'NARROW = struct.Struct("{packed(table, "transfer", 96)}")',
        "",
        *places(table, "account"),
        *places(table, "transfer"),
        "",
        *item_tables(table),
        "",
    ]
    return "\n".join(lines)


def places(table, name):
    """The offset of each field of a record, and how many bytes it has."""
    lines = [f"{name.upper()}_PLACES: Dict[str, Tuple[int, int]] = {{"]
    for it in t.fields(table, name):
        lines.append(f'    "{it["name"]}": ({it["at"]}, {t.size_of(it)}),')
    return [*lines, "}"]


def place(table, name):
    """The offset of a field in accounts and transfers."""
    (found,) = {
        field["at"]
        for record in ("account", "transfer")
        for field in t.layout(table, record)["fields"]
        if field["name"] == name
    }
    return found


def packed(table, name, start):
    """The format of a layout's fields from a place on."""
    found = "<"
    for field in t.layout(table, name)["fields"]:
        if field["at"] >= start:
            found += FORMATS[field["type"]] if field["name"] else f"{t.zeros(field)}x"
    return found


def item_tables(table):
    lines = []
    for name, side in (("ITEM_SIZES", "request"), ("REPLY_SIZES", "reply")):
        lines += [f"{name}: Dict[int, int] = {{"]
        for row in table["operations"]:
            if row[side]:
                lines.append(f"    Operation.{row['name']}: {t.item_bytes(table, row[side])},")
        lines += ["}"]
    lines += ["ITEM_NAMES: Dict[int, str] = {"]
    lines += [
        f'    Operation.{row["name"]}: "{ITEMS[row["request"]]}",'
        for row in table["operations"]
        if row["request"]
    ]
    return [*lines, "}"]


def records(table):
    return {name: record(table, name) for name in ("account", "transfer")}


def record(table, name):
    """The class of a record: its fields with their ranges, and its bytes. Its fields are in the
    order of TigerBeetle's class, which has no reserved field."""
    kind, fields = t.camel(name), t.fields(table, name)
    flags = f"{kind}Flags"
    ranges = ", ".join(
        f'"{it["name"]}": {it["type"].upper()}' for it in fields if it["name"] != "flags"
    )
    lines = [
        *wrapped(f"_{name.upper()} = {{{ranges}}}"),
        "",
        "",
        "@dataclasses.dataclass(init=False)",
        f"class {kind}:",
    ]
    ordered = sorted(fields, key=lambda it: it["name"] == "reserved")
    for field in ordered:
        unit = f"  # {field['unit']}" if "unit" in field else ""
        lines.append(f"    {typed(field, flags)}{unit}")
    wide = ", ".join(f"self.{it['name']}" for it in fields if it["type"] == "u128")
    narrow = ", ".join(f"self.{it['name']}" for it in fields if it["type"] != "u128")
    settle = f"_settle(self, _{name.upper()}, {flags})"
    lines += [
        "",
        *made(ordered, flags),
        f"            {settle}",
        "",
        "    def to_bytes(self) -> bytes:",
        f"        {settle}  # again, since it may have been changed",
        *wrapped(f"        wide = ({wide})"),
        *wrapped(f"        narrow = ({narrow})"),
        '        return b"".join(map(u128, wide)) + NARROW.pack(*narrow)',
        "",
        "    @classmethod",
        f"    def from_bytes(cls, data: bytes) -> {kind}:",
        f"        return _read(cls, data, {flags}, {name.upper()}_PLACES)",
        "",
    ]
    return "\n".join(lines)


def typed(field, flags):
    """A field with its type and its default."""
    is_flags = field["name"] == "flags"
    return f"{field['name']}: {flags} = {flags}.NONE" if is_flags else f"{field['name']}: int = 0"


def made(fields, flags):
    """The beginning of a record's `__init__`, up to what it does if not all fields are plain
    integers in range: one out of range leaves a bit above those of its width, also if negative."""
    numbers = [it["name"] for it in fields if it["name"] != "flags"]
    lines = ["    def __init__(", "        self,"]
    lines += [f"        {typed(it, flags)}," for it in fields]
    lines += ["    ) -> None:"]
    lines += [f"        self.{it['name']} = {it['name']}" for it in fields]
    lines += ["        if not (  # a number out of range leaves a bit above those of its width"]
    lines += wrapped(f"            {{{', '.join(f'type({it})' for it in numbers)}}}")
    lines += [f"            == INTEGER and type(flags) is {flags}"]
    for bits, most in ((16, 1), (32, 3), (64, 2), (128, 3)):
        names = [it["name"] for it in fields if it["type"] == f"u{bits}"]
        for at in range(0, len(names), most):
            joined = " | ".join(names[at : at + most])
            lines += [f"            and not {f'({joined})' if most > 1 else joined} >> {bits}"]
    return [*lines, "        ):"]


def wrapped(line, width=100):
    """A line with a bracket, in several lines if it is too long."""
    if len(line) <= width:
        return [line]
    at = min(place for place in (line.find("("), line.find("{")) if place >= 0)
    indent = line[: len(line) - len(line.lstrip())]
    lines, current = [line[: at + 1]], f"{indent}    "
    for word in line[at + 1 : -1].split(", "):
        if len(current) + len(word) + 2 > width:
            lines.append(current.rstrip())
            current = f"{indent}    "
        current += f"{word}, "
    return [*lines, current.rstrip(), indent + line[-1]]


def embedded(table):
    """The part of clients/embed/python/tb_embed.py."""
    refusals = {row["number"]: row["name"] for row in table["embed_statuses"] if row["number"]}
    by_name = {name: number for number, name in refusals.items()}
    size, most = t.sizes(table), t.limits(table)
    lines = [f"REPLY_MAX = {size['header']} + {most['items_max']} * {size['record']}  # bytes"]
    lines += [f"RECORD = {size['record']}", f"CLIENTS_MAX = {most['clients_max']}"]
    lines += (
        ["REFUSALS = {"] + [f'    {number}: "{name}",' for number, name in refusals.items()] + ["}"]
    )
    return {
        "statuses": "\n".join(
            [*lines, f"ABSENT, TOO_SMALL = {by_name['Absent']}, {by_name['TooSmall']}", ""]
        )
    }


def words(table):
    """The whole of the command's words.json: names with their numbers, and what each is."""
    kinds, pairs = ("account", "transfer"), t.kinds(table)
    found = {"limits": t.limits(table)}
    found["operations"] = {name: number for number, name, _ in pairs["operation"]}
    for kind in kinds:
        fields = t.fields(table, kind)
        found[f"{kind}_fields"] = {it["name"]: [it["at"], t.size_of(it)] for it in fields}
        found[f"{kind}_flags"] = {name: bit for bit, name, _ in t.flags(table)[kind]}
        rows = table[f"{kind}_results"]
        found[f"{kind}_results"] = {it["name"]: it["code"] for it in rows if it["code"]}
    found["statuses"] = [t.upper(it["name"]).lower() for it in table["statuses"]]
    found["told"] = {it["name"]: it["says"] for it in table["told"]}
    found["says"] = says(table)
    return json.dumps(found, indent=1) + "\n"


def says(table):
    """What each name is, and what the table says of it."""
    found = {}

    def add(name, kind, text):
        found.setdefault(name, []).append(f"{kind}{text and ': '}{text}")

    for row in table["operations"]:
        add(row["name"], "operation", row["says"])
    for kind in ("account", "transfer"):
        for field in t.fields(table, kind):
            unit = f"{field['unit']}, " if "unit" in field else ""
            add(field["name"], f"field of create_{kind}s", f"{unit}{8 * t.size_of(field)} bits")
        for row in table[f"{kind}_flags"]:
            add(row["name"], f"flag of create_{kind}s", row["says"])
        for row in table[f"{kind}_results"]:
            add(row["name"], f"result {row['code']} of create_{kind}s", row["says"])
    for row in table["statuses"]:
        add(t.upper(row["name"]).lower(), "status", f"the request {row['holds']}")
    for name in ("run_faults", "dump_faults", "frame_faults"):
        for row in table[name]:
            add(row["name"], "fault", row["says"])
    for row in table["told"]:
        add(row["name"], "told by a listener", row["says"])
    return found
