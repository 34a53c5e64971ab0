"""The names and layouts of the client for Node: a module, and its types."""
from . import table as t

HEAD = "// Made by tools/tables.py --write from tools/ledger.json: edit that.\n"
NAMES = {
    "operation": "Operation",
    "status": "Status",
    "account_result": "CreateAccountResult",
    "transfer_result": "CreateTransferResult",
}


def lists(table):
    """The objects of names and numbers: name, what it is, and rows."""
    kinds = t.kinds(table)
    about = {
        "operation": "What a request asks for.",
        "status": "What the server says of a request.",
        "account_result": "What became of an event of create_accounts.",
        "transfer_result": "What became of an event of create_transfers.",
    }
    found = [(NAMES[kind], about[kind], kinds[kind]) for kind in NAMES]
    for kind, rows in t.flags(table).items():
        found.append((f"{t.camel(kind)}Flags", f"The flags of {kind}s.", rows))
    return found


def constants(table):
    size, most = t.sizes(table), t.limits(table)
    return [
        ("HEADER_SIZE", size["header"], "Bytes of the header of a request or reply."),
        ("RECORD_SIZE", size["record"], "Bytes of an account or a transfer."),
        ("ID_SIZE", size["id"], "Bytes of an id."),
        ("RESULT_SIZE", size["result"], "Bytes of the result of an event."),
        ("ITEMS_MAX", most["items_max"], "Accounts, transfers or ids in a request."),
        ("CLIENTS_MAX", most["clients_max"], "Clients that can have a session at one time."),
        ("NUMBER_MAX", most["number_max"], "The last number of a request in its session."),
        ("TIME_MAX", f"{most['time_max']}n", "No entry has a later time, in nanoseconds."),
        (
            "AMOUNT_MAX",
            f"{most['amount_max']}n",
            "As the amount of a post: all of the pending amount.",
        ),
    ]


def module(table):
    lines = [HEAD, '"use strict";', ""]
    for name, value, says in constants(table):
        lines += [f"/** {says} */", f"const {name} = {value};"]
    for name, about, rows in lists(table):
        lines += ["", f"/** {about} */", f"const {name} = Object.freeze({{"]
        lines += [f"  {word}: {number}," for number, word, _ in rows] + ["});"]
    for name, side in (("REQUEST_ITEM_SIZES", "request"), ("REPLY_ITEM_SIZES", "reply")):
        lines += [
            "",
            f"/** Bytes of an item in the body of a {side}, by operation. */",
            f"const {name} = Object.freeze({{",
        ]
        lines += [
            f"  {row['number']}: {t.item_bytes(table, row[side])},"
            for row in table["operations"]
            if row[side]
        ]
        lines += ["});"]
    lines += [
        "",
        "/** Where each field is, and how many bytes it has. */",
        "const LAYOUTS = Object.freeze({",
    ]
    for row in table["layouts"]:
        lines.append(f"  {row['name']}: Object.freeze([")
        lines += [
            f'    Object.freeze({{ name: "{it["name"]}", at: {it["at"]},'
            f" bytes: {t.size_of(it)} }}),"
            for it in row["fields"]
            if it["name"]
        ]
        lines.append("  ]),")
    lines += ["});", "", "module.exports = {"]
    names = [it[0] for it in constants(table)] + [it[0] for it in lists(table)]
    lines += [
        f"  {name}," for name in [*names, "REQUEST_ITEM_SIZES", "REPLY_ITEM_SIZES", "LAYOUTS"]
    ]
    return "\n".join([*lines, "};", ""])


def types(table):
    lines = [HEAD]
    for name, value, says in constants(table):
        kind = "bigint" if str(value).endswith("n") else "number"
        lines += [f"/** {says} */", f"export declare const {name}: {kind};"]
    for name, about, rows in lists(table):
        lines += ["", f"/** {about} */", f"export declare const {name}: {{"]
        for number, word, says in rows:
            lines += [f"  /** {t.sentence(says)} */", f"  readonly {word}: {number};"]
        lines += ["};"]
        if not name.endswith("Flags"):
            words = " | ".join(f'"{word}"' for _, word, _ in rows)
            lines += [f"/** The names of {name}. */", f"export type {name}Name = {words};"]
    for name in ("account", "transfer"):
        lines += [
            "",
            f"/** {'An account' if name == 'account' else 'A transfer'}: fields that"
            f" are left out are 0. */",
            f"export interface {t.camel(name)} {{",
        ]
        for field in t.fields(table, name):
            kind = "bigint" if field["type"] in ("u64", "u128") else "number"
            optional = "" if field["name"] == "id" else "?"
            unit = f", in {field['unit']}" if "unit" in field else ""
            lines += [f"  /** {field['type']}{unit}. */", f"  {field['name']}{optional}: {kind};"]
        lines += ["}"]
    return "\n".join([*lines, ""])
