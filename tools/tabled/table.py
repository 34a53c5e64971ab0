"""The table of tools/ledger.json, and the spellings of its names in each language."""
import json
import os
import re

TOP = os.path.dirname(os.path.dirname(os.path.dirname(os.path.abspath(__file__))))
PATH = "tools/ledger.json"
BYTES = {"u8": 1, "u16": 2, "u32": 4, "u64": 8, "u128": 16}


def load(top=TOP):
    with open(os.path.join(top, PATH), encoding="utf-8") as it:
        return json.load(it)


def camel(name):
    """`user_data_128` is UserData128, and `NoSession` stays."""
    return "".join(part[:1].upper() + part[1:] for part in name.split("_"))


def lower_camel(name):
    whole = camel(name)
    return whole[:1].lower() + whole[1:]


def upper(name):
    """`NoSession` and `no_session` are NO_SESSION."""
    return re.sub(r"(?<=[a-z0-9])(?=[A-Z])", "_", name).upper()


def sentence(text):
    """A row's words as a sentence."""
    return text[:1].upper() + text[1:] + "."


def article(text):
    """What a status says of a request, as words about `it`."""
    return f"it {text}"


def sizes(table):
    return {row["name"]: row["bytes"] for row in table["sizes"]}


def limits(table):
    return {row["name"]: row["value"] for row in table["limits"]}


def layout(table, name):
    (row,) = [row for row in table["layouts"] if row["name"] == name]
    return row


def fields(table, name):
    """The fields of a layout that have a name."""
    return [field for field in layout(table, name)["fields"] if field["name"]]


def zeros(field):
    """How many zero bytes a field without a name is."""
    return int(field["type"].split()[0])


def size_of(field):
    return BYTES[field["type"]] if field["name"] else zeros(field)


def item_bytes(table, item):
    """The bytes of an item of a body: a record, an id or a result."""
    known = sizes(table)
    return known["record"] if item in ("account", "transfer") else known[item]


def kinds(table):
    """Each list of numbers that have names: its rows as pairs of number and name, and what each
    says."""
    return {
        "operation": [(row["number"], row["name"], row["says"]) for row in table["operations"]],
        "status": [
            (row["number"], row["name"], article(row["holds"])) for row in table["statuses"]
        ],
        "account_result": [
            (row["code"], row["name"], row["says"]) for row in table["account_results"]
        ],
        "transfer_result": [
            (row["code"], row["name"], row["says"]) for row in table["transfer_results"]
        ],
    }


def flags(table):
    return {
        kind: [(row["bit"], row["name"], row["says"]) for row in table[f"{kind}_flags"]]
        for kind in ("account", "transfer")
    }
