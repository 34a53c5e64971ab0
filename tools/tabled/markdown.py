"""The tables of pages. A page has a mark where a table is:

    <!-- generated: operations, by tools/tables.py -->
    <!-- end of operations -->
"""
from . import table as t


def rows(header, lines):
    found = [f"| {' | '.join(header)} |", "|" + "---|" * len(header)]
    found += [f"| {' | '.join('' if it is None else str(it) for it in line)} |" for line in lines]
    return "\n".join(found) + "\n"


def pages(table):
    """Each table by its name."""
    found = {
        "operations": operations(table),
        "statuses": rows(
            ("Status", "Name", "The request"),
            [(it["number"], it["name"], it["holds"]) for it in table["statuses"]],
        ),
        "classes": rows(("Case", "Class"), [(it["holds"], it["name"]) for it in table["classes"]]),
        "frame-tests": frame_tests(table),
        "fault-numbers": numbered(table["frame_faults"], "Fault"),
        "dump-faults": rows(
            ("Fault", "It says"), [(it["name"], it["says"]) for it in table["dump_faults"]]
        ),
        "run-faults": numbered(table["run_faults"], "Fault"),
        "embed-statuses": numbered(table["embed_statuses"], "Status"),
        "told": rows(
            ("Name", "Why", "Executed"),
            [(it["name"], it["says"], it["executed"]) for it in table["told"]],
        ),
        "limits": rows(
            ("What", "Limit"), [(it["says"], shown(it["value"])) for it in table["limits"]]
        ),
        "sizes": rows(("What", "Bytes"), [(it["says"], it["bytes"]) for it in table["sizes"]]),
        "frames": side_by_side(
            table, {"Request header": "request_header", "Reply header": "reply_header"}
        ),
        "records": side_by_side(table, {"Account": "account", "Transfer": "transfer"}),
        "failed-for-good": ", ".join(table["failed_for_good"]) + "\n",
    }
    for kind in ("account", "transfer"):
        found[f"{kind}-flags"] = rows(
            ("Bit", "Flag", "It says"),
            [(it["bit"], it["name"], it["says"]) for it in table[f"{kind}_flags"]],
        )
        found[f"{kind}-results"] = rows(
            ("Code", "Name", "It says"),
            [(it["code"], it["name"], it["says"]) for it in table[f"{kind}_results"]],
        )
    found["account-tests"] = tests(table, "account", ("chain", "own", "exists", "new"))
    found["transfer-tests"] = tests(table, "transfer", ("chain", "own", "exists", "failed"))
    found["resolving-tests"] = tests(table, "transfer", ("resolving",))
    found["two-party-tests"] = tests(table, "transfer", ("two_party",))
    return found


def shown(number):
    bits = number.bit_length()
    return f"2^{bits} - 1" if bits > 15 and number == 2**bits - 1 else str(number)


def numbered(listed, what):
    return rows(
        ("Number", what, "It says"), [(it["number"], it["name"], it["says"]) for it in listed]
    )


def items(table, item):
    if item is None:
        return "empty"
    if item == "result":
        inside = ", ".join(f"{it['name']} {it['type']}" for it in t.fields(table, "result"))
        return f"results, {t.item_bytes(table, item)} bytes each: {inside}"
    return f"{item}s, {t.item_bytes(table, item)} bytes each"


def operations(table):
    lines = [
        (f"{it['number']} {it['name']}", items(table, it["request"]), items(table, it["reply"]))
        for it in table["operations"]
    ]
    return rows(("Operation", "Body of a request", "Body of a reply with status 0"), lines)


def frame_tests(table):
    lines = [(it["name"], it["request"], it["reply"]) for it in table["frame_tests"]]
    return rows(("Fault", "A request has it if", "A reply has it if"), lines)


def side_by_side(table, layouts):
    """Layouts by their heads: what is at each place at which one of them has a field."""
    sides = [{it["at"]: it for it in t.layout(table, it)["fields"]} for it in layouts.values()]
    lines = [(at, *(cell(side.get(at)) for side in sides)) for at in sorted(set().union(*sides))]
    return rows(("At", *layouts), lines)


def cell(field):
    if field is None:
        return ""
    unit = ", seconds" if field.get("unit") == "seconds" else ""
    return f"{field['name']} {field['type']}{unit}" if field["name"] else field["type"]


def tests(table, kind, groups):
    codes = {it["name"]: it["code"] for it in table[f"{kind}_results"]}
    lines = [
        (codes[it["name"]], it["name"], it["holds"])
        for it in table[f"{kind}_tests"]
        if it["group"] in groups
    ]
    return rows(("Code", "Name", "Holds if"), lines)
