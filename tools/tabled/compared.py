"""The comparisons of the table with the Rattle sources, and with what clients have by hand."""
import re

from . import rattle as r
from . import table as t


def comparisons(table, sources):
    """Each comparison: what is compared, what the table has, and a call that gives what the other
    side has."""
    yield from consistent(table)
    yield from named(table, sources)
    yield from orders(table, sources)
    yield from layouts(table, sources)
    yield from limits(table, sources)
    yield from clients(table, sources)


# The table in itself


def consistent(table):
    """What the table has to keep by itself, whatever the sources say."""
    for kind in ("account", "transfer"):
        codes = [row["name"] for row in table[f"{kind}_results"] if row["code"]]
        tests = [row["name"] for row in table[f"{kind}_tests"]]
        yield f"{kind}_tests have each result", sorted(codes), lambda it=tests: sorted(set(it))
        bits = {row["name"]: row["bit"] for row in table[f"{kind}_flags"]}
        wanted = [1 << place for place in range(len(bits))]
        yield f"{kind}_flags are single bits", wanted, lambda it=bits: sorted(it.values())
        masks = {row["name"]: row["mask"] for row in table["reserved_flags"]}
        free = 0xFFFF ^ sum(bits.values()) | bits.get("imported", 0)
        yield f"reserved_flags of {kind}s are the others", free, lambda it=masks[kind]: it
    for row in table["layouts"]:
        ends = [0] + [field["at"] + t.size_of(field) for field in row["fields"]]
        places = [field["at"] for field in row["fields"]] + [row["bytes"]]
        yield f"layouts: {row['name']} has no gap", ends, lambda it=places: it
    faults = {row["name"] for row in table["frame_faults"]} - {"Device", "NoMemory"}
    tested = {row["name"] for row in table["frame_tests"]}
    yield "frame_tests have each fault of bytes", sorted(faults), lambda: sorted(tested)


def by_variant(rows, key):
    return {t.camel(row["name"]): row[key] for row in rows}


def texts_of(rows):
    return {t.camel(row["name"]): row["name"] for row in rows}


# Numbers and names. Each list: its rows, the key of the number, the crate, the enum, how the code
# has the number, and the words of the
# definitions for number and text.
LISTS = [
    ("operations", "number", "tb_records", "Operation", "enum", "operation_code", "operation_name"),
    ("statuses", "number", "tb_records", "Status", "arms", "status_code", "status_name"),
    (
        "account_flags",
        "bit",
        "tb_records",
        "AccountFlag",
        "enum",
        "account_flag_bit",
        "account_flag_name",
    ),
    (
        "transfer_flags",
        "bit",
        "tb_records",
        "TransferFlag",
        "enum",
        "transfer_flag_bit",
        "transfer_flag_name",
    ),
    (
        "account_results",
        "code",
        "tb_records",
        "CreateAccountResult",
        "enum",
        "account_result_code",
        "account_result_name",
    ),
    (
        "transfer_results",
        "code",
        "tb_records",
        "CreateTransferResult",
        "enum",
        "transfer_result_code",
        "transfer_result_name",
    ),
    ("frame_faults", "number", "tb_records", "FrameFault", "arms", "fault_number", "fault_name"),
    (
        "dump_faults",
        "number",
        "tb_records",
        "DumpFault",
        "arms",
        "dump_fault_number",
        "dump_fault_name",
    ),
    (
        "run_faults",
        "number",
        "tb_machine",
        "RunFault",
        "arms",
        "run_fault_number",
        "run_fault_name",
    ),
]


def named(table, sources):
    for name, key, crate, kind, how, number, text in LISTS:
        rows = table[name]
        yield from numbers(name, rows, key, crate, kind, how, number, sources)
        texts = {variant: it for variant, it in texts_of(rows).items() if variant != "Frame"}
        yield (
            f"{name}: {kind}::name",
            texts,
            lambda c=crate, k=kind: r.arms(sources.code(c), k, "text"),
        )
        yield (f"{name}: {text}", texts, lambda c=crate, w=text: r.texts(sources.specs(c), w))
        if how == "enum" or kind == "Status":
            yield (
                f"{name}: {kind}::ALL",
                list(by_variant(rows, key)),
                lambda c=crate, k=kind: r.all_of(sources.code(c), k),
            )
    for kind, path in (("Operation", "operations"), ("Status", "statuses")):
        yield (
            f"{path}: {kind}::from_code",
            by_variant(table[path], "number"),
            lambda k=kind: r.back(sources.code("tb_records"), k),
        )
    yield (
        "embed_statuses: Outcome::status",
        by_variant(table["embed_statuses"], "number"),
        lambda: r.arms(sources.code("tb_embed"), "Outcome", "number"),
    )
    yield (
        "embed_statuses: outcome_status",
        by_variant(table["embed_statuses"], "number"),
        lambda: {
            name: number
            for name, number in r.numbers(sources.specs("tb_embed"), "outcome_status").items()
            if name != "Unread"
        },
    )


def numbers(name, rows, key, crate, kind, how, number, sources):
    wanted = by_variant(rows, key)
    if how == "enum":
        yield (f"{name}: enum {kind}", wanted, lambda: r.enum(sources.code(crate), kind))
    else:
        yield (
            f"{name}: the numbers of {kind}",
            wanted,
            lambda: r.arms(sources.code(crate), kind, "number"),
        )
    yield (f"{name}: {number}", wanted, lambda: r.numbers(sources.specs(crate), number))


# Orders


def orders(table, sources):
    ledger = "tb_ledger"
    for kind, groups in GROUPS.items():
        for group, definitions in groups.items():
            wanted = [
                t.camel(row["name"]) for row in table[f"{kind}_tests"] if row["group"] == group
            ]
            yield (
                f"{kind}_tests: {group}",
                wanted,
                lambda d=definitions: joined(sources.specs(ledger), d),
            )
    yield (
        "failed_for_good: final_results",
        [t.camel(name) for name in table["failed_for_good"]],
        lambda: r.listed(sources.specs(ledger), "final_results"),
    )
    yield (
        "classes: enum Class",
        sorted(row["name"] for row in table["classes"]),
        lambda: sorted(r.variants(sources.code("tb_sessions"), "Class")),
    )
    yield (
        "classes: class_of",
        [row["name"] for row in table["classes"]],
        lambda: classes(sources.specs("tb_sessions")),
    )
    tests = [row["name"] for row in table["frame_tests"]]
    requests = [row["name"] for row in table["frame_tests"] if row["request"]]
    specs = "tb_records"
    yield ("frame_tests: of a request", requests, lambda: request_tests(sources.specs(specs)))
    yield ("frame_tests: of a reply", tests, lambda: reply_tests(sources.specs(specs)))


# Which definitions have the tests of a group, in their order; each by the first of its names that
# is there. A bare result is a test
# that is between two of them.
GROUPS = {
    "account": {
        "own": [("account_own_tests",)],
        "exists": [("account_exists_tests",)],
        "new": [("account_new_tests",)],
    },
    "transfer": {
        "own": [("transfer_own_tests",)],
        "exists": [("transfer_exists_tests",)],
        "failed": [("failed_tests",)],
        "resolving": [
            ("resolve_own_tests", "resolving_own_tests"),
            "PendingTransferNotFound",
            ("named_tests",),
            ("closed_tests",),
        ],
        "two_party": [
            ("two_party_own_tests",),
            "DebitAccountNotFound",
            "CreditAccountNotFound",
            ("pair_tests",),
            ("amount_tests",),
        ],
    },
}


def joined(text, definitions):
    found = []
    for it in definitions:
        found += [it] if isinstance(it, str) else tests(text, it)
    return found


def tests(text, names):
    """The tests of a definition that may have a line for each form of its argument: all of its
    lines."""
    for name in names:
        lines = re.findall(rf"^{name}\b.*?(?=^\S|\Z)", text, re.M | re.S)
        found = re.findall(r"(?:account|transfer)_test (?:\w+\.)?(\w+)", "\n".join(lines))
        if found:
            return list(dict.fromkeys(found))
    raise r.Missing(f"no tests of {' or '.join(names)} are found")


def classes(text):
    """The classes of a request in the order of its tests: without a row, the tests of a row,
    otherwise."""
    none = r.first(r"if is_register r\.body then New else (\w+)\)$", text, "class_of")[1]
    tests = r.body(text, "class_beside")
    lines = re.findall(r"^    else if .* then (\w+)$", tests, re.M)
    other = r.first(r"^    else (\w+)$", tests, "class_beside")[1]
    return [none, *lines, other]


def faults(text, *names):
    for name in names:
        lines = re.findall(rf"^{name}\b[^:\n]*=.*?(?=^\S|\Z)", text, re.M | re.S)
        if lines:
            return re.findall(r", ([A-Z]\w+)\)\s*∷", lines[0])
    raise r.Missing(f"no {' or '.join(names)} is found")


def request_tests(text):
    return ["Short", *faults(text, "header_tests"), *faults(text, "length_tests"), "Short"]


def reply_tests(text):
    return ["Short", *faults(text, "reply_header_tests"), "Short"]


# Layouts

# What the listener serves connections with.
LISTENER = [
    f"server/internal/{it}.go"
    for it in (
        "access/access",
        "backend/queue",
        "conns/accept",
        "conns/conn",
        "frames/frames",
        "serve/serve",
        "shares/shares",
    )
]
# A name that a connection is sent, as these have it.
SENT = re.compile(r'(?:\breturn (?:0, )?|stop\(|(?:why|programEnded|starting) *:?= )"([A-Z]\w+)"')
RECORDS = {"account": "Account", "transfer": "Transfer", "result": "EventResult"}
SPELLINGS = {
    "account": "account_bytes",
    "transfer": "transfer_bytes",
    "result": "result_bytes",
    "request_header": "header_bytes",
    "reply_header": "reply_header_bytes",
}


def layouts(table, sources):
    for name, word in SPELLINGS.items():
        wanted = [(it["at"], it["name"], t.size_of(it)) for it in t.layout(table, name)["fields"]]
        yield (f"layouts: {word}", wanted, lambda w=word: r.spelled(sources.specs("tb_records"), w))
    for name, kind in RECORDS.items():
        wanted = [(it["at"], it["name"], t.size_of(it)) for it in t.fields(table, name)]
        yield (
            f"layouts: {kind} is written",
            wanted,
            lambda k=kind: r.written(sources.read("crates/tb_records/src/layout.rt"), k)[0],
        )
        yield (
            f"layouts: {kind} is read",
            wanted,
            lambda k=kind: r.written(sources.read("crates/tb_records/src/layout.rt"), k)[1],
        )


# Limits


def limits(table, sources):
    size, most = t.sizes(table), t.limits(table)
    code, specs, proofs = sources.code, sources.specs, sources.proofs
    rows = [
        (
            "items_max",
            most,
            lambda: r.constant(code("tb_records"), r"pub const ITEMS_MAX: usize = (\d+);"),
        ),
        (
            "clients_max",
            most,
            lambda: r.constant(
                code("tb_records"),
                r"pub const CLIENTS_MAX: u32 = (\d+);",
            ),
        ),
        (
            "clients_max",
            most,
            lambda: r.constant(
                code("tb_edge_commands"), r'concat!\(\$before, "1 to (\d+)", \$behind\)'
            ),
        ),
        (
            "time_max",
            most,
            lambda: r.constant(code("tb_records"), r"pub const LAST_MOMENT: u64 = ([\d_]+);"),
        ),
        (
            "amount_max",
            most,
            lambda: r.largest(code("tb_records"), r"pub const AMOUNT_MAX: u(\d+) = u\1::MAX;"),
        ),
        (
            "nanoseconds_per_second",
            most,
            lambda: r.constant(
                code("tb_records"), r"pub const NANOSECONDS_PER_SECOND: u64 = ([\d_]+);"
            ),
        ),
        (
            "record",
            size,
            lambda: r.constant(proofs("tb_records"), r"length \(account_bytes a\) ≡ (\d+)"),
        ),
        (
            "result",
            size,
            lambda: r.constant(proofs("tb_records"), r"length \(result_bytes a\) ≡ (\d+)"),
        ),
        (
            "id",
            size,
            lambda: r.constant(proofs("tb_records"), r"length \(le_bytes (\d+) x\) ≡ \d+$"),
        ),
        (
            "header",
            size,
            lambda: r.constant(specs("tb_records"), r"nat_lt \(length b\) (\d+), Short"),
        ),
    ]
    for place, (name, wanted, got) in enumerate(rows):
        kind = "limits" if wanted is most else "sizes"
        yield (f"{kind}: {name} ({place + 1})", wanted[name], got)
    masks = {row["name"]: row["mask"] for row in table["reserved_flags"]}
    for kind in ("account", "transfer"):
        yield (
            f"reserved_flags: {kind}",
            masks[kind],
            lambda k=kind: r.constant(
                sources.read(f"crates/tb_records/src/{k}_flags.rt"),
                r"pub const RESERVED: u16 = (\w+);",
            ),
        )


# What clients have by hand


def clients(table, sources):
    frames = "clients/python/src/tb_client/frames.py"
    tests = [row["name"] for row in table["frame_tests"]][1:-1]
    requests = [row["name"] for row in table["frame_tests"] if row["request"]][1:-1]
    yield (
        "frame_tests: request_fault in Python",
        requests,
        lambda: order_in_python(sources.read(frames), "request_fault"),
    )
    yield (
        "frame_tests: reply_fault in Python",
        tests,
        lambda: order_in_python(sources.read(frames), "reply_fault"),
    )
    yield (
        "told: the names in the listener",
        sorted(row["name"] for row in table["told"]),
        lambda: told("".join(map(sources.read, LISTENER))),
    )
    refusals = [row["name"] for row in table["statuses"] if row["number"]]
    yield (
        "statuses: the refusals in Python",
        refusals,
        lambda: re.findall(
            r"(\w+)(?=[,)])",
            r.first(
                r"^REFUSALS = \{[^(]* in (\(.*\))\s*\}",
                sources.read("clients/python/src/tb_client/errors.py"),
                "REFUSALS",
            )[1],
        ),
    )


def told(listener):
    """The names that the listener sends before it closes a connection: its own, and faults."""
    return sorted({*SENT.findall(listener)} - {"ReplyNumbers"})  # which is of replies


def order_in_python(text, name):
    inside = r.first(rf"^def {name}\(.*?^    return", text, name)[0]
    return re.findall(r'\("(\w+)", ', inside)
