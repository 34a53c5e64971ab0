"""The parts of clients/embed/rust/tb_embed.rs."""
from . import table as t

ENUMS = {
    "operation": ("Operation", "What a request asks for."),
    "status": (
        "Status",
        "What the server says of a request, in its reply. With any but `Reply` it was not "
        "executed now.",
    ),
    "account_result": (
        "CreateAccountResult",
        "What became of an event of create_accounts: docs/use/RULES.md says where each holds,"
        " docs/use/CLIENTS.md what to do.",
    ),
    "transfer_result": (
        "CreateTransferResult",
        "What became of an event of create_transfers.",
    ),
}
RECORDS = {
    "account": (
        "Account",
        "RECORD_SIZE",
        "An account. A new one has an id, a ledger and a code, and the rest"
        " as the default has it, except user data and flags.",
    ),
    "transfer": ("Transfer", "RECORD_SIZE", "A transfer. The timeout is in seconds."),
    "request_header": ("RequestHeader", "HEADER_SIZE", "The header of a request's frame."),
    "reply_header": ("ReplyHeader", "HEADER_SIZE", "The header of a reply's frame."),
}


def parts(table):
    kinds = t.kinds(table)
    flags = [flag_set(kind, rows) for kind, rows in t.flags(table).items()]
    return {
        "limits": limits(table),
        "enums": "\n".join(numbered(kind, kinds[kind]) for kind in ENUMS),
        "flags": "\n".join(flags),
        "faults": faults(table),
        "records": "\n".join(record(table, name) for name in RECORDS),
    }


def limits(table):
    size, most = t.sizes(table), t.limits(table)
    rows = [
        ("The bytes of a header.", "HEADER_SIZE", "usize", size["header"]),
        ("The bytes of an account or a transfer.", "RECORD_SIZE", "usize", size["record"]),
        ("The bytes of an id.", "ID_SIZE", "usize", size["id"]),
        ("The bytes of an event's result.", "RESULT_SIZE", "usize", size["result"]),
        (
            "How many accounts, transfers or ids a request has at most.",
            "ITEMS_MAX",
            "usize",
            most["items_max"],
        ),
        (
            "The bytes of the longest request.",
            "REQUEST_MAX",
            "usize",
            "HEADER_SIZE + ITEMS_MAX * RECORD_SIZE",
        ),
        (
            "The room that every reply has enough of: a header, and as many records.",
            "REPLY_MAX",
            "usize",
            "HEADER_SIZE + ITEMS_MAX * RECORD_SIZE",
        ),
        (
            "How many clients can have a session at one time, at most.",
            "CLIENTS_MAX",
            "u32",
            most["clients_max"],
        ),
        ("No entry has a later time, in nanoseconds.", "TIME_MAX", "u64", most["time_max"]),
        (
            "The largest amount: as the amount of a post it means all of the pending amount.",
            "AMOUNT_MAX",
            "u128",
            most["amount_max"],
        ),
    ]
    return "".join(
        f"/// {says}\npub const {name}: {kind} = {value};\n" for says, name, kind, value in rows
    )


def numbered(kind, rows):
    name, about = ENUMS[kind]
    lines = ["numbered! {", f"    /// {about}", f"    {name} {{"]
    for number, word, says in rows:
        if kind == "status":
            lines.append(f"        /// {t.sentence(says)}")
        lines.append(f'        {t.camel(word)} = {number} "{word}",')
    return "\n".join([*lines, "    }", "}"]) + "\n"


def flag_set(kind, rows):
    one = "an account" if kind == "account" else "a transfer"
    about = f"The flags of {one}. An imported one is answered reserved_flag."
    lines = ["flags! {", f"    /// {about}", f"    {t.camel(kind)}Flags {{"]
    lines += [f'        {name.upper()} = {bit} "{name}",' for bit, name, _ in rows]
    return "\n".join([*lines, "    }", "}"]) + "\n"


def faults(table):
    lines = [
        "/// What is wrong with a frame: docs/use/FORMATS.md says where each holds.",
        "#[derive(Clone, Copy, Debug, PartialEq, Eq, Hash)]",
        "pub enum Fault {",
    ]
    for row in table["frame_faults"]:
        lines += [f"    /// {t.sentence(row['says'])}", f"    {row['name']} = {row['number']},"]
    return "\n".join([*lines, "}"]) + "\n"


def record(table, name):
    kind, size, about = RECORDS[name]
    lines = ["record! {", f"    /// {about}", f"    {kind}, {size} {{"]
    for field in t.fields(table, name):
        is_flags = field["name"] == "flags"
        lines.append(
            f"        {field['at']} {field['name']}:"
            f" {kind + 'Flags' if is_flags else field['type']},"
        )
    return "\n".join([*lines, "    }", "}"]) + "\n"
