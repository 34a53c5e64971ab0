"""The parts of clients/embed/tb_embed.h. clang-format breaks their long lines."""
from . import table as t

TYPES = {"u8": "uint8_t", "u16": "uint16_t", "u32": "uint32_t", "u64": "uint64_t"}
TYPES["u128"] = "tb_u128"
WIDTH = 100
ENUMS = {
    "operation": ("tb_operation", "OPERATION", "What a request asks for."),
    "status": (
        "tb_reply_status",
        "REPLY_STATUS",
        "What the server says of a request, in its reply. With any but the first it was not "
        "executed now,"
        " and there is no body.",
    ),
    "account_result": (
        "tb_create_account_result",
        "CREATE_ACCOUNT",
        "What became of an event of create_accounts. docs/use/RULES.md says where each holds,"
        " docs/use/CLIENTS.md what to do.",
    ),
    "transfer_result": (
        "tb_create_transfer_result",
        "CREATE_TRANSFER",
        "What became of an event of create_transfers.",
    ),
}


def parts(table):
    return {
        "statuses": statuses(table),
        "limits": limits(table),
        "enums": enums(table),
        "records": "\n".join(struct(table, name) for name in ("account", "transfer")),
        "headers": "\n".join(struct(table, name) for name in ("request_header", "reply_header")),
        "layouts": asserts(table),
        "names": names(table),
    }


def enum(tag, about, rows):
    """An enum: its rows are names, numbers and comments."""
    lines = [f"/* {about} */"] if about else []
    lines.append(f"enum {tag} {{")
    for place, (name, number, says) in enumerate(rows):
        comma = "," if place < len(rows) - 1 else ""
        lines += [f"    /* {says} */"] if says else []
        lines.append(f"    TB_{name} = {number}{comma}")
    return "\n".join([*lines, "};"]) + "\n"


def statuses(table):
    rows = [(t.upper(row["name"]), row["number"], row["says"]) for row in table["embed_statuses"]]
    return enum("tb_status", "What a call of the library answers.", rows)


def limits(table):
    size, most = t.sizes(table), t.limits(table)
    return "\n".join(
        [
            "/* Sizes in bytes, and limits. A frame is a header, and items behind it. */",
            f"#define TB_HEADER_SIZE {size['header']}",
            f"#define TB_RECORD_SIZE {size['record']} /* an account, a transfer */",
            f"#define TB_ID_SIZE {size['id']}",
            f"#define TB_RESULT_SIZE {size['result']}",
            f"#define TB_ITEMS_MAX {most['items_max']}",
            "#define TB_REQUEST_MAX (TB_HEADER_SIZE + TB_ITEMS_MAX * TB_RECORD_SIZE)",
            "/* The room that every reply has enough of: a header, and as many records. */",
            "#define TB_REPLY_MAX (TB_HEADER_SIZE + TB_ITEMS_MAX * TB_RECORD_SIZE)",
            f"#define TB_CLIENTS_MAX {most['clients_max']}",
            f"#define TB_TIME_MAX UINT64_C({most['time_max']})"
            " /* no entry has a later time, in nanoseconds */",
            "",
        ]
    )


def enums(table):
    kinds = t.kinds(table)
    found = [plain(kinds, "operation"), with_comments(kinds, "status"), faults(table)]
    for kind, rows in t.flags(table).items():
        prefix = kind.upper()
        words = [(f"{prefix}_{name.upper()}", bit, "") for bit, name, _ in rows]
        about = f"The flags of {kind}s. Imported ones are answered reserved_flag."
        found.append(enum(f"tb_{kind}_flags", about, words))
    found += [plain(kinds, "account_result"), plain(kinds, "transfer_result")]
    return "\n".join(found)


def plain(kinds, kind):
    tag, prefix, about = ENUMS[kind]
    return enum(tag, about, [(f"{prefix}_{t.upper(n)}", at, "") for at, n, _ in kinds[kind]])


def with_comments(kinds, kind):
    tag, prefix, about = ENUMS[kind]
    return enum(tag, about, [(f"{prefix}_{t.upper(n)}", at, says) for at, n, says in kinds[kind]])


def fault_rows(table):
    rows = [(row["number"], t.upper(row["name"]), row["says"]) for row in table["frame_faults"]]
    return [(0, "NONE", "")] + rows


def faults(table):
    about = "What is wrong with a frame. docs/use/FORMATS.md says where each holds."
    rows = [(f"FAULT_{name}", number, says) for number, name, says in fault_rows(table)]
    return enum("tb_fault", about, rows)


def members(table, name):
    """The members of a struct: types with names. A number whose place is no multiple of its size is
    in two halves."""
    found, zeros = [], iter(("zeros", "more_zeros"))
    for field in t.layout(table, name)["fields"]:
        if field["name"] is None:
            count, zero = t.zeros(field), next(zeros)
            found.append(("u32", zero) if count == 4 else ("u8", f"{zero}[{count}]"))
        elif field["type"] == "u64" and field["at"] % 8:
            found += [("u32", f"{field['name']}_low"), ("u32", f"{field['name']}_high")]
        else:
            found.append((field["type"], field["name"]))
    return found


def struct(table, name):
    lines, before = [f"typedef struct tb_{name} {{"], None
    for kind, member in members(table, name):
        if kind == before and len(lines[-1]) + len(member) + 3 < WIDTH:
            lines[-1] = f"{lines[-1][:-1]}, {member};"
        else:
            lines.append(f"    {TYPES[kind]} {member};")
        before = kind
    return "\n".join([*lines, f"}} tb_{name};"]) + "\n"


def asserts(table):
    """What the compiler has to find: the size of each struct, and the place of each member."""
    lines = []
    for name, tag in (("account",) * 2, ("transfer",) * 2, ("result", "event_result")):
        lines += one_assert(table, name, tag)
    for name in ("request_header", "reply_header"):
        lines += one_assert(table, name, name)
    return "\n".join(lines) + "\n"


def one_assert(table, name, tag):
    whole = t.layout(table, name)
    tests = [f"sizeof(tb_{tag}) == {whole['bytes']}"]
    for field in t.fields(table, name):
        member = field["name"]
        if field["type"] == "u64" and field["at"] % 8:
            member += "_low"
        tests.append(f"offsetof(tb_{tag}, {member}) == {field['at']}")
    return [f'TB_ASSERT({tests[0]}, "tb_{tag}");'] + [
        f'TB_ASSERT({test}, "tb_{tag}");' for test in tests[1:]
    ]


def names(table):
    kinds = t.kinds(table)
    calls = [
        (t.upper(row["name"]), t.upper(row["name"]).lower().replace("_", " "))
        for row in table["embed_statuses"]
    ]
    faults = [
        (f"FAULT_{name}", "none" if number == 0 else t.camel(name.lower()))
        for number, name, _ in fault_rows(table)
    ]
    found = [function("tb_status", "status", calls), rows_of(kinds, "operation", "number")]
    found += [rows_of(kinds, "status", "status"), function("tb_fault", "fault", faults)]
    found += [
        rows_of(kinds, "account_result", "number"),
        rows_of(kinds, "transfer_result", "number"),
    ]
    return "\n".join(found)


def rows_of(kinds, kind, argument):
    tag, prefix, _ = ENUMS[kind]
    rows = [(f"{prefix}_{t.upper(name)}", name) for _, name, _ in kinds[kind]]
    return function(tag, argument, rows)


def function(tag, argument, rows):
    """A function that returns names."""
    lines = [f"static inline const char *{tag}_name(uint32_t {argument}) {{"]
    lines += [f"    switch ({argument}) {{"]
    lines += [f'    case TB_{constant}: return "{name}";' for constant, name in rows]
    lines += ['    default: return "unknown";', "    }", "}"]
    return "\n".join(lines) + "\n"
