"""Compares the numbers, names and layouts of the definitions in specs/ with those of
clients/embed/tb_embed.h, clients/embed/rust/tb_embed.rs, the client in Python and
docs/use/FORMATS.md: each has exactly what the definitions have. Needs no library."""

import os
import re
import subprocess
import sys

TOP = os.path.dirname(os.path.dirname(os.path.dirname(os.path.abspath(__file__))))
sys.path[:0] = [f"{TOP}/clients/embed/python", f"{TOP}/clients/python/src"]

import tb_caller  # noqa: E402

# Each kind: the file of its definitions with the words for the number and the text, the enum and
# the prefix in C, the name in Rust and in Python.
KINDS = [
    ("Operations", "operation_code", "operation_name", "tb_operation", "OPERATION", "Operation"),
    ("Messages", "status_code", "status_name", "tb_reply_status", "REPLY_STATUS", "Status"),
    (
        "AccountFlags",
        "account_flag_bit",
        "account_flag_name",
        "tb_account_flags",
        "ACCOUNT",
        "AccountFlags",
    ),
    (
        "TransferFlags",
        "transfer_flag_bit",
        "transfer_flag_name",
        "tb_transfer_flags",
        "TRANSFER",
        "TransferFlags",
    ),
    (
        "AccountResults",
        "account_result_code",
        "account_result_name",
        "tb_create_account_result",
        "CREATE_ACCOUNT",
        "CreateAccountResult",
    ),
    (
        "TransferResults",
        "transfer_result_code",
        "transfer_result_name",
        "tb_create_transfer_result",
        "CREATE_TRANSFER",
        "CreateTransferResult",
    ),
]
RUST_SIZES = {
    "u8": 1,
    "u16": 2,
    "u32": 4,
    "u64": 8,
    "u128": 16,
    "AccountFlags": 2,
    "TransferFlags": 2,
}


def read(path):
    with open(f"{TOP}/{path}") as it:
        return it.read()


def spec(name, crate="tb_records"):
    return read(f"crates/{crate}/specs/{name}.antt")


def only(found):
    """The one number that a pattern finds."""
    (it,) = set(found)
    return int(it)


def upper(variant):
    """A variant's name as a constant: NoSession is NO_SESSION."""
    return re.sub(r"(?<=[a-z0-9])(?=[A-Z])", "_", variant).upper()


# What the definitions say


def numbers(text, word):
    """The numbers of variants: those of `word Variant = 5`, with or without what the variant
    holds."""
    rows = re.findall(rf"^{word} \(?(?:\w+\.)?(\w+)[^=\n]*\)? = (\d+)$", text, re.M)
    assert rows, word
    return {variant: int(number) for variant, number in rows}


def texts(text, word):
    return dict(re.findall(rf'^{word} (\w+) = codes "(\w+)"$', text, re.M))


def defined(file, number_word, text_word):
    """Each variant's number and text."""
    text_file = "Statuses" if text_word == "status_name" else file
    found, named = numbers(spec(file), number_word), texts(spec(text_file), text_word)
    assert found.keys() == named.keys(), text_word
    return {variant: (number, named[variant]) for variant, number in found.items()}


def layout(file, word):
    """The fields of a record or header: the place, the name and the size of each. Zero bytes
    have no name."""
    body = re.search(rf"^{word} [\w ]+ =\n?((?:\s+.*\n)+|.*\n)", spec(file), re.M).group(1)
    at, fields = 0, []
    for size, name, zeros in re.findall(r"le_bytes (\d+) (?:\w\.)?(\w+)|replicate (\d+) 0", body):
        if name:
            fields.append((at, "length" if name == "len" else name, int(size)))
        at += int(size or zeros)
    return at, fields


LAYOUTS = [
    ("RecordBytes", "account_bytes", "tb_account", "Account"),
    ("RecordBytes", "transfer_bytes", "tb_transfer", "Transfer"),
    ("RecordBytes", "result_bytes", "tb_event_result", None),
    ("Frames", "header_bytes", "tb_request_header", "RequestHeader"),
    ("ReplyFrames", "reply_header_bytes", "tb_reply_header", "ReplyHeader"),
]


def limit(name):
    """A limit of tb_records, by its name there."""
    source = read("crates/tb_records/src/limits.rt")
    return only(re.findall(rf"^pub const {name}: \w+ = ([\d_]+);$", source, re.M))


def limits():
    """Sizes and limits, by their names in Rust; C has TB_ before them."""
    header, record, result = (
        layout(*it)[0]
        for it in (
            ("Frames", "header_bytes"),
            ("RecordBytes", "account_bytes"),
            ("RecordBytes", "result_bytes"),
        )
    )
    items = limit("ITEMS_MAX")
    return {
        "HEADER_SIZE": header,
        "RECORD_SIZE": record,
        "RESULT_SIZE": result,
        "ID_SIZE": only(re.findall(r"le_bytes (\d+)\) ids", spec("Frames"))),
        "ITEMS_MAX": items,
        "REQUEST_MAX": header + items * record,
        "REPLY_MAX": header + items * record,
        "CLIENTS_MAX": limit("CLIENTS_MAX"),
        "TIME_MAX": limit("LAST_MOMENT"),
    }


# What the header, the wrapper and the client say


def enums_in_c(header):
    return {
        tag: {name: int(number) for name, number in re.findall(r"\bTB_(\w+) = (\d+)", body)}
        for tag, body in re.findall(r"^enum (\w+) \{\n(.*?)^\};", header, re.M | re.S)
    }


def texts_in_c(header):
    return {
        tag: dict(re.findall(r'case TB_(\w+):\s+return "([^"]+)";', body))
        for tag, body in re.findall(
            r"^static inline const char \*(\w+)_name\(.*?\{\n(.*?)^\}", header, re.M | re.S
        )
    }


def enums_in_rust(source):
    """Each enum and each set of flags: its variants, with numbers and texts."""
    blocks = re.findall(
        r"^(?:numbered|flags)! \{\n(?:    ///[^\n]*\n)*    (\w+) \{\n(.*?)^    \}",
        source,
        re.M | re.S,
    )
    return {
        name: {
            variant: (int(number), text)
            for variant, number, text in re.findall(r'(\w+) = (\d+) "(\w+)",', body)
        }
        for name, body in blocks
    }


def layouts_in_rust(source):
    blocks = re.findall(
        r"^record! \{\n(?:    ///[^\n]*\n)*    (\w+), (\w+) \{\n(.*?)^    \}", source, re.M | re.S
    )
    return {
        name: (
            size,
            [
                (int(at), field, RUST_SIZES[kind])
                for at, field, kind in re.findall(r"(\d+) (\w+): (\w+),", body)
            ],
        )
        for name, size, body in blocks
    }


def faults_in_rust(source):
    return {
        name: int(number)
        for name, number in re.findall(
            r"^    (\w+) = (\d+),",
            re.search(r"^pub enum Fault \{\n(.*?)^\}", source, re.M | re.S).group(1),
            re.M,
        )
    }


# The comparisons


def asserted(what, lines):
    """Whether these asserts hold over the header, as the compiler sees it."""
    source = "\n".join(
        ['#include "tb_embed.h"', *(f'TB_ASSERT({it}, "{it}");' for it in lines), ""]
    )
    ran = subprocess.run(
        ["cc", "-std=c11", "-fsyntax-only", "-x", "c", f"-I{TOP}/clients/embed", "-"],
        input=source.encode(),
        capture_output=True,
    )
    return (
        what,
        ran.returncode == 0,
        "; ".join(re.findall(r"error: (.*)", ran.stderr.decode(errors="replace"))),
    )


def same(what, wanted, got):
    """Whether two dicts are the same, and where they differ."""
    keys = [key for key in {**wanted, **got} if wanted.get(key) != got.get(key)]
    return (
        what,
        bool(wanted) and not keys,
        "; ".join(f"{key} is {wanted.get(key)}, not {got.get(key)}" for key in keys),
    )


def comparisons():
    """Each comparison: what is compared, whether it holds, and why not."""
    header, rust = read("clients/embed/tb_embed.h"), read("clients/embed/rust/tb_embed.rs")
    yield from in_c(header)
    yield from in_rust(rust)
    yield from in_python()
    yield from in_pages(read("docs/use/FORMATS.md"))
    yield from of_callers(enums_in_c(header), rust)


def statuses_of_outcomes():
    """The statuses by the names of outcomes. Of outcomes with one status a caller sees the
    first: out of memory has one, wherever it was met."""
    first = {}
    for name, number in numbers(spec("Outcomes", "tb_embed"), "outcome_status").items():
        first.setdefault(number, name)
    return {name: number for number, name in first.items()}


CALLERS = ("tb_caller_phase", "tb_heard", "tb_caller_status")  # of a client's session


def of_callers(in_c, rust):
    """The numbers of a client's session: phases, what a reply is, and the statuses of its calls. In
    C the end of a session has another name than the call that it refuses."""
    text = spec("Callers", "tb_embed")
    phases, heard = numbers(text, "phase_number"), numbers(text, "heard_code")
    calls = {it: n for it, n in numbers(text, "call_code").items() if it != "Frame"}
    statuses = {**numbers(text, "step_code"), **calls, **numbers(text, "field_code")}
    phase, hears, status = (in_c[it] for it in CALLERS)
    over = {("OVER" if it == "Ended" else upper(it)): number for it, number in phases.items()}
    yield same("tb_caller_phase in C", {f"CALLER_{it}": n for it, n in over.items()}, phase)
    yield same("tb_heard in C", {f"HEARD_{upper(it)}": n for it, n in heard.items()}, hears)
    yield same(
        "tb_caller_status in C", {f"CALLER_{upper(it)}": n for it, n in statuses.items()}, status
    )
    faults = {n: it for it, n in statuses.items() if n}
    yield same("a client's faults in Python", faults, tb_caller.FAULTS)
    for kind, wanted in ((tb_caller.Phase, phases), (tb_caller.Heard, heard)):
        named = {it.name: it.value for it in kind}
        yield same(
            f"a client's {kind.__name__} in Python", {upper(i): n for i, n in wanted.items()}, named
        )
    found = {int(n): it for n, it in re.findall(r"(\d+) => CallerFault::(\w+)", rust)}
    yield same(
        "a client's faults in Rust", {n: it for n, it in faults.items() if it != "TooSmall"}, found
    )
    found = {it: int(n) for n, it in re.findall(r"(\d+) => Heard::(\w+)", rust)}
    yield same(
        "what a reply is in Rust", {it: n for it, n in heard.items() if it != "Other"}, found
    )


def in_c(header):
    enums, named = enums_in_c(header), texts_in_c(header)
    kinds = {"tb_fault", "tb_status", *CALLERS, *(it[3] for it in KINDS)}
    yield "the header's enums are those that are compared", enums.keys() == kinds, ", ".join(
        enums.keys() ^ kinds
    )
    for file, number_word, text_word, tag, prefix, _ in KINDS:
        rows = defined(file, number_word, text_word)
        word = {
            variant: f"{prefix}_{text.upper() if text.islower() else upper(variant)}"
            for variant, (_, text) in rows.items()
        }
        yield same(
            f"{tag} in C", {word[it]: number for it, (number, _) in rows.items()}, enums[tag]
        )
        if "flags" not in tag:
            yield same(
                f"{tag} in C, by name",
                {word[it]: text for it, (_, text) in rows.items()},
                named[tag],
            )
    faults = defined("Faults", "fault_number", "fault_name")
    yield same(
        "tb_fault in C",
        {"FAULT_NONE": 0, **{f"FAULT_{upper(it)}": number for it, (number, _) in faults.items()}},
        enums["tb_fault"],
    )
    yield same(
        "tb_fault in C, by name",
        {"FAULT_NONE": "none", **{f"FAULT_{upper(it)}": text for it, (_, text) in faults.items()}},
        named["tb_fault"],
    )
    statuses = statuses_of_outcomes()
    yield same(
        "tb_status in C", {upper(it): number for it, number in statuses.items()}, enums["tb_status"]
    )
    yield same(
        "tb_status in C, by name",
        {upper(it): upper(it).lower().replace("_", " ") for it in statuses},
        named["tb_status"],
    )
    yield asserted(
        "sizes and limits in C", [f"TB_{name} == {value}" for name, value in limits().items()]
    )
    for file, word, tag, _ in LAYOUTS:
        size, fields = layout(file, word)
        lines = [f"sizeof({tag}) == {size}"]
        for at, name, bytes_of in fields:
            halves = (
                [("commit_low", at, 4), ("commit_high", at + 4, 4)]
                if name == "commit"
                else [(name, at, bytes_of)]
            )
            lines += [
                f"offsetof({tag}, {half}) == {place} && sizeof((({tag} *)0)->{half}) == {length}"
                for half, place, length in halves
            ]
        yield asserted(f"{tag}: {len(fields)} fields in {size} bytes", lines)


def in_rust(source):
    enums, layouts = enums_in_rust(source), layouts_in_rust(source)
    kinds = {it[5] for it in KINDS}
    yield "Rust's enums and flags are those that are compared", enums.keys() == kinds, ", ".join(
        enums.keys() ^ kinds
    )
    for file, number_word, text_word, _, _, name in KINDS:
        rows = defined(file, number_word, text_word)
        yield same(
            f"{name} in Rust",
            {upper(it) if "Flags" in name else it: row for it, row in rows.items()},
            enums[name],
        )
    yield same("Fault in Rust", numbers(spec("Faults"), "fault_number"), faults_in_rust(source))
    refusals = re.findall(r"^        (\d+) => Err\(Refusal::(\w+)", source, re.M)
    shown = statuses_of_outcomes()
    known = {
        name: number for name, number in shown.items() if name not in ("Done", "Closed", "Absent")
    }
    yield same("Refusal in Rust", known, {name: int(number) for number, name in refusals})
    constants = dict(re.findall(r"^pub const (\w+): \w+ = ([^;]+);", source, re.M))
    values = {name: eval_rust(value, constants) for name, value in constants.items()}
    yield same("sizes and limits in Rust", {**limits(), "AMOUNT_MAX": 2**128 - 1}, values)
    for file, word, _, name in LAYOUTS:
        if name:
            size, fields = layout(file, word)
            size_name, found = layouts[name]
            yield f"{name} in Rust: {len(fields)} fields in {size} bytes", (size, fields) == (
                values[size_name],
                found,
            ), f"{fields} are wanted, not {found}"


def eval_rust(expression, constants):
    """The value of a constant: numbers, sums and products of constants, and the greatest numbers
    of types."""
    text = expression.replace("i64::MAX as u64", str(2**63 - 1)).replace(
        "u128::MAX", str(2**128 - 1)
    )
    while names := set(re.findall(r"[A-Z_]+", text)):
        for name in names:
            text = re.sub(rf"\b{name}\b", f"({constants[name]})", text)
    assert re.fullmatch(r"[\d+* ()]+", text), text
    return eval(text)


def in_python():
    import tb_client
    import tb_embed
    from tb_client import layout as sizes, values

    for file, number_word, text_word, _, _, name in KINDS:
        rows = defined(file, number_word, text_word)
        found = {it: int(value) for it, value in getattr(tb_client, name).__members__.items()}
        wanted = {text: number for number, text in rows.values()}
        if name != "Status":  # in capitals too, as TigerBeetle's client has them
            wanted |= {text.upper(): number for text, number in wanted.items()}
        if name.endswith("Flags"):
            wanted["NONE"] = 0
        yield same(f"{name} in Python", wanted, found)
    statuses = statuses_of_outcomes()
    yield same(
        "REFUSALS in Python",
        {number: it for it, number in statuses.items() if number},
        tb_embed.REFUSALS,
    )
    wanted = limits()
    found = {
        "HEADER_SIZE": sizes.HEADER,
        "RECORD_SIZE": sizes.RECORD,
        "ID_SIZE": sizes.ID,
        "ITEMS_MAX": sizes.ITEMS_MAX,
    }
    found |= {"REPLY_MAX": tb_embed.REPLY_MAX, "TIME_MAX": values.MOMENT_MAX}
    yield same("sizes and limits in Python", {name: wanted[name] for name in found}, found)


def in_pages(page):
    """What docs/use/FORMATS.md says of operations, statuses and flags."""
    by_number = {
        name: {number: text for number, text in defined(file, number_word, text_word).values()}
        for file, number_word, text_word, _, _, name in KINDS
    }
    operations = {
        int(number): name for number, name in re.findall(r"^\| (\d+) (\w+) \|", page, re.M)
    }
    yield same("operations on the page of formats", by_number["Operation"], operations)
    statuses = {
        int(number): name
        for number, name in re.findall(r"^\| (\d) \| (\w+) \| (?:is|has|skips)", page, re.M)
    }
    yield same("statuses on the page of formats", by_number["Status"], statuses)
    for name, listed in zip(
        ("AccountFlags", "TransferFlags"),
        re.findall(r"^Flags of an? \w+: (.*?)\.$", page, re.M),
        strict=True,
    ):
        yield same(
            f"{name} on the page of formats",
            by_number[name],
            {int(bit): flag for bit, flag in re.findall(r"(\d+) (\w+)", listed)},
        )
