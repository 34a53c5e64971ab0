"""The names and layouts of the client in Java: a file for each type."""
from . import table as t

PACKAGE = "org.telovamish.tbclient"
HEAD = "// Made by tools/tables.py --write from tools/ledger.json: edit that.\n"
NAMES = {
    "operation": ("Operation", "What a request asks for."),
    "status": ("Status", "What the server says of a request, in its reply."),
    "account_result": ("CreateAccountResult", "What became of an event of create_accounts."),
    "transfer_result": ("CreateTransferResult", "What became of an event of create_transfers."),
}


def files(table):
    """Each file's name and text."""
    kinds = t.kinds(table)
    found = {
        f"{name}.java": enum(name, about, kinds[kind]) for kind, (name, about) in NAMES.items()
    }
    for kind, rows in t.flags(table).items():
        found[f"{t.camel(kind)}Flags.java"] = flags(kind, rows)
    for kind in ("account", "transfer"):
        found[f"{t.camel(kind)}.java"] = record(kind, t.fields(table, kind))
        found[f"{t.camel(kind)}Batch.java"] = batch(kind, t.fields(table, kind))
    found["Layout.java"] = layout(table)
    return found


def enum(name, about, rows):
    overrides = ["    @Override"] if name.endswith("Result") else []
    is_result = " implements ResultCode" if name.endswith("Result") else ""
    lines = [
        HEAD,
        f"package {PACKAGE};",
        "",
        f"/** {about} */",
        f"public enum {name}{is_result} {{",
    ]
    for place, (number, word, says) in enumerate(rows):
        end = ";" if place == len(rows) - 1 else ","
        lines += [f"    /** {t.sentence(says)} */", f'    {t.upper(word)}({number}, "{word}"){end}']
    lines += [
        "",
        "    private final int code;",
        "    private final String label;",
        "",
        f"    {name}(int code, String label) {{",
        "        this.code = code;",
        "        this.label = label;",
        "    }",
        "",
        "    /**",
        "     * The number in a frame.",
        "     *",
        "     * @return the number",
        "     */",
        *overrides,
        "    public int code() {",
        "        return code;",
        "    }",
        "",
        "    /**",
        "     * The name, as TigerBeetle and the pages have it.",
        "     *",
        "     * @return the name",
        "     */",
        *overrides,
        "    public String label() {",
        "        return label;",
        "    }",
        "",
        "    /**",
        "     * The one that has a number.",
        "     *",
        "     * @param code the number",
        "     * @return the one, or null where none has it",
        "     */",
        f"    public static {name} of(int code) {{",
        f"        for ({name} it : values()) {{",
        "            if (it.code == code) {",
        "                return it;",
        "            }",
        "        }",
        "        return null;",
        "    }",
        "}",
        "",
    ]
    return "\n".join(lines)


def flags(kind, rows):
    name = f"{t.camel(kind)}Flags"
    lines = [
        HEAD,
        f"package {PACKAGE};",
        "",
        f"/** The flags of {'an' if kind == 'account' else 'a'} {kind}. */",
        f"public final class {name} {{",
    ]
    for bit, word, says in rows:
        lines += [
            f"    /** {t.sentence(says)} */",
            f"    public static final int {word.upper()} = {bit};",
        ]
    lines += [
        "",
        "    private static final String[] NAMES = {",
        *(f'        "{word}",' for _, word, _ in rows),
        "    };",
        "",
        f"    private {name}() {{}}",
        "",
        "    /**",
        "     * The names of flags, in the order of their bits.",
        "     *",
        "     * @param flags the flags",
        "     * @return their names; bits without a name are left out",
        "     */",
        "    public static java.util.List<String> names(int flags) {",
        "        java.util.List<String> found = new java.util.ArrayList<>();",
        "        for (int place = 0; place < NAMES.length; place++) {",
        "            if ((flags & 1 << place) != 0) {",
        "                found.add(NAMES[place]);",
        "            }",
        "        }",
        "        return found;",
        "    }",
        "}",
        "",
    ]
    return "\n".join(lines)


# How a field of each type is read, and what it is in Java.
READS = {
    "u128": ("BigInteger", "u128"),
    "u64": ("BigInteger", "u64"),
    "u32": ("long", "u32"),
    "u16": ("int", "u16"),
}
ABOUT = {
    "account": "An account. Its balances, and its timestamp, are the ledger's to give.",
    "transfer": "A transfer: an amount that goes from one account to another.",
}


def record(kind, fields):
    """An immutable record, which holds the bytes that a frame has, and its builder."""
    name, a = t.camel(kind), "an" if kind == "account" else "a"
    lines = [
        HEAD,
        f"package {PACKAGE};",
        "",
        "import java.math.BigInteger;",
        "import java.util.Arrays;",
        "import java.util.List;",
        "import java.util.UUID;",
        "",
        "/**",
        f" * {ABOUT[kind]}",
        " *",
        " * <p>It never changes. A field that is not set is 0. Numbers of 128 and 64 bits are",
        " * {@link BigInteger}; the builder refuses, by the field's name, what is out of range.",
        " */",
        f"public final class {name} {{",
        "    private final byte[] data; // as a frame has it",
        "",
        f"    {name}(byte[] data) {{",
        "        this.data = data;",
        "    }",
        "",
        "    /**",
        f"     * Begins {a} {kind} of which each field is 0.",
        "     *",
        "     * @return its builder",
        "     */",
        "    public static Builder builder() {",
        "        return new Builder();",
        "    }",
        "",
        "    /**",
        f"     * Reads {a} {kind}.",
        "     *",
        "     * @param data its 128 bytes, as a frame has them",
        f"     * @return the {kind}",
        "     * @throws InvalidValueException where there are fewer bytes, or more",
        "     */",
        f"    public static {name} fromBytes(byte[] data) {{",
        f'        return new {name}(Values.record("{name}", data));',
        "    }",
        "",
        "    /**",
        "     * Its bytes.",
        "     *",
        "     * @return 128 bytes, as a frame has them: a copy",
        "     */",
        "    public byte[] toBytes() {",
        "        return data.clone();",
        "    }",
        "",
        "    /** The bytes themselves, to be copied and not to be changed. */",
        "    byte[] data() {",
        "        return data;",
        "    }",
    ]
    for field in fields:
        kind_of, read = READS[field["type"]]
        at = f"Layout.{t.upper(kind)}_{t.upper(field['name'])}"
        lines += [
            "",
            "    /**",
            f"     * The {field['name']}.",
            "     *",
            f"     * @return it, {field['type']}{unit(field)}",
            "     */",
            f"    public {kind_of} {t.lower_camel(field['name'])}() {{",
            f"        return Values.{read}(data, {at});",
            "    }",
        ]
        if field["name"] == "flags":
            lines += [
                "",
                "    /**",
                "     * The names of its flags, in the order of their bits.",
                "     *",
                f"     * @return the names, as {{@link {name}Flags}} has them",
                "     */",
                "    public List<String> flagNames() {",
                f"        return {name}Flags.names(flags());",
                "    }",
            ]
    lines += [
        "",
        "    @Override",
        "    public boolean equals(Object other) {",
        f"        return other instanceof {name} && Arrays.equals(data, (({name}) other).data);",
        "    }",
        "",
        "    @Override",
        "    public int hashCode() {",
        "        return Arrays.hashCode(data);",
        "    }",
        "",
        "    @Override",
        "    public String toString() {",
        f'        return "{name}{{"',
    ]
    for place, field in enumerate(fields):
        comma = ", " if place else ""
        value = "flagNames" if field["name"] == "flags" else t.lower_camel(field["name"])
        lines.append(f'                + "{comma}{field["name"]}=" + {value}()')
    lines += [
        '                + "}";',
        "    }",
        "",
        f"    /** Makes {a} {kind}. One thread at a time may use it. */",
        "    public static final class Builder {",
        "        private final byte[] data = new byte[Layout.RECORD_SIZE];",
        "",
        "        private Builder() {}",
    ]
    for field in fields:
        lines += setters(name, kind, field)
    lines += [
        "",
        "        /**",
        f"         * Makes the {kind} as it is by now.",
        "         *",
        f"         * @return the {kind}",
        "         */",
        f"        public {name} build() {{",
        f"            return new {name}(data.clone());",
        "        }",
        "    }",
        "}",
        "",
    ]
    return "\n".join(lines)


AMOUNTS = ("amount", "debits_pending", "debits_posted", "credits_pending", "credits_posted")


def batch(kind, fields):
    """Records in one array of bytes, of which one at a time is read and set."""
    name = t.camel(kind)
    lines = [
        HEAD,
        f"package {PACKAGE};",
        "",
        "import java.math.BigInteger;",
        "import java.util.List;",
        "import java.util.UUID;",
        "",
        f"/** {name}s of a request or a reply. One at a time is read and set. */",
        f"public final class {name}Batch extends Batch {{",
        "    /**",
        "     * A batch with room.",
        "     *",
        f"     * @param capacity how many {kind}s it is made for; it grows",
        "     */",
        f"    public {name}Batch(int capacity) {{",
        "        super(Layout.RECORD_SIZE, capacity);",
        "    }",
        "",
        f"    static {name}Batch of(List<{name}> records) {{",
        f"        {name}Batch it = new {name}Batch(records.size());",
        "        records.forEach(it::add);",
        "        it.beforeFirst();",
        "        return it;",
        "    }",
        "",
        "    /**",
        f"     * Adds {'an' if kind == 'account' else 'a'} {kind}, and is at it.",
        "     *",
        f"     * @param record the {kind}",
        "     */",
        f"    public void add({name} record) {{",
        f'        append(Values.given("{kind}", record).data());',
        "    }",
        "",
        "    /**",
        f"     * The {kind} that this is at.",
        "     *",
        "     * @return it",
        "     */",
        f"    public {name} get() {{",
        f"        return new {name}(item());",
        "    }",
    ]
    for field in fields:
        lines += getter(name, kind, field)
    return "\n".join([*lines, "}", ""])


def getter(name, kind, field):
    """What reads a field of a batch, and what sets it."""
    word, at = t.camel(field["name"]), f"Layout.{t.upper(kind)}_{t.upper(field['name'])}"
    wide, full = field["type"] == "u128", f'"{name}.{field["name"]}"'
    is_amount = field["name"] in AMOUNTS
    reads = {
        "u128": ("BigInteger", "u128") if is_amount else ("byte[]", "id"),
        "u64": ("long", "i64"),
        "u32": ("int", "i32"),
        "u16": ("int", "u16"),
    }
    kind_of, read = reads[field["type"]]
    sets = {
        "u128": [
            ("BigInteger value", f"Values.u128(data(), place() + {at}, {full}, value)"),
            ("long value", f"Values.u128(data(), place() + {at}, {full}, value)"),
            ("long least, long most", f"Values.bits(data(), place() + {at}, least, most)"),
        ],
        "u64": [("long value", f"Values.putLong(data(), place() + {at}, value)")],
        "u32": [("int value", f"Values.putInt(data(), place() + {at}, value)")],
        "u16": [("int value", f"Values.u16(data(), place() + {at}, {full}, value)")],
    }[field["type"]]
    if wide and not is_amount:
        sets = [
            ("byte[] value", f"Values.id(data(), place() + {at}, {full}, value)"),
            ("UUID value", f"Values.id(data(), place() + {at}, {full}, UInt128.asBytes(value))"),
            *sets,
        ]
    lines = [
        "",
        "    /**",
        f"     * The {field['name']}.",
        "     *",
        f"     * @return it, {field['type']}{unit(field)}",
        "     */",
        f"    public {kind_of} get{word}() {{",
        f"        return Values.{read}(data(), place() + {at});",
        "    }",
    ]
    for given, how in sets:
        params = [it.split()[1] for it in given.split(", ")]
        says = {"least": "the lower 64 bits", "most": "the upper 64 bits"}
        lines += [
            "",
            "    /**",
            f"     * Sets the {field['name']}.",
            "     *",
            *(f"     * @param {it} {says.get(it, field['type'] + unit(field))}" for it in params),
            "     */",
            f"    public void set{word}({given}) {{",
            f"        {how};",
            "    }",
        ]
    return lines


def unit(field):
    return f" in {field['unit']}" if field.get("unit") else ""


def setters(name, kind, field):
    """What sets a field: wide ones take a long too, and ids a UUID or bytes."""
    kind_of, write = READS[field["type"]]
    at = f"Layout.{t.upper(kind)}_{t.upper(field['name'])}"
    range_ = field["type"] + unit(field)
    rows = [(kind_of, write, "value", range_)]
    if kind_of == "BigInteger":
        rows.append(("long", write, "value", "0 to 2^63 - 1" + unit(field)))
    if field["type"] == "u128" and field["name"] not in AMOUNTS:
        rows.append(("UUID", "id", "UInt128.asBytes(value)", "u128"))
        rows.append(("byte[]", "id", "value", "16 bytes, the low one first"))
    lines = []
    for given, put, value, says in rows:
        lines += [
            "",
            "        /**",
            f"         * Sets the {field['name']}.",
            "         *",
            f"         * @param value {says}",
            "         * @return this",
            "         * @throws InvalidValueException if it is no such value",
            "         */",
            f"        public Builder {t.lower_camel(field['name'])}({given} value) {{",
            f'            Values.{put}(data, {at}, "{name}.{field["name"]}", {value});',
            "            return this;",
            "        }",
        ]
    return lines


def layout(table):
    size, most = t.sizes(table), t.limits(table)
    rows = [
        ("HEADER_SIZE", "int", size["header"]),
        ("RECORD_SIZE", "int", size["record"]),
        ("ID_SIZE", "int", size["id"]),
        ("RESULT_SIZE", "int", size["result"]),
        ("ITEMS_MAX", "int", most["items_max"]),
        ("CLIENTS_MAX", "int", most["clients_max"]),
        ("NUMBER_MAX", "long", f"{most['number_max']}L"),
    ]
    lines = [
        HEAD,
        f"package {PACKAGE};",
        "",
        "/** Sizes, limits, and where each field is. */",
        "final class Layout {",
    ]
    lines += [f"    static final {kind} {name} = {value};" for name, kind, value in rows]
    for row in table["layouts"]:
        lines.append("")
        lines += [
            f"    static final int {t.upper(row['name'])}_{t.upper(field['name'])} = {field['at']};"
            f" // {field['type']}"
            for field in row["fields"]
            if field["name"]
        ]
    for side in ("request", "reply"):
        lines += [
            "",
            f"    static int {side}ItemSize(Operation operation) {{",
            "        switch (operation) {",
        ]
        for operation in table["operations"]:
            if operation[side]:
                lines += [
                    f"            case {t.upper(operation['name'])}:",
                    f"                return {t.item_bytes(table, operation[side])};",
                ]
        lines += ["            default:", "                return 0;", "        }", "    }"]
    return "\n".join([*lines, "", "    private Layout() {}", "}", ""])
