#!/usr/bin/env python3
"""The one table of operations, statuses, faults, flags, result codes, layouts, limits and orders
of tests: tools/ledger.json.

    tools/tables.py                     compares what is generated from it, and the Rattle sources
    tools/tables.py --write             generates it again
    tools/tables.py --show two-party-tests
    tools/tables.py --try               changes each list in turn, and sees each comparison fail

Generated are files, and parts of files between two marks: a line with `generated: NAME, by
tools/tables.py`, and one with `end of NAME`. Pages may have such marks too: --show has the names.
Prints a line for each difference, and 'N compared, M differ'. Status 1 where something differs.
Not generated, and witnesses of their own: the servers of bench/, and name_tests of tb_records.
"""
import copy
import functools
import glob
import os
import re
import sys

import formats
import tried

sys.dont_write_bytecode = True
sys.path.insert(0, os.path.dirname(os.path.abspath(__file__)))

from tabled import (  # noqa: E402
    c,
    compared,
    go,
    java,
    markdown,
    node,
    python,
    rattle,
    rust,
    table as t,
)  # noqa: E402

BEGIN = r"^[^\n]*generated: ([\w-]+), by tools/tables\.py[^\n]*\n"
PART = re.compile(BEGIN + r"(.*?)(?=^[^\n]*end of \1\b[^\n]*$)", re.M | re.S)
PAGES = ("*.md", "docs/**/*.md", "clients/**/*.md", "crates/*/*.md", "embed/**/*.md")
JAVA = "clients/java/src/main/java/org/telovamish/tbclient"
PYTHON = "clients/python/src/tb_client"
COMMAND = "apps/telovamish/src/telovamish"


def in_parts(table):
    """The files with parts that are generated: the path, and the text of each part."""
    header = "clients/embed/tb_embed.h"
    yield header, {name: laid_out(header, text) for name, text in c.parts(table).items()}
    yield "clients/embed/rust/tb_embed.rs", rust.parts(table)
    yield "clients/embed/python/tb_embed.py", python.embedded(table)
    yield f"{PYTHON}/names.py", python.names(table)
    yield f"{PYTHON}/records.py", python.records(table)


def whole(table, top):
    """The files that are generated whole. Those of a missing client are skipped."""
    yield f"{PYTHON}/layout.py", python.layout(table)
    yield f"{COMMAND}/words.json", python.words(table)
    if os.path.isdir(f"{top}/clients/go"):
        yield "clients/go/names.go", go.whole(table)
    if os.path.isdir(f"{top}/server"):
        yield "server/internal/frames/layout.go", go.frames(table)
    if os.path.isdir(f"{top}/clients/java"):
        for name, text in java.files(table).items():
            yield f"{JAVA}/{name}", laid_out(f"{JAVA}/{name}", text)
    if os.path.isdir(f"{top}/clients/node"):
        yield "clients/node/names.js", node.module(table)
        yield "clients/node/names.d.ts", node.types(table)


@functools.cache
def laid_out(path, text):
    """The text in the layout of .clang-format."""
    return formats.clang(path, text)


def read(path):
    try:
        with open(path, encoding="utf-8") as it:
            return it.read()
    except FileNotFoundError:
        return ""


def filled(text, parts):
    """The text with its parts in place, the names of the parts that it has, and of those that
    nothing makes."""
    found, unknown = [], []

    def part(match):
        name = match[1]
        (found if name in parts else unknown).append(name)
        begins = match[0][: len(match[0]) - len(match[2])]
        return begins + parts[name] if name in parts else match[0]

    return PART.sub(part, text), found, unknown


def pages(top):
    """The pages that have a mark."""
    paths = {path for pattern in PAGES for path in glob.glob(f"{top}/{pattern}", recursive=True)}
    return sorted(
        os.path.relpath(path, top) for path in paths if re.search(BEGIN, read(path), re.M)
    )


def generated(table, top=t.TOP):
    """Each file: its path, its text as it is, its text as it is to be, and what is wrong with its
    marks."""
    for path, parts in in_parts(table):
        text = read(f"{top}/{path}")
        wanted, found, unknown = filled(text, parts)
        missing = [name for name in parts if name not in found]
        yield path, text, wanted, [f"has no mark of {it}" for it in missing] + unknown_marks(
            unknown
        )
    for path in pages(top):
        text = read(f"{top}/{path}")
        wanted, _, unknown = filled(text, markdown.pages(table))
        yield path, text, wanted, unknown_marks(unknown)
    for path, wanted in whole(table, top):
        yield path, read(f"{top}/{path}"), wanted, []


def unknown_marks(names):
    return [f"has a mark of {name}, which nothing makes" for name in names]


def first_difference(text, wanted):
    lines, others = text.splitlines(), wanted.splitlines()
    for number, line in enumerate(others, 1):
        if number > len(lines) or lines[number - 1] != line:
            return f"line {number} is to be: {line.strip()[:90]}"
    return f"ends at line {len(others)}"


def differences(table, top=t.TOP, known=None):
    """What is compared, each with what differs or nothing. `known` keeps what the other sides have,
    which no table changes."""
    for path, text, wanted, faults in generated(table, top):
        said = "; ".join(faults + ([first_difference(text, wanted)] if text != wanted else []))
        yield path, said
    for what, wanted, got in compared.comparisons(table, rattle.Sources(top)):
        try:
            found = known[what] if known and what in known else got()
            yield what, "" if found == wanted else said_of(wanted, found)
        except rattle.Missing as missing:
            yield what, str(missing)


def other_sides(table, top=t.TOP):
    """What the Rattle sources and the clients have, by the comparison."""
    inside = {what for what, _, _ in compared.consistent(table)}
    rows = compared.comparisons(table, rattle.Sources(top))
    return {what: got() for what, _, got in rows if what not in inside}


def said_of(wanted, found):
    if isinstance(wanted, dict) and isinstance(found, dict):
        keys = [key for key in {**wanted, **found} if wanted.get(key) != found.get(key)]
        return "; ".join(
            f"{key} is {found.get(key)}, and {wanted.get(key)} in the table" for key in keys[:4]
        )
    if isinstance(wanted, list) and isinstance(found, list):
        for place, (one, other) in enumerate(zip(wanted, found)):
            if one != other:
                return f"row {place + 1} is {other}, and {one} in the table"
        return f"{len(found)} rows, and {len(wanted)} in the table"
    return f"{found}, and {wanted} in the table"


def write(table, top=t.TOP):
    wrong = 0
    for path, text, wanted, faults in generated(table, top):
        for fault in faults:
            print(f"{path} {fault}")
        wrong += len(faults)
        if text != wanted:
            os.makedirs(os.path.dirname(f"{top}/{path}"), exist_ok=True)
            with open(f"{top}/{path}", "w", encoding="utf-8") as it:
                it.write(wanted)
            print(f"written: {path}")
    return 1 if wrong else 0


def compare(table):
    count = wrong = 0
    for what, said in differences(table):
        count, wrong = count + 1, wrong + bool(said)
        if said:
            print(f"FAILED: {what}: {said}")
    print(f"{count} compared, {wrong} differ")
    return 1 if wrong else 0


# Whether each comparison can fail

PROSE = ("says", "holds", "unit", "type", "group", "executed")
IN_ORDER = (
    "operations",
    "statuses",
    "classes",
    "frame_tests",
    "account_flags",
    "transfer_flags",
    "account_results",
    "transfer_results",
    "account_tests",
    "transfer_tests",
    "failed_for_good",
)


def changes(table):
    """The table with one thing changed: what was changed, and the table."""
    for name, listed in table.items():
        if not isinstance(listed, list):
            continue
        for place in range(len(listed)):
            yield from changed_rows(table, name, place)
        for what, place in ends(listed):
            shorter = copy.deepcopy(table)
            del shorter[name][place]
            yield f"{name} without {what}", shorter
        if name in IN_ORDER:
            swapped = copy.deepcopy(table)
            swapped[name][3], swapped[name][4] = swapped[name][4], swapped[name][3]
            yield f"{name} in another order", swapped


def ends(listed):
    """The last row of a list, and the first one of each group that it has."""
    yield "its last row", len(listed) - 1
    groups = [row.get("group") for row in listed if isinstance(row, dict)]
    for group in dict.fromkeys(filter(None, groups)):
        yield f"the first row of {group}", groups.index(group)


def changed_rows(table, name, place):
    """One row changed: each of its numbers and names, and of a layout each field."""
    row = table[name][place]
    if isinstance(row, str):
        yield f"{name}[{place}]", put(table, (name, place), f"{row}_changed")
        return
    for key, value in row.items():
        if key == "fields":
            for at, field in enumerate(value):
                path = (name, place, key, at)
                yield f"{name}[{place}] {field['name']}.at", put(
                    table, (*path, "at"), field["at"] + 1
                )
                if field["name"]:
                    yield f"{name}[{place}] {field['name']}.name", put(
                        table, (*path, "name"), f"{field['name']}_x"
                    )
        elif key in PROSE or value is None or name == "frame_tests" and key != "name":
            continue
        elif isinstance(value, int):
            yield f"{name}[{place}].{key}", put(table, (name, place, key), value + 1)
        elif key in ("request", "reply"):
            yield f"{name}[{place}].{key}", put(
                table, (name, place, key), "result" if value != "result" else "id"
            )
        else:
            yield f"{name}[{place}].{key}", put(table, (name, place, key), f"{value}X")


def put(table, path, value):
    """A copy of the table with another value at a place."""
    changed = copy.deepcopy(table)
    it = changed
    for key in path[:-1]:
        it = it[key]
    it[path[-1]] = value
    return changed


def try_each(table):
    """Sees that each comparison fails for some change of the table, and that for each change some
    comparison fails."""
    known, wanted = other_sides(table), {what for what, _ in differences(table)}
    met, unseen, tried = set(), [], 0
    for what, changed in changes(table):
        tried += 1
        try:
            failed = {name for name, said in differences(changed, known=known) if said}
        except (
            KeyError,
            ValueError,
            StopIteration,
        ) as error:  # nothing can be made of such a table
            failed = {type(error).__name__}
        met |= failed
        if not failed:
            unseen.append(what)
    for name in sorted(wanted - met):
        print(f"FAILED: {name} fails for no change of the table")
    for what in unseen:
        print(f"FAILED: no comparison fails for another {what}")
    print(
        f"{tried} changes, {len(unseen)} unseen; {len(wanted & met)} of {len(wanted)}"
        f" comparisons fail for one of them"
    )
    return 1 if wanted - met or unseen else 0


def main():
    parser = tried.arguments(__doc__)
    one = parser.add_mutually_exclusive_group()
    one.add_argument("--write", action="store_true", help="generate again")
    one.add_argument(
        "--show",
        metavar="NAME",
        nargs="?",
        const="",
        help="print a table of pages, or the names of all",
    )
    one.add_argument(
        "--try", action="store_true", dest="tries", help="see each comparison fail once"
    )
    given = parser.parse_args()
    try:
        table = t.load()
    except (OSError, ValueError) as error:
        parser.error(f"{t.PATH}: {error}")
    if given.show is not None:
        shown = markdown.pages(table)
        if given.show and given.show not in shown:
            parser.error(f"no table is {given.show}: one of {', '.join(shown)}")
        print(shown[given.show] if given.show else "\n".join(shown), end="" if given.show else "\n")
        return 0
    return write(table) if given.write else try_each(table) if given.tries else compare(table)


if __name__ == "__main__":
    tried.main(main)
