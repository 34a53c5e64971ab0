"""Manual pages by pandoc: heads from the table of forms, and then the pages of docs/use."""

import re
import subprocess
from dataclasses import dataclass
from pathlib import Path

from .table import ROOT, Form, Option, Program

PAGES = ROOT / "docs" / "use"
WIDTH = 72  # columns of a terminal that a table may take
# Made from a clone: these sections say nothing to whoever installed the package.
LEFT_OUT = {"In three lines", "Under systemd", "What it costs", "Measured"}
# So do blocks that build a program, with the words that introduce or explain them.
BUILDS = (
    r"(?:^[^\n]*this shows it\.[^`]*?)?^```sh\n[^`]*\brt run\b[^`]*^```\n"
    r"(?:\nThis line [^\n]*\n)?"
)


@dataclass(frozen=True)
class Format:
    """A page of section 5: what it is of."""

    name: str
    summary: str
    page: str
    sections: tuple[str, ...] = ()


FORMATS = (
    Format("telovamish-formats", "records, frames, scripts, dumps and logs", "FORMATS.md"),
    Format(
        "tbd-ledger",
        "the file that tbd keeps a ledger in",
        "TBD.md",
        ("The file", "After a crash", "What is assumed of a disk"),
    ),
    Format(
        "tb-clients",
        "which client ids are whose, for tb-listen and tb-replica",
        "LISTENER.md",
        ("Who gets in",),
    ),
)


def sections(text: str) -> list[tuple[str, str]]:
    """The sections of a page with their titles; what comes first has the title DESCRIPTION."""
    body = text.split("\n", 1)[1]
    parts = re.split(r"^## (.+)$", body, flags=re.M)
    return [("Description", parts[0])] + list(zip(parts[1::2], parts[2::2]))


def cells(row: str) -> list[str]:
    inner = row.strip().removeprefix("|").removesuffix("|")
    return [it.strip() for it in re.split(r"(?<!\\)\|", inner)]


def item(head: list[str], row: list[str]) -> str:
    """A row as an item of a list: its first cell, then each other one, named if there are more."""
    named = zip(head[1:], row[1:]) if len(head) > 2 else [("", row[1])]
    others = [f"{name}: {it}" if name else it for name, it in named if it]
    return "- " + ": ".join(it for it in (row[0], "; ".join(others)) if it) + "\n"


def listed(table: re.Match[str]) -> str:
    """A table, as a list if it is too wide for a terminal."""
    head, _, *rows = [cells(it) for it in table[0].splitlines()]
    widths = [max(map(len, column)) + 3 for column in zip(head, *rows)]
    if sum(widths) <= WIDTH:
        return table[0]
    return "".join(item(head, it) for it in rows)


def plain(text: str) -> str:
    """Markdown without pictures, comments and wide tables, and with links as their words."""
    text = re.sub(r"<!--.*?-->\n?", "", text, flags=re.S)
    text = re.sub(BUILDS, "", text, flags=re.M)
    text = re.sub(r"^!\[.*?\]\(.*?\)$", "", text, flags=re.M)
    text = re.sub(r"\[([^\]\n]*)\]\([^)\s]*\)", r"\1", text)
    text = re.sub(r"\b(?:crates/(\w+)/out/\1|apps/\w+/(telovamish|tb-\w+))\b", r"\1\2", text)
    text = re.sub(r"^(?:\|.*\n){3,}", listed, text, flags=re.M)
    return re.sub(r"^##(#+) ", r"#\1 ", text, flags=re.M)


def body(page: str, wanted: list[str]) -> str:
    """The sections of a page as those of a manual page: all, or those that are wanted."""
    found = sections((PAGES / page).read_text())
    titles = {title for title, _ in found}
    if not set(wanted) <= titles:
        raise ValueError(f"{page} has no section {' '.join(set(wanted) - titles)}")
    kept = [
        it
        for it in found
        if (not wanted or it[0] in wanted) and it[0] not in LEFT_OUT and it[1].strip()
    ]
    return "\n".join(f"# {title.upper().replace('`', '')}\n{plain(text)}" for title, text in kept)


def escaped(text: str) -> str:
    return re.sub(r"([\\`*_\[\]<>|#])", r"\\\1", text)


def option(it: Option) -> str:
    flags = ", ".join(f"**{flag}**" for flag in it.flags)
    value = f" *{it.value}*" if it.value else ""
    return f"- {flags}{value}: {escaped(' '.join(it.text.split()))}\n"


def form(name: str, it: Form) -> str:
    lines = [f"**{name}** {escaped(it.words)}\n"]
    lines += [f"{escaped(it.text)}\n"] if it.text else []
    lines += [option(o) for o in it.options]
    return "\n".join(lines)


def head(program: Program) -> str:
    """NAME, SYNOPSIS, FORMS and OPTIONS."""
    text = f"# NAME\n\n{program.name} - {program.summary}\n\n# SYNOPSIS\n\n"
    text += "\\\n".join(f"**{program.name}** {escaped(it.words)}" for it in program.forms) + "\n"
    if any(it.text or it.options for it in program.forms):
        text += "\n# FORMS\n\n" + "\n".join(form(program.name, it) for it in program.forms)
    if program.options:
        text += "\n# OPTIONS\n\n" + "\n".join(option(it) for it in program.options)
    return text + "\n"


# What pandoc writes, and what takes its place: names are not hyphenated, cells are short, JSON may
# be broken after a comma, and the first line has groff make the tables.
ROFF = (
    (r"^\.hy$", ".nh\n.ad l"),
    (r"T\{\n([^\n@.'][^\n@]*|)\nT\}", r"\1"),
    (r",(?=\\\[dq\])", r",\\:"),
    (r'\A(?:\.\\".*\n|\'.*\n)*', "'\\\\\" t\n"),
)


def roff(markdown: str, title: str, section: int, version: str, date: str) -> str:
    """A manual page in roff."""
    words = ["pandoc", "-s", "-f", "gfm-task_lists", "-t", "man", "--columns=1000"]
    given = {
        "title": title.upper(),
        "section": str(section),
        "footer": f"Telovamish {version}",
        "header": "Telovamish",
        "date": date,
    }
    words += [f"--metadata={name}={value}" for name, value in given.items()]
    ran = subprocess.run(words, input=markdown, capture_output=True, text=True, check=True)
    text = ran.stdout
    for pattern, replacement in ROFF:
        text = re.sub(pattern, replacement, text, flags=re.M)
    return text


def of_program(program: Program, version: str, date: str) -> str:
    if program.same_as:
        return f".so man1/{program.same_as}.1\n"
    text = head(program) + body(program.page, program.sections)
    text += "\n# SEE ALSO\n\n" + ", ".join(program.see) + "\n"
    text += f"\nThe pages of /usr/share/doc/telovamish/docs; this one is of use/{program.page}.\n"
    return roff(text, program.name, 1, version, date)


def of_format(it: Format, version: str, date: str) -> str:
    text = f"# NAME\n\n{it.name} - {it.summary}\n\n{body(it.page, list(it.sections))}"
    return roff(text, it.name, 5, version, date)


def write(
    programs: dict[str, Program], folder: Path, version: str, date: str
) -> dict[str, list[str]]:
    """Writes all manual pages to a folder. Their names, by program or format."""
    folder.mkdir(parents=True, exist_ok=True)
    for program in programs.values():
        (folder / f"{program.name}.1").write_text(of_program(program, version, date))
    for it in FORMATS:
        (folder / f"{it.name}.5").write_text(of_format(it, version, date))
    return {"1": list(programs), "5": [it.name for it in FORMATS]}
