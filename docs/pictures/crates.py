#!/usr/bin/env python3
"""Prints the graph of the product's crates from crates.txt, for Graphviz: a colour for each
section, and an arrow to each crate that one is built on directly. It draws no crate of tests."""
import pathlib
import re

COLOURS = {
    "Core": ("#d7e6f7", "#3572b0"),
    "Caller": ("#e4dcf5", "#6b4fa3"),
    "File": ("#dcefdc", "#3d8b45"),
    "Log": ("#f7f0c6", "#98850f"),
    "Edge": ("#eceff2", "#6a737d"),
    "Programs": ("#fbe7cf", "#b3701a"),
}


def sections() -> dict[str, dict[str, set[str]]]:
    """The sections before that of tests: the crates of each, with those that their lines name."""
    text = (pathlib.Path(__file__).parents[2] / "crates.txt").read_text().partition("\n# Tests")[0]
    found: dict[str, dict[str, set[str]]] = {}
    for heading, lines in re.findall(r"^# (\w+).*\n((?:[^#\n].*\n)+)", text, re.M):
        named = [it.partition(":") for it in lines.splitlines()]
        found[heading] = {head.split()[0]: set(below.split()) for head, _, below in named}
    return found


def reached(crates: dict[str, set[str]], name: str) -> set[str]:
    """The crates below one, itself left out."""
    return set().union(*({it} | reached(crates, it) for it in crates[name]))


def main() -> None:
    by_section = sections()
    named: dict[str, set[str]] = {}
    for rows in by_section.values():
        named |= rows
    crates = {name: below & named.keys() for name, below in named.items()}
    print("digraph crates {")
    print('    graph [rankdir=BT, nodesep=0.2, ranksep=0.45, fontname="DejaVu Sans"]')
    print('    node [shape=box, style="rounded,filled", fontname="DejaVu Sans", fontsize=11]')
    print('    edge [color="#59636e", arrowsize=0.7, dir=back]')
    for section, rows in by_section.items():
        fill, line = COLOURS[section]
        for name in rows:
            print(f'    {name} [fillcolor="{fill}", color="{line}"]')
    for name, below in crates.items():
        direct = {it for it in below if not any(it in reached(crates, one) for one in below)}
        for it in sorted(direct):
            print(f"    {it} -> {name}")
    print("}")


if __name__ == "__main__":
    main()
