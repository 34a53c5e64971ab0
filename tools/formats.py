#!/usr/bin/python3
"""The layout of the sources in C, Java, JavaScript and Rust: names the files whose layout is
another one, or writes them anew.

    tools/formats.py [--write] [C] [Java] [JavaScript] [Rust]

By Debian's clang-format (.clang-format), jsbeautifier (its options are here) and rustfmt
(.rustfmt.toml). jsbeautifier leaves the ends of lines: one that is too long is named too. Ends in
'N files, M differ'. Status 1 where one differs.
"""

import argparse
import subprocess
import sys
from collections.abc import Callable
from pathlib import Path

ROOT = Path(__file__).resolve().parent.parent
WIDTH = 100


def piped(*words: str) -> Callable[[str, str], str]:
    """What a command makes of the text of a file. {} is the file's path."""

    def made(path: str, text: str) -> str:
        listed = [it.replace("{}", path) for it in words]
        ran = subprocess.run(
            listed, input=text, capture_output=True, text=True, cwd=ROOT, check=False
        )
        if ran.returncode:
            raise ValueError(f"{path}: {ran.stderr.strip()}")
        return ran.stdout

    return made


def beautified(_: str, text: str) -> str:
    import jsbeautifier

    options = jsbeautifier.default_options()
    options.indent_size, options.max_preserve_newlines = 2, 2
    options.brace_style, options.operator_position = "collapse,preserve-inline", "preserve-newline"
    options.keep_array_indentation = options.end_with_newline = True
    return str(jsbeautifier.beautify(text, options))


clang = piped("clang-format", "--assume-filename={}")
FORMATS: dict[str, tuple[list[str], Callable[[str, str], str]]] = {
    "C": (["*.c", "*.h"], clang),
    "Java": (["*.java"], clang),
    "JavaScript": (["*.js"], beautified),
    "Rust": (["*.rs"], piped("rustfmt")),
}


def files(patterns: list[str]) -> list[str]:
    """The tracked files with such names."""
    words = ["git", "ls-files", "--", *patterns]
    return subprocess.run(
        words, capture_output=True, text=True, cwd=ROOT, check=True
    ).stdout.split()


def too_long(text: str) -> list[int]:
    """The lines that have more columns than fit."""
    return [place for place, line in enumerate(text.splitlines(), 1) if len(line) > WIDTH]


def differs(language: str, path: str, write: bool) -> bool:
    """Whether a file has another layout, which is reported, or otherwise written."""
    text = (ROOT / path).read_text()
    wanted = FORMATS[language][1](path, text)
    if write and text != wanted:
        (ROOT / path).write_text(wanted)
        print(f"written: {path}")
        text = wanted
    long = too_long(text) if language == "JavaScript" else []
    if long:
        print(f"{path}: more than {WIDTH} columns in lines {' '.join(map(str, long))}")
    if text != wanted:
        print(f"{path}: another layout")
    return bool(long) or text != wanted


def main() -> int:
    parser = argparse.ArgumentParser(description=str(__doc__).split("\n\n", maxsplit=1)[0])
    parser.add_argument("languages", nargs="*", choices=[[], *FORMATS], metavar="LANGUAGE")
    parser.add_argument("--write", action="store_true", help="format the files")
    given = parser.parse_args()
    rows = [(it, path) for it in given.languages or FORMATS for path in files(FORMATS[it][0])]
    wrong = sum(differs(language, path, given.write) for language, path in rows)
    print(f"{len(rows)} files, {wrong} differ")
    return 1 if wrong or not rows else 0


if __name__ == "__main__":
    sys.exit(main())
