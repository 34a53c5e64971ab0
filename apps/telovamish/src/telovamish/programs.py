"""Finds tb-sql and the proved programs: by an option, an environment variable, PATH, in a clone."""
from __future__ import annotations

import importlib
import os
import pathlib
import shutil
from typing import Any, Optional

from .faults import Device

TOPS = pathlib.Path(__file__).resolve().parents  # the repository is one of them, in a clone


def found(name: str, option: Optional[str] = None) -> Optional[str]:
    """The path of a program, or None. What is named is not replaced by another."""
    named = option or os.environ.get(name.upper())
    built = [str(top / "crates" / name / "out" / name) for top in TOPS]
    for place in [os.path.abspath(named)] if named else [name, *built]:
        if path := shutil.which(place):
            return os.path.abspath(path)
    return None


def program(name: str, option: Optional[str] = None, flag: str = "--program") -> str:
    """The path of a program. Raises Device with what to do if there is no such program."""
    path = found(name, option)
    if path:
        return path
    named = option or os.environ.get(name.upper())
    missing = f"{named} is no program" if named else f"there is no {name}"
    raise Device(
        f"{missing}: install its package, build it by `rt run -- --version` in crates/{name}, "
        f"or name it by {flag} or {name.upper()}=FILE"
    )


def books(names: Optional[str], tables: Optional[str] = None) -> Any:
    """What tb-sql adds by the options --names and --books; None without them."""
    if not (names or tables):
        return None
    try:
        return importlib.import_module("tb_sql.terminal").Books(names, tables)
    except ImportError as why:
        raise Device(f"--names and --books need tb-sql: install telovamish-books ({why})") from None
