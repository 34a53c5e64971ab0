"""A signal that comes while the command is loaded: it ends at once, without a traceback, and with
the status that it has for that signal later."""

import os
import re
import signal
import subprocess
import sys

import pytest

from helpers.tables import PACKAGE, TOP

FOLDERS = (PACKAGE / "src", TOP / "apps/telovamish/src", TOP / "clients/python/src")
PACKAGES = ":".join(map(str, FOLDERS))

# Sends this process a signal when a module is looked for.
SENDS = """
import os, runpy, signal, sys
signal.signal(signal.SIGINT, signal.default_int_handler)  # a shell's background has it ignored
class Sends:
    def find_spec(name, path=None, target=None):
        if name == {name!r}:
            os.kill(os.getpid(), {number})
sys.meta_path.insert(0, Sends)
sys.argv[1:] = {words}
"""
AS_MODULE = "runpy.run_module('tb_sql', run_name='__main__', alter_sys=True)"
AS_FILE = f"runpy.run_path({str(PACKAGE)!r} + '/tb-sql', run_name='__main__')"


def script():
    """The code of the command that an installed package has."""
    text = (PACKAGE / "pyproject.toml").read_text(encoding="utf-8")
    found = re.search(r'^tb-sql = "([\w.]+):(\w+)"$', text, re.M)
    return f"from {found[1]} import {found[2]}; sys.exit({found[2]}())"


SERVE, LOAD, CHECK = ["serve", "no.sqlite"], ["load", "no.sqlite"], ["check", "no.sqlite"]
FOLLOW = [*LOAD, "--ledger", "no.ledger", "--follow"]


@pytest.mark.parametrize(
    "code, words, name, number, status",
    [
        (script(), LOAD, "argparse", signal.SIGINT, 130),
        (AS_MODULE, CHECK, "sqlite3", signal.SIGINT, 130),
        (AS_FILE, LOAD, "sqlite3", signal.SIGINT, 130),
        (script(), LOAD, "sqlite3", signal.SIGTERM, -signal.SIGTERM),
        (script(), FOLLOW, "sqlite3", signal.SIGINT, 0),
        (AS_FILE, FOLLOW, "argparse", signal.SIGTERM, 0),
        (AS_MODULE, SERVE, "sqlite3", signal.SIGINT, 0),
        # of a module that is loaded only for pages
        (script(), SERVE, "tb_sql.pages.server", signal.SIGTERM, 0),
        (script(), SERVE, "tb_sql.pages.server", signal.SIGINT, 0),
    ],
    ids=[
        "load, SIGINT",
        "check as a module, SIGINT",
        "load of a clone, SIGINT",
        "load, SIGTERM",
        "load --follow, SIGINT",
        "load --follow of a clone, SIGTERM",
        "serve as a module, SIGINT",
        "pages, SIGTERM",
        "pages, SIGINT",
    ],
)
def test_a_signal_amid_imports(tmp_path, code, words, name, number, status):
    """The command leaves nothing."""
    text = SENDS.format(name=name, number=int(number), words=words) + code
    ran = subprocess.run(
        [sys.executable, "-c", text],
        capture_output=True,
        text=True,
        cwd=tmp_path,
        env={**os.environ, "PYTHONPATH": PACKAGES, "PYTHONDONTWRITEBYTECODE": "1"},
    )
    assert (ran.returncode, ran.stderr, os.listdir(tmp_path)) == (status, "", [])
