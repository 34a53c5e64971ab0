"""The page docs/use/TELOVAMISH.md: its examples."""
from __future__ import annotations

import json
import os
import re
import shutil
import subprocess

import pytest
from conftest import APP, COMMAND, ran

EXAMPLES = APP.parent.parent / "examples"

PAGE = (APP.parent.parent / "docs" / "use" / "TELOVAMISH.md").read_text()
BLOCKS = re.findall(r"```(\w+)\n(.*?)```", PAGE, re.S)


def blocks(kind: str, begins: str) -> str:
    (found,) = [text for name, text in BLOCKS if name == kind and text.startswith(begins)]
    return found


def without_dates(text: str) -> str:
    return re.sub(r"\d{4}-\d\d-\d\dT[0-9:.]+Z", "DATE", text)


def test_the_first_statements(tbs):
    text = blocks("text", "at=10 client=7 register;").encode()
    _, out, _ = ran("run", "--clients-max", "2", given=text, env={"TBS": tbs})
    assert b"2 of 2 accounts created\n1 of 1 transfer created\n" in out
    assert out.endswith(b"1 of 3 not found: 9\n")


def test_the_conversation(tbs):
    """What is typed there, served as a text, shows what is shown there."""
    lines = blocks("console", "$ telovamish\n").splitlines()[2:]
    typed = "\n".join(it[2:] for it in lines if it.startswith(("> ", ". ")))
    shown = "\n".join(it for it in lines if not it.startswith(("> ", ". "))) + "\n"
    _, out, _ = ran("run", given=typed.encode(), env={"TBS": tbs})
    assert without_dates(out.decode()) == without_dates(shown)


def test_the_fault():
    wanted = blocks("text", "telovamish: line 1, column 20")
    text = wanted.splitlines()[1].strip()
    assert ran("script", given=text.encode())[2] == wanted


def shell(line: str, folder, tbs: str) -> str:
    """What a shell prints for a line, in which `telovamish` and `tbs` are these programs."""
    for name, path in (
        ("telovamish", COMMAND),
        ("tbs", tbs),
        ("apps/telovamish/telovamish", COMMAND),
    ):
        link = folder / name
        link.parent.mkdir(parents=True, exist_ok=True)
        link.unlink(missing_ok=True)
        link.symlink_to(path)
    env = {**os.environ, "PATH": f"{folder}:{os.environ['PATH']}", "TBS": tbs}
    it = subprocess.run(line, shell=True, cwd=folder, env=env, capture_output=True)
    assert (it.returncode, it.stderr) == (0, b""), it
    return it.stdout.decode("latin-1")


@pytest.fixture
def folder(tmp_path, tbs):
    """A folder with the files that the page names."""
    head = "client=7 session=1 request"
    text = f"client=7 register;\n{head}=1 create_accounts id=1 ledger=7 code=1;\n"
    (tmp_path / "a.text").write_text(text)
    (tmp_path / "more.text").write_text(f"{head}=2 lookup_accounts id=1;\n")
    shutil.copy(EXAMPLES / "first.text", tmp_path)
    script = ran("script", given=text.encode())[1]
    (tmp_path / "a.script").write_bytes(script)
    first = (EXAMPLES / "first.script").read_bytes()
    dumps = [
        subprocess.run([tbs, "dump", "2"], input=it, capture_output=True).stdout
        for it in (script, first)
    ]
    (tmp_path / "a.dump").write_bytes(dumps[0])
    (tmp_path / "wrong.dump").write_bytes(dumps[1][:400] + b"\4" + dumps[1][401:])
    return tmp_path


def test_the_first_command(folder, tbs):
    out = shell(blocks("sh", "apps/telovamish"), folder, tbs)
    assert out == "client 1 has session 1\n1 of 1 account created\n"


def test_the_lines_with_pipes(folder, tbs):
    served, audited, longer = blocks("sh", "telovamish script <").splitlines()
    commits = [json.loads(it)["commit"] for it in shell(served, folder, tbs).splitlines()]
    assert commits == ["1", "2"]
    assert '"utc":"1970-01-01T' in shell(audited, folder, tbs)
    assert len(shell(longer, folder, tbs)) == 3 * 48 + 128  # three replies, with an account


def test_the_explanations(folder, tbs):
    lines = blocks("console", "$ telovamish explain").splitlines(keepends=True)
    printed = "".join(shell(it[2:], folder, tbs) for it in lines if it.startswith("$ "))
    assert printed == "".join(it for it in lines if not it.startswith("$ "))


def test_the_reply_in_json(tbs):
    text = "register; create_accounts id=1 ledger=7 code=1, id=2 ledger=7 code=1;"
    text += "create_transfers id=1 debit_account_id=1 credit_account_id=2 amount=1 ledger=7 code=1;"
    words = ["run", "--json", "--client", "7", "--program", tbs]
    out = ran(*words, given=text.encode())[1].decode()
    assert out.splitlines()[2] + "\n" == blocks("json", "{")
