"""The forms over bytes and the form `run`, as a shell calls them."""
from __future__ import annotations

import json
import os
import subprocess

import pytest
from conftest import APP, COMMAND, ran

EXAMPLES = APP.parent.parent / "examples"
HEAD = b"at=10 client=7 register;\n"
MARK = bytes(8) + bytes([2, *bytes(7)])
# output waits in memory until it is flushed, as it does for people
BUFFERED = {**os.environ, "PYTHONUNBUFFERED": ""}


def script(text: bytes) -> bytes:
    status, out, errors = ran("script", given=text)
    assert (status, errors) == (0, "")
    return out


def test_a_script_is_that_of_the_example():
    """examples/first.txt has its bytes, by hand."""
    wanted = (EXAMPLES / "first.script").read_bytes()
    assert script((EXAMPLES / "first.text").read_bytes()) == wanted


def test_replies_are_those_of_the_example():
    status, out, errors = ran("replies", given=(EXAMPLES / "first.replies").read_bytes())
    lines = [json.loads(line) for line in out.splitlines()]
    assert (status, errors, len(lines)) == (0, "", 3)
    assert lines[0] == {
        "client": "7", "session": "1", "request": 0, "operation": "register", "status": "reply",
        "commit": "1", "results": [],
    }  # fmt: skip
    found = lines[2]["results"][0]
    assert (found["id"], found["ledger"], found["code"], found["timestamp"]) == ("2", 700, 10, "12")
    assert all(isinstance(found[it], int) for it in ("user_data_32", "reserved", "ledger", "code"))


def test_requests_are_its_statements():
    given = (EXAMPLES / "first.script").read_bytes()
    status, out, _ = ran("requests", given=given)
    assert (status, out.splitlines()[0]) == (0, b"at=10 client=7 register;")
    assert script(out) == given


def test_a_dump_and_its_pairs(tbs):
    given = (EXAMPLES / "first.script").read_bytes()
    made = subprocess.run([tbs, "dump", "2"], input=given, capture_output=True).stdout
    status, out, _ = ran("dump", given=made)
    lines = [json.loads(line) for line in out.splitlines()]
    assert (status, lines[0]) == (0, {"profile": 1, "clients_max": 2})
    assert [it["time"] for it in lines[1:]] == ["10", "12", "13"]
    assert [it["id"] for it in lines[3]["events"]] == ["2", "9", "1"]
    status, out, _ = ran("pairs", given=made)
    again = subprocess.run([tbs, "dump", "2"], input=out, capture_output=True).stdout
    assert (status, again) == (0, made)


WHAT = {
    "ledger": (
        b"TBJRNL02\xff\xff\xff\xff\6\0\0\0\0\0\0TBK1\1\2",
        "a ledger's file of tbd: tbd check FILE",
    ),
    "remnant": (b"TBJRN", "the remnant of a ledger's file of tbd"),
    "JSON": (b'{"id":1}\n', "JSON, which nothing here reads"),
    "text": (b"register;\n", "text: telovamish script makes a script"),
}


@pytest.mark.parametrize(
    "form, blame",
    [("requests", "no frames"), ("replies", "no frames"), ("dump", "Head"), ("pairs", "Head")],
)
@pytest.mark.parametrize("kind", [*WHAT])
def test_an_input_of_another_kind_is_reported_as_what_it_is(form, blame, kind):
    given, words = WHAT[kind]
    status, out, errors = ran(form, given=given)
    assert (status, out) == (2, b"")
    assert errors.startswith(f"telovamish: {blame}: {words}")


@pytest.mark.parametrize(
    "form, given, fault",
    [
        ("requests", bytes(8) + bytes([7]) + bytes(46), "Short"),
        ("requests", bytes(8) + bytes(48), "ClientZero"),
        ("requests", bytes(8) + bytes([7]) + bytes(47), "UnknownOperation"),
        ("dump", b"", "Head"),
        ("dump", b"TBSDUMP1" + bytes([3, 0, 0, 0, 1, 0, 0, 0]), "Head"),
        (
            "dump",
            b"TBSDUMP1" + bytes([1, 0, 0, 0, 1, 0, 0, 0]) + bytes(8) + bytes([3]) + bytes(7),
            "Mark",
        ),
        ("dump", b"TBSDUMP1" + bytes([1, 0, 0, 0, 1, 0, 0, 0]) + bytes(5), "Short"),
        ("dump", b"TBSDUMP1" + bytes([1, 0, 0, 0, 1, 0, 0, 0]) + 2 * MARK, "Mark"),
        ("dump", b"TBSDUMP1" + bytes([2, 0, 0, 0, 1, 0, 0, 0]) + MARK, "Mark"),
    ],
)
def test_faults_of_frames_and_dumps_have_their_names(form, given, fault):
    status, _, errors = ran(form, given=given)
    assert (status, errors) == (2, f"telovamish: {fault}\n")


def test_what_was_right_before_is_written():
    status, out, errors = ran("script", given=HEAD + b"wrong")
    assert (status, len(out)) == (2, 56)
    assert errors.startswith("telovamish: line 2, column 1: unknown word 'wrong'")


@pytest.mark.parametrize("form, given", [("script", HEAD), ("run", b"register;")])
def test_output_that_is_lost(tbs, form, given):
    with open("/dev/full", "wb") as full:
        it = subprocess.run(
            [COMMAND, form], input=given, stdout=full, stderr=subprocess.PIPE, env=BUFFERED
        )
    assert it.returncode == 1
    assert it.stderr == b"telovamish: Device: standard output: No space left on device\n"


@pytest.mark.parametrize("words", [["runn"], ["audit", "--to", "x"], ["script"]])
def test_a_message_that_is_lost(words):
    """It does not change the status."""
    with open("/dev/full", "wb") as full:
        it = subprocess.run([COMMAND, *words], input=b"x;", stderr=full, env=BUFFERED)
    assert it.returncode == 2


@pytest.mark.parametrize("words", [["--help"], ["run", "--help"], ["--version"]])
def test_a_page_of_usage_that_is_lost(words):
    with open("/dev/full", "wb") as full:
        it = subprocess.run([COMMAND, *words], stdout=full, stderr=subprocess.PIPE, env=BUFFERED)
    assert it.returncode == 1
    assert it.stderr == b"telovamish: Device: standard output: No space left on device\n"


@pytest.mark.parametrize("form", ["audit", "explain"])
@pytest.mark.parametrize(
    "program, said",
    [
        ("#!/bin/sh\nkill -SEGV $$\n", "tbs replay was killed by signal 11"),
        ("#!/bin/sh\nexit 7\n", "tbs replay ended with status 7"),
        ("#!/bin/sh\necho tbs: NoMemory >&2; exit 1\n", "tbs replay ended with status 1: NoMemory"),
        ("#!/bin/sh\nprintf %048d 5; cat > /dev/null\n", "tbs replay wrote what is no reply ("),
        ("\x7fELF", "Device: FILE does not start: Exec format error"),
        ("#!/nowhere\n", "Device: FILE does not start: No such file or directory"),
    ],
)
def test_a_program_that_fails_is_no_wrong_input(form, program, said, tmp_path):
    """The exit status is 1: a dump is not wrong because `tbs` failed."""
    file = tmp_path / "tbs"
    file.write_text(program)
    file.chmod(0o755)
    head = b"TBSDUMP1" + bytes([1, 0, 0, 0, 1, 0, 0, 0])
    first = bytes([1, *bytes(7), 5, *bytes(7), 7, *bytes(27), 2, *bytes(19)])
    status, _, errors = ran(form, "--tbs", str(file), given=head + first)
    assert status == 1
    assert errors.startswith(f"telovamish: {said.replace('FILE', str(file))}"), errors
    assert errors.count("\n") == 1


@pytest.mark.parametrize("closed", ["<&-", ">&-"])
def test_files_that_are_closed(closed):
    it = subprocess.run(f"{COMMAND} script {closed}", shell=True, stderr=subprocess.PIPE)
    assert it.stderr == b"telovamish: Device: standard input or output is closed\n"
    assert it.returncode == 1


# run


def served(text: str, *words: str, tbs: str, status: int = 0):
    found, out, errors = ran("run", *words, given=text.encode(), env={"TBS": tbs})
    assert found == status, errors
    return out.decode(), errors


def test_run_fills_in_and_shows_tables(tbs):
    text = "create_accounts id=1 ledger=7 code=1, id=2 ledger=7 code=1;\n"
    text += (
        "create_transfers id=11 debit_account_id=1 credit_account_id=9 amount=1 ledger=7 code=1;\n"
    )
    text += "at=1 lookup_accounts id=2, id=5;"
    out, _ = served("at=5 " + text, tbs=tbs)
    assert out.splitlines()[:2] == ["client 1 has session 1", "2 of 2 accounts created"]
    assert out.splitlines()[2:6] == [
        "index  id  result",
        "-----  --  ------------------------",
        "    0  11  credit_account_not_found",
        "0 of 1 transfer created",
    ]
    assert out.splitlines()[8].split()[-1] == "1970-01-01T00:00:00.000000007Z"
    assert out.splitlines()[9] == "1 of 2 not found: 5"


def test_run_quietly_shows_what_failed(tbs):
    text = "create_accounts id=1 ledger=7 code=1, id=0 ledger=7 code=1; lookup_accounts id=1;"
    out, _ = served(
        text + " client=3 session=9 request=1 lookup_accounts id=1;", "--quiet", tbs=tbs
    )
    assert out.splitlines()[2:] == [
        "    1   0  id_must_not_be_zero",
        "refused: no_session: the client has no session: register",
    ]


def test_a_repeat_in_json(tbs):
    text = (EXAMPLES / "retry.text").read_text()
    out, _ = served(text, "--json", "--clients-max", "2", tbs=tbs)
    marks = [json.loads(line).get("repeat", False) for line in out.splitlines()]
    assert marks == [False, False, False, True, False]


def test_each_reply_is_there_before_more_is_read(tbs):
    with subprocess.Popen(
        [COMMAND, "run", "--json"], stdin=subprocess.PIPE, stdout=subprocess.PIPE,
        env={**os.environ, "TBS": tbs},
    ) as it:  # fmt: skip
        for _ in range(3):
            it.stdin.write(b"client=1 register;\n")
            it.stdin.flush()
            assert json.loads(it.stdout.readline())["session"] == "1"


def test_run_of_files_names_the_file(tbs, tmp_path):
    first, second = tmp_path / "first", tmp_path / "second"
    first.write_text("create_accounts id=1 ledger=7 code=1;")
    second.write_text("\nlookup_accounts id=1;\nlookup_acounts id=1;")
    status, out, errors = ran("run", str(first), str(second), env={"TBS": tbs})
    assert (status, out.count(b"\n")) == (2, 5)
    assert errors.startswith(f"telovamish: {second}: line 3, column 1: unknown operation")


def test_a_late_moment_is_refused_with_its_place(tbs):
    _, errors = served(
        f"lookup_accounts id=1;\n # x\n  at={2**63} lookup_accounts id=1;", tbs=tbs, status=2
    )
    assert errors == "telovamish: TimeExhausted: line 3, column 3\n"


def test_no_session_was_written(tbs):
    out, errors = served("register; client=1 request=1 lookup_accounts id=1;", tbs=tbs)
    assert out.splitlines()[1].startswith("refused: session_too_low")
    assert errors.startswith("telovamish: no session was written, and 0 was sent")


@pytest.mark.parametrize("words", [["run"], []], ids=["run", "bare"])
@pytest.mark.parametrize(
    "text, status, out",
    [("register", 2, b""), ("register;", 0, b"client 1 has session 1\n")],
    ids=["cut", "whole"],
)
def test_a_command(tbs, words, text, status, out):
    assert ran(*words, "--command", text, env={"TBS": tbs})[:2] == (status, out)


def test_the_bare_command_reads_standard_input(tbs):
    assert ran(given=b"register;", env={"TBS": tbs})[1] == b"client 1 has session 1\n"


SHOWS = "telovamish --help shows the forms"
CLIENTS = "65: No such file or directory; --clients-max 65 sets the number of clients"


@pytest.mark.parametrize(
    "words, status, fault",
    [
        (["runn"], 2, f"runn: unknown; did you mean run? {SHOWS}"),
        (["run", "65"], 1, CLIENTS),
        (["--clients-max", "65"], 2, "Invalid value for '--clients-max': 65 is not in the range 1<=x<=64."),
        (["--profile", "0"], 2, "Invalid value for '--profile': 0 is not in the range 1<=x<=2."),
        (["--client", "x"], 2, "Invalid value for '--client': 'x' is not a valid integer range."),
        (["--file", ""], 2, "--file is empty"),
        (["--file", "a", "--connect", "b"], 2, "--file and --connect are two ledgers: give one of them"),
        (["--ca", "a"], 2, "--ca needs --connect"),
        (["--connect", "1", "--key", "a"], 2, "--key needs --certificate"),
        (["--connect", "1", "--program", "a"], 2, "--program needs a server that telovamish starts"),
        (["--connect", "1", "--profile", "2"], 2, "--profile needs a server that telovamish starts"),
        (["--books", "a", "--clients-max", "2"], 2, "--clients-max needs a server that telovamish starts"),
    ],
    ids=lambda it: " ".join(it) if isinstance(it, list) else "",
)  # fmt: skip
def test_a_wrong_word(words, status, fault):
    assert ran(*words) == (status, b"", f"telovamish: {fault}\n")


def test_the_version():
    assert ran("--version") == (0, b"telovamish 0.1.0\n", "")


def test_a_program_that_is_none(tmp_path):
    status, _, errors = ran("run", env={"TBS": str(tmp_path / "none")})
    assert (status, errors.split(":")[1]) == (1, f" {tmp_path}/none is no program")


@pytest.mark.parametrize(
    "words, fault",
    [
        (["--command", "register;", "--command", "lookup_accounts id=1;"], "--command is given 2 times: give it once"),
        (["--file", "a", "--json", "--file", "b"], "--file is given 2 times: give it once"),
        (["audit", "--account", "1", "--account", "2"], "--account is given 2 times: give it once"),
        (["audit", "--after", "-1"], "Invalid value for '--after': -1 is not in the range 0<=x<=9223372036854775807."),
        (["audit", "--tbs", ""], "--tbs is empty"),
        (["replies", "--names", ""], "--names is empty"),
        (["explain", "--tbs", ""], "--tbs is empty"),
    ],
)  # fmt: skip
def test_no_value_of_an_option_is_dropped(words, fault):
    assert ran(*words) == (2, b"", f"telovamish: {fault}\n")


@pytest.mark.parametrize(
    "words, advice",
    [
        (["script", "a"], "argument (a); script reads standard input: telovamish script < FILE\n"),
        (["audit", "a"], "argument (a); audit reads standard input: telovamish audit < FILE\n"),
        (["--json", "run"], "argument (run); a form comes before its options, and only run takes files\n"),
        (["--connect", "host:port"], "--connect: 'host:port': write a port, HOST, HOST:PORT, or a path with a slash\n"),
    ],
)  # fmt: skip
def test_a_word_too_many_and_a_wrong_address(words, advice):
    status, out, errors = ran(*words)
    assert (status, out) == (2, b"")
    assert errors.endswith(advice)


@pytest.mark.parametrize(
    "operation, items", [("lookup_accounts", "ids"), ("create_accounts", "events")]
)
def test_8191_events(tbs, operation, items):
    events = ", ".join(f"id={it}" for it in range(1, 8192))
    _, errors = served(f"{operation} {events};", tbs=tbs, status=2)
    assert f"a statement has at most 8190 {items}" in errors


def test_json_lists_the_operations(tbs):
    _, errors = served('{"id":1}', tbs=tbs, status=2)
    wanted = "create_accounts, create_transfers, lookup_accounts or lookup_transfers"
    assert "register, " in errors and errors.endswith(f"{wanted}\n")


@pytest.mark.parametrize(
    "text, said",
    [
        (b"\xef\xbb\xbfregister;", "line 1, column 1: found a byte order mark (U+FEFF): save the text as UTF-8 without it\n  <U+FEFF>register;\n  ^"),
        (b"register;\xc2\xa0register;", "line 1, column 10: found '<U+00A0>register'\n"),
        (b"register;\xe2\x80\xae", "line 1, column 10: found '<U+202E>'\n"),
        (b"x" * 70000 + b";", f"line 1, column 1: unknown word '{'x' * 60}...'\n"),
        (b"at=1" + b"9" * 5000, f"line 1, column 23: '1{'9' * 59}...' is too large for at\n"),
        (b"LOOKUP_ACCOUNTS id=1;", "line 1, column 1: unknown operation 'LOOKUP_ACCOUNTS'; did you mean lookup_accounts?\n"),
        (b"register client=1;", "line 1, column 10: 'client' comes before register, or ';' is missing before it\n"),
        (b"lookup_accounts id=1 client=1;", "line 1, column 22: ';' is missing before 'client'\n"),
        (b"session=5 register;", "line 1, column 11: a register has no session and no request\n"),
    ],
)  # fmt: skip
def test_a_fault_of_a_clumsy_text(tbs, text, said):
    status, _, errors = ran("run", given=text, env={"TBS": tbs})
    assert status == 2
    assert errors.startswith(f"telovamish: {said}"), errors


def test_a_fault_after_a_long_comment_is_reported_soon():
    """The end of the line before a fault is found in one pass: of a million bytes at once."""
    it = subprocess.run(
        [COMMAND, "script"], input=b"#" + b"y" * 10**6 + b"\nfoo", capture_output=True, timeout=30
    )
    assert it.stderr.startswith(b"telovamish: line 2, column 1: unknown word 'foo'")


def test_ctrl_c_while_the_modules_are_loaded(tmp_path):
    """A module that presses it stands in for click, which takes long to load."""
    press = "import os, signal, time\nos.kill(os.getpid(), signal.SIGINT)\ntime.sleep(9)\n"
    (tmp_path / "click.py").write_text(press)
    hears = "import os, signal, sys; signal.signal(signal.SIGINT, signal.SIG_DFL); "
    it = subprocess.run(
        ["python3", "-c", hears + "os.execv(sys.argv[1], sys.argv[1:])", COMMAND, "run"],
        env={**os.environ, "PYTHONPATH": str(tmp_path)},
        capture_output=True,
    )
    assert (it.returncode, it.stdout, it.stderr) == (130, b"", b"")
