"""Ledgers in files and over connections."""
from __future__ import annotations

import os
import pathlib
import shutil
import signal
import socket
import subprocess
import time

import pytest
from conftest import COMMAND, ran
from listeners import UPPER, certificates_in, listening

from telovamish import ledgers
from telovamish.faults import Device, Fault
from telovamish.ledgers import Start, head_of, is_missing, of_file, over

ACCOUNT = "create_accounts id=1 ledger=7 code=1;"


@pytest.fixture(scope="module")
def paths(tmp_path_factory):
    if not shutil.which("openssl"):
        pytest.fail("openssl is not installed")
    return certificates_in(tmp_path_factory.mktemp("certificates"))


def test_a_ledger_in_a_file_stays(env, tmp_path):
    words = ["run", "--file", str(tmp_path / "a.tbk"), "--client", "7", "--command"]
    status, out, _ = ran(*words, ACCOUNT, env=env)
    assert (status, out) == (0, b"client 7 has session 1\n1 of 1 account created\n")
    again = f"client=7 session=1 request=1 {ACCOUNT} client=7 session=1 lookup_accounts id=1;"
    status, out, _ = ran(*words, again, env=env)
    assert (status, b"700" in out or b"   7 " in out) == (0, True)


# programs that never report that they have read the ledger: they write their process's number


def never_ready(folder: pathlib.Path, does: str, name: str = "tbd") -> str:
    path = folder / name
    path.write_text(f"#!/bin/sh\necho $$ > {folder}/started\n{does}\n")
    path.chmod(0o755)
    return str(path)


def until_gone(folder: pathlib.Path) -> None:
    number, end = (folder / "started").read_text().strip(), time.monotonic() + 20
    while pathlib.Path(f"/proc/{number}").exists():
        assert time.monotonic() < end
        time.sleep(0.02)


@pytest.mark.parametrize("does", ["sleep 600", "exec yes >&2"])
def test_a_program_that_is_never_ready(tmp_path, monkeypatch, does):
    """It is waited for as long as it has news, and ended then, with what it started."""
    monkeypatch.setattr(ledgers, "QUIET", 0.5)
    path, file, began = never_ready(tmp_path, does), str(tmp_path / "a.tbk"), time.monotonic()
    with pytest.raises(Device) as why:
        of_file(file, path, Start(), lambda _: None)
    said = f"{path} reported nothing for 0.5 seconds before it had read {file}, and was killed"
    assert (str(why.value), why.value.status) == (f"NotReady: {said}", 1)
    assert time.monotonic() - began < 20
    until_gone(tmp_path)


def test_a_program_with_news_is_waited_for(tmp_path, monkeypatch):
    monkeypatch.setattr(ledgers, "QUIET", 2.0)
    news = "for it in 1 2 3 4 5 6; do echo tbd: reading a.tbk, $it of 6 MB >&2; sleep 0.7; done"
    path = never_ready(tmp_path, f"{news}; echo tbd: ready >&2; exec cat > /dev/null")
    shown: list[str] = []
    of_file(str(tmp_path / "a.tbk"), path, Start(), shown.append).close()
    assert "reading a.tbk, 6 of 6 MB" in shown


def begun(*words: str) -> subprocess.Popen[bytes]:
    return subprocess.Popen(
        [COMMAND, "run", *words],
        stdin=subprocess.DEVNULL,
        stderr=subprocess.PIPE,
        preexec_fn=lambda: signal.signal(signal.SIGINT, signal.default_int_handler),
    )


def test_ctrl_c_while_a_program_is_not_ready(tmp_path):
    program = never_ready(tmp_path, "sleep 600")
    interrupt(begun("--file", str(tmp_path / "a.tbk"), "--program", program), tmp_path)


def interrupt(it: subprocess.Popen[bytes], folder: pathlib.Path) -> None:
    """The command ends at once, and its program too."""
    end = time.monotonic() + 20
    while not (folder / "started").exists() and time.monotonic() < end:
        time.sleep(0.02)
    time.sleep(0.1)
    began = time.monotonic()
    os.kill(it.pid, signal.SIGINT)
    assert it.communicate(timeout=20) == (None, b"\n")
    assert (it.returncode, time.monotonic() - began < 4) == (130, True)
    until_gone(folder)


def test_ctrl_c_while_a_program_does_not_reply(tmp_path):
    """A program in memory is not waited for: it may not look at its input."""
    it = begun("--command", "register;", "--program", never_ready(tmp_path, "sleep 600", "tbs"))
    interrupt(it, tmp_path)


# what a start did to the file

MADE = "tbd: made a.tbk"
COPIED = "tbd: copied 7 bytes, from byte 307 on, 0 whole entries, to a.tbk.cut-307-b79f836b"
CUT = "tbd: cut 7 bytes of a batch that was not committed, after byte 303"


@pytest.mark.parametrize(
    "said, reported",
    [
        pytest.param([MADE], ["made a.tbk, a new and empty ledger"], id="made"),
        pytest.param([COPIED, CUT], [COPIED[5:], CUT[5:]], id="copied-and-cut"),
        pytest.param(["tbd: reading a.tbk, 1 of 6 MB"], [], id="progress"),
    ],
)
def test_what_a_start_did_is_reported(tmp_path, capsys, said, reported):
    echoes = "; ".join(f"echo '{it}' >&2" for it in [*said, "tbd: ready: commit 0, time 0"])
    path = never_ready(tmp_path, f"{echoes}; exec cat > /dev/null")
    of_file(str(tmp_path / "a.tbk"), path, Start(), lambda _: None).close()
    assert capsys.readouterr().err == "".join(f"telovamish: {it}\n" for it in reported)


def test_torn_bytes_are_reported(env, tmp_path):
    file = tmp_path / "a.tbk"
    words = ["run", "--file", str(file), "--command", ACCOUNT]
    ran(*words, env=env)
    with open(file, "ab") as it:
        it.write(b"torn")
    status, _, errors = ran(*words, env=env)
    assert (status, errors.count("\n")) == (0, 2)
    assert errors.startswith("telovamish: copied 4 bytes, from byte ")
    assert "\ntelovamish: cut 4 bytes of a batch that was not committed, after byte " in errors


@pytest.mark.parametrize("options, is_made", [([], True), (["--existing"], False)])
def test_a_mistyped_name(env, tmp_path, options, is_made):
    """A script is not asked whether a new ledger is meant, but it is said."""
    file = tmp_path / "pays.tbk"
    status, out, errors = ran("run", "--file", str(file), *options, "--command", ACCOUNT, env=env)
    assert file.exists() == is_made
    if is_made:
        assert (status, errors) == (0, f"telovamish: made {file}, a new and empty ledger\n")
    else:
        said = f"telovamish: Device: cannot find {file}; look at its name and at its folder\n"
        assert (status, out, errors) == (1, b"", said)


@pytest.mark.parametrize(
    "data, missing",
    [
        pytest.param(None, True, id="no-file"),
        pytest.param(b"", True, id="empty"),
        pytest.param(b"TBJRN", True, id="remnant"),
        pytest.param(b"TBJRNL02" + bytes(20), False, id="ledger"),
        pytest.param(b"money", False, id="another"),
    ],
)
def test_what_a_new_ledger_would_be_made_in(tmp_path, data, missing):
    file = tmp_path / "a.tbk"
    if data is not None:
        file.write_bytes(data)
    assert is_missing(str(file)) == missing


# moments over a file

HOLD = """create_accounts id=1 ledger=7 code=1, id=2 ledger=7 code=1;
create_transfers id=1 debit_account_id=1 credit_account_id=2 amount=5 ledger=7 code=1
    flags=pending timeout=2592000;"""  # of 30 days
POST = "create_transfers id=2 pending_id=1 amount=amount_max flags=post_pending_transfer;"
FAR = "at=2062-01-01 lookup_accounts id=1;"


@pytest.fixture
def held(env, tmp_path):
    """A ledger with a hold of 30 days; runs a text over it."""

    def run(text, *options):
        return ran("run", "--file", str(tmp_path / "a.tbk"), *options, "--command", text, env=env)

    assert run(HOLD)[0] == 0
    return run


def test_a_date_before_a_lookup_does_not_move_the_time(held):
    status, out, errors = held(FAR)
    assert (status, out) == (2, b"")
    assert errors.startswith("telovamish: line 1, column 1: at= is 35 years ahead of this ")
    assert "--ahead SECONDS allows it" in errors
    assert b"1 of 1 transfer created" in held(POST)[1]


def test_a_moment_far_ahead_that_is_allowed(held):
    """It is said what it does; the hold expires, and each start says that the time is ahead."""
    status, out, errors = held(FAR, "--ahead", "2000000000")
    assert (status, b"2062" in out) == (0, False)
    assert errors.startswith("telovamish: at= moves the ledger's time to 2062-01-01T00:00:00.")
    status, out, errors = held(POST)
    assert b"pending_transfer_expired" in out
    assert "is at 2062-01-01T00:00:00.000000000Z, 35 years ahead of this computer's " in errors


@pytest.mark.parametrize("seconds, status", [(50, 0), (90, 2)])
def test_a_minute_ahead_is_allowed(held, seconds, status):
    assert held(f"at={time.time_ns() + seconds * 10**9} lookup_accounts id=1;")[0] == status


def test_a_ledger_whose_time_is_ahead_is_made_again(held, env, tbd, tmp_path):
    """As docs/use/OPERATING.md has it: the same entries, no moment of them later."""
    before = time.strftime("%Y-%m-%dT%H:%M:%SZ", time.gmtime(time.time() + 1))
    held(FAR, "--ahead", "2000000000")
    dump = subprocess.run([tbd, "dump", str(tmp_path / "a.tbk")], capture_output=True).stdout
    script = ran("pairs", "--latest", before, given=dump)[1]
    new = str(tmp_path / "new.tbk")
    subprocess.run([tbd, "run", new, "64"], input=script, capture_output=True, check=True)
    again = subprocess.run([tbd, "dump", new], capture_output=True).stdout
    assert len(again) == len(dump)
    status, out, _ = ran("run", "--file", new, "--existing", "--command", POST, env=env)
    assert b"1 of 1 transfer created" in out


def test_a_client_whose_session_is_not_known(env, tmp_path):
    words = ["run", "--file", str(tmp_path / "a.tbk"), "--client", "7", "--command", ACCOUNT]
    ran(*words, env=env)
    status, out, errors = ran(*words, env=env)
    assert (status, out[:14]) == (0, b"refused: older")
    assert errors.startswith("telovamish: client 7 has a session that is not known here")


def test_a_file_has_its_own_numbers(env, tmp_path):
    file = str(tmp_path / "a.tbk")
    ran(
        "run", "--file", file, "--clients-max", "3", "--profile", "2", "--command", ACCOUNT, env=env
    )
    assert head_of(file) == (3, 2)
    assert ran("run", "--file", file, "--command", "register;", env=env)[0] == 0
    status, _, errors = ran(
        "run", "--file", file, "--clients-max", "4", "--command", ACCOUNT, env=env
    )
    assert (status, "OtherRules" in errors, "CLIENTS_MAX 3" in errors) == (1, True, True)


@pytest.mark.parametrize(
    "data, said", [(b"hello\n", "NotAJournal"), (b"TBF1" + bytes(40), "NotAJournal")]
)
def test_a_file_of_another_kind(env, tmp_path, data, said):
    file = tmp_path / "a.tbk"
    file.write_bytes(data)
    status, _, errors = ran("run", "--file", str(file), "--command", ACCOUNT, env=env)
    assert (status, said in errors) == (1, True)
    assert file.read_bytes() == data


# connections


@pytest.mark.parametrize(
    "text, places",
    [
        ("3999", [("127.0.0.1", 3999)]),
        ("ledger.example:3999, :4000", [("ledger.example", 3999), ("127.0.0.1", 4000)]),
        ("[::1]:3999", [("::1", 3999)]),
        ("run/ledger.sock", ["run/ledger.sock"]),
        ("a/b:7", ["a/b:7"]),
        ("ledger.sock", [("ledger.sock", 3001)]),  # only a host
    ],
)
def test_an_address(text, places):
    assert [*over(text, None).places] == places


@pytest.mark.parametrize("wrong", ["70000", "a:b:7"])
def test_a_wrong_address(wrong):
    with pytest.raises(Fault, match="^--connect: "):
        over(wrong, None)


def test_a_port_is_an_address(env, tmp_path):
    with listening(env["TBD"], tmp_path) as port:
        status, out, errors = ran("run", "--connect", port, "--client", "7", "--command", ACCOUNT)
        assert (status, out, errors) == (0, b"client 7 has session 1\n1 of 1 account created\n", "")
        text = f"client=7 session=1 request=1 {ACCOUNT} client=7 session=1 request=1 {ACCOUNT}"
        _, out, errors = ran("run", "--connect", port, "--client", "7", "--command", text)
        # of the first one nothing is known, and nothing is claimed
        assert out.splitlines() == [
            b"1 of 1 account created",
            b"first reply again (commit 2): nothing was executed",
        ]
        _, out, errors = ran("run", "--connect", port, "--command", "at=5 lookup_accounts id=1;")
        assert (
            errors == "telovamish: at= has no effect over a connection: moments are the server's\n"
        )


def test_nobody_listens(tmp_path):
    status, out, errors = ran("run", "--connect", str(tmp_path / "none.sock"), "--command", ACCOUNT)
    assert (status, out) == (1, b"")
    assert errors == f"telovamish: {tmp_path}/none.sock: No such file or directory\n"


def test_a_closed_port_is_named_at_once():
    """And the second of two addresses is tried."""
    with socket.create_server(("127.0.0.1", 0)) as server:
        port = server.getsockname()[1]
    began = time.monotonic()
    with pytest.raises(Device, match=f"^127.0.0.1:{port}: Connection refused$"):
        ledgers.reach([("127.0.0.1", port)])
    assert time.monotonic() - began < 1
    with socket.create_server(("127.0.0.1", 0)) as server:
        ledgers.reach([("127.0.0.1", port), server.getsockname()])


def test_a_socket_s_bare_name(env, tmp_path, monkeypatch):
    monkeypatch.chdir(tmp_path)
    with socket.socket(socket.AF_UNIX) as server:
        server.bind("t.sock")
        assert [*over("t.sock", None).addresses] == ["./t.sock"]
    (tmp_path / "file").touch()
    assert [*over("file", None).addresses] == [("file", 3001)]


def test_a_certificate_without_its_key(paths):
    with pytest.raises(Device, match="has no private key: name its file by --key FILE$"):
        ledgers.context_of(paths["ca"], paths["payments"], None)


def test_a_remedy_that_this_command_has_not_is_left_out(env, tmp_path):
    """With sixteen copies of torn bytes a start of tbd names an option of its own."""
    said = "tbd: NotCopied: a.tbk has 16 copies of torn bytes next to it; move them elsewhere"
    path = never_ready(tmp_path, f"echo '{said}, or start with --drop-torn' >&2; exit 11")
    with pytest.raises(Device) as why:
        of_file(str(tmp_path / "a.tbk"), path, Start(), lambda _: None)
    assert str(why.value).endswith(said.removeprefix("tbd: "))


def over_tls(paths):
    return ["--certificate", paths["server"], "--key", paths["server_key"]]


def test_a_plain_connection_to_a_port_of_tls(env, tmp_path, paths):
    with listening(env["TBD"], tmp_path, *over_tls(paths)) as port:
        status, _, errors = ran("run", "--connect", port, "--command", ACCOUNT)
        assert status == 1
        wanted = (
            "the server speaks TLS: give --ca FILE. Nothing was executed, and it is not sent again"
        )
        assert errors == f"telovamish: {wanted}\n"
        words = ["--connect", f"localhost:{port}", "--ca", paths["ca"]]
        assert ran("run", *words, "--command", ACCOUNT)[0] == 0


def test_tls_to_a_plain_port(env, tmp_path, paths):
    with listening(env["TBD"], tmp_path) as port:
        words = ["--connect", port, "--ca", paths["ca"]]
        status, _, errors = ran("run", *words, "--command", ACCOUNT)
        assert status == 1
        assert "the server does not speak TLS: leave out --ca" in errors


def test_a_client_of_another_peer_is_refused_once(env, tmp_path, paths):
    clients = tmp_path / "clients"
    clients.write_text("certificate payments 1\ncertificate billing 2\n")
    options = [*over_tls(paths), "--client-ca", paths["ca"], "--clients", str(clients)]
    with listening(env["TBD"], tmp_path, *options) as port:
        words = ["run", "--connect", port, "--ca", paths["ca"]]
        words += ["--certificate", paths["payments"], "--key", paths["payments_key"]]
        status, out, errors = ran(*words, "--client", str(2 * UPPER + 7), "--command", ACCOUNT)
        assert (status, out) == (1, b"")
        assert errors == (
            "telovamish: ClientNotAllowed: the client id is another peer's. Nothing was executed, "
            "and it is not sent again\n"
        )
        status, out, _ = ran(*words, "--client-range", "1", "--command", ACCOUNT)
        assert (status, out.splitlines()[1]) == (0, b"1 of 1 account created")
        assert int(out.split()[1]) >> 64 == 1


def test_a_server_that_comes_back_is_called_again(env, tmp_path):
    """What was seen of it before is forgotten: it may be another ledger."""
    with listening(env["TBD"], tmp_path) as port:
        with subprocess.Popen(
            [COMMAND, "run", "--connect", port, "--client", "7"],
            stdin=subprocess.PIPE, stdout=subprocess.PIPE, text=True,
        ) as it:  # fmt: skip
            it.stdin.write(f"{ACCOUNT}\n")
            it.stdin.flush()
            assert it.stdout.readline() == "client 7 has session 1\n"
            assert it.stdout.readline() == "1 of 1 account created\n"
            it.stdin.write(f"request=1 {ACCOUNT}\n")
            it.stdin.flush()
            assert "first reply again (commit 2)" in it.stdout.readline()
            it.stdin.close()
            assert it.wait(30) == 0
