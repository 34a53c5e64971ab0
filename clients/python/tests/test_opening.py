"""`open`: a ledger in a file, as a child process; `connect`: the same client over sockets."""
import asyncio
import contextlib
import os
import pathlib
import pty
import random
import shlex
import shutil
import signal
import subprocess
import sys
import threading
import time
from unittest import mock

import pytest
import tb_client as tb
from helpers.listeners import KEEPER, Running
from helpers.threads import in_threads, status_in_a_child, until
from helpers.transferring import made_by
from paths import STAND_IN, TESTS
from tb_client.ledger_file import LedgerFile
from tb_client.moments import SteadyMoments

SECONDS = 120  # that something may take on a busy computer
HOUR = 3600 * 10**9
ACCOUNTS = [tb.Account(it, ledger=700, code=10) for it in (1, 2)]


def quiet(_):
    """Takes what a start did."""


def script(path, *lines):
    """A program of the shell."""
    path.write_text("\n".join(["#!/bin/sh", *lines, ""]))
    path.chmod(0o755)
    return path


def keeper_at(path, command=None, **variables):
    """One word that starts `tbd`, with these variables."""
    given = [f"{name}={shlex.quote(it)}" for name, it in variables.items()]
    return script(path, " ".join(["exec env", *given, shlex.join(command or KEEPER), '"$@"']))


@pytest.fixture
def keeper(tmp_path):
    return keeper_at(tmp_path / "keeper")


@pytest.fixture
def file(tmp_path):
    return tmp_path / "books.tbk"


@pytest.fixture
def opened(keeper, file):
    """Opens the file, quickly refused if it is locked."""

    def opened(**options):
        given = {"program": keeper, "report": quiet, "lock_timeout": 0, **options}
        return tb.open(file, **given)

    return opened


def moved(number, amount=10):
    return tb.Transfer(number, 1, 2, amount, ledger=700, code=10)


def program_of(client):
    """The child of a client."""
    return client._pool._workers[0].transport


def credited(client):
    return client.lookup_accounts([2])[0].credits_posted


def serving(path):
    """The processes that have a file as an argument, other than those of the shell."""
    found = []
    for it in pathlib.Path("/proc").glob("[0-9]*/cmdline"):
        with contextlib.suppress(OSError):
            words = it.read_bytes().split(b"\0")
            if b"run" in words and os.fsencode(path) in words:
                found.append(int(it.parent.name))
    return found


# the file


def test_a_file_is_made_and_found_again(opened, file):
    with opened() as ledger:
        assert ledger.create_accounts(ACCOUNTS) == []
        assert ledger.create_transfers([moved(1)]) == []
        assert type(ledger) is tb.ClientSync
    assert serving(file) == []
    with opened(existing=True) as ledger:
        assert credited(ledger) == 10


def test_existing_makes_no_file(opened, file):
    with pytest.raises(tb.ProgramEnded) as met:
        opened(existing=True)
    assert (met.value.name, met.value.status, file.exists()) == ("Device", 1, False)


def test_what_a_start_did_is_reported(opened, file, capfd):
    lines = []
    for _ in range(2):
        opened(report=lines.append).close()
    assert lines == [f"tbd: made {file}"]
    assert capfd.readouterr().err == ""


def test_a_new_file_is_reported_on_standard_error(keeper, file, capfd):
    tb.open(file, program=keeper).close()
    assert capfd.readouterr().err == f"tbd: made {file}\n"


@pytest.mark.parametrize(
    "options, field",
    [
        pytest.param({"existing": 1}, "existing", id="existing"),
        pytest.param({"drop_torn": 1}, "drop_torn", id="drop-torn"),
        pytest.param({"clients_max": 65}, "clients_max", id="clients"),
        pytest.param({"profile": 3}, "profile", id="profile"),
        pytest.param({"timeout": 0}, "timeout", id="timeout"),
        pytest.param({"lock_timeout": -1}, "lock_timeout", id="lock-timeout"),
        pytest.param({"ahead_max": float("nan")}, "ahead_max", id="ahead"),
        pytest.param({"report": 1}, "report", id="report"),
        pytest.param({"progress": 1}, "progress", id="progress"),
        pytest.param({"program": 1}, "program", id="program"),
    ],
)
def test_a_wrong_option(opened, file, options, field):
    with pytest.raises(tb.Invalid, match=f"^{field} "):
        opened(**options)
    assert serving(file) == [] and not file.exists()


@pytest.mark.parametrize("wrong", [pytest.param(it, id=repr(it)) for it in ("", "a\0b", 7, None)])
def test_a_wrong_path(keeper, wrong):
    with pytest.raises(tb.Invalid, match="^file "):
        tb.open(wrong, program=keeper)


# the program


@pytest.mark.parametrize("place", ["option", "variable", "path", "package", "interpreter"])
def test_the_program_is_found(tmp_path, monkeypatch, file, place):
    folder = tmp_path / place
    folder.mkdir()
    path = keeper_at(folder / "tbd")
    monkeypatch.delenv("TBD", raising=False)
    commands = tmp_path / "commands"
    commands.mkdir()
    for name in ("env", "sh"):
        (commands / name).symlink_to(shutil.which(name))
    monkeypatch.setenv("PATH", str(commands))
    if place == "variable":
        monkeypatch.setenv("TBD", str(path))
    elif place == "path":
        monkeypatch.setenv("PATH", f"{commands}:{folder}")
    elif place == "package":
        monkeypatch.setattr("tb_client.ledger_file.__file__", str(folder / "ledger_file.py"))
    elif place == "interpreter":
        monkeypatch.setattr("sys.executable", str(folder / "python3"))
    options = {"program": path} if place == "option" else {}
    with tb.open(file, report=quiet, **options) as ledger:
        assert program_of(ledger).command[0] == str(path)


@pytest.mark.parametrize("given", [None, "program", "TBD"])
def test_a_missing_program_says_what_to_install(tmp_path, monkeypatch, file, given):
    monkeypatch.setenv("PATH", str(tmp_path))
    monkeypatch.delenv("TBD", raising=False)
    if given == "TBD":
        monkeypatch.setenv("TBD", "/nowhere/tbd")
    options = {"program": "/nowhere/tbd"} if given == "program" else {}
    with pytest.raises(tb.CannotStart, match="install the package telovamish") as met:
        tb.open(file, **options)
    assert ("/nowhere/tbd is no program" in str(met.value)) == (given is not None)


# a file that is read for long

READING = ["echo 'tbd: reading books.tbk, 64 of 900 MB' >&2"]
READING += ["echo 'tbd: reading books.tbk, 128 of 900 MB' >&2"]


def test_progress_of_a_long_start(tmp_path, file):
    """It ends when all was read, which may be longer than a request may take."""
    path = script(tmp_path / "slow", *READING, "sleep 1", f'exec {shlex.join(STAND_IN)} "$@"')
    found = []
    with tb.open(file, program=path, report=quiet, progress=lambda *it: found.append(it)) as it:
        assert found == [(64, 900), (128, 900), (900, 900)]
        program_of(it).timeout = 0.5
        os.kill(program_of(it).process.pid, signal.SIGKILL)
        assert it.create_accounts(ACCOUNTS) == []
    assert found == [(64, 900), (128, 900), (900, 900)] * 2


def test_a_short_start_has_no_progress(opened):
    found = []
    opened(progress=lambda *it: found.append(it)).close()
    assert found == []


def test_a_line_on_a_terminal(tmp_path, file):
    """It is gone when the file was read."""
    path = script(tmp_path / "slow", *READING, f'exec {shlex.join(STAND_IN)} "$@"')
    ours, theirs = pty.openpty()
    text = "import sys, tb_client as tb\ntb.open(sys.argv[1], program=sys.argv[2]).close()"
    words = [sys.executable, "-c", text, str(file), str(path)]
    with os.fdopen(ours, "rb", buffering=0) as terminal:
        assert subprocess.run(words, stderr=theirs, timeout=SECONDS).returncode == 0
        os.close(theirs)
        said = b""
        with contextlib.suppress(OSError):  # the end, of a terminal
            while more := terminal.read(1024):
                said += more
    shown = [f"\r\x1b[Kreading {file}: {it} of 900 MB" for it in (64, 128)]
    assert said.decode() == f"{''.join(shown)}\r\x1b[Ktbd: made {file}\r\n"


def test_a_start_that_is_given_up_ends_at_once(tmp_path, file):
    """Its child, which reads the file, was sent nothing."""
    path = script(tmp_path / "slow", "exec sleep 1000")

    def interrupt(*_):
        raise KeyboardInterrupt

    before = signal.signal(signal.SIGALRM, interrupt)
    try:
        signal.setitimer(signal.ITIMER_REAL, 0.5)
        begun = time.monotonic()
        with pytest.raises(KeyboardInterrupt):
            tb.open(file, program=path)
        assert time.monotonic() - begun < 4  # less than a child may take to end by itself
    finally:
        signal.signal(signal.SIGALRM, before)


# a child that ends


@pytest.mark.parametrize("place", ["read", "half", "kept", "part", "told"])
def test_a_call_amid_which_the_child_is_killed_gets_its_first_reply(tmp_path, file, place):
    """`exists` would be the reply to other bytes, or in another session."""
    path = keeper_at(tmp_path / "killed", STAND_IN, FAIL=f"SIGKILL:{place}:3")
    with tb.open(file, program=path, report=quiet) as ledger:
        assert ledger.create_accounts(ACCOUNTS) == []
        first = program_of(ledger).process.pid
        for number in range(1, 7):
            assert ledger.create_transfers([moved(number)]) == []
        assert credited(ledger) == 60
        assert program_of(ledger).process.pid != first


def test_a_child_that_is_killed_between_calls(opened, file):
    with opened() as ledger:
        ledger.create_accounts(ACCOUNTS)
        for number in (1, 2):
            os.kill(program_of(ledger).process.pid, signal.SIGKILL)
            assert ledger.create_transfers([moved(number)]) == []
        assert credited(ledger) == 20
    assert serving(file) == []


def test_a_program_that_goes_to_another_folder(keeper, tmp_path, monkeypatch):
    monkeypatch.chdir(tmp_path)
    with tb.open("books.tbk", program="./keeper", report=quiet) as ledger:
        ledger.create_accounts(ACCOUNTS)
        monkeypatch.chdir("/")
        os.kill(program_of(ledger).process.pid, signal.SIGKILL)
        assert ledger.create_transfers([moved(1)]) == []


def test_a_ledger_that_is_closed_while_it_is_read_again(tmp_path, file):
    """Nothing of the call was sent to the second child, and all of the first replied."""
    path = script(
        tmp_path / "slow",
        f"test -e {tmp_path}/slow.once && exec sleep 1000",
        f"touch {tmp_path}/slow.once",
        f'exec {shlex.join(STAND_IN)} "$@"',
    )
    ledger = tb.open(file, program=path, report=quiet)
    ledger.create_accounts(ACCOUNTS)
    child = program_of(ledger)
    os.kill(child.process.pid, signal.SIGKILL)
    child.process.wait(SECONDS)
    faults = []

    def ask():
        try:
            ledger.create_transfers([moved(1)])
        except tb.ClientError as why:
            faults.append(type(why))

    thread = threading.Thread(target=ask)
    thread.start()
    until(lambda: not child.is_ready)
    begun = time.monotonic()
    ledger.close()
    thread.join()
    assert faults == [tb.ReplyLost] and time.monotonic() - begun < 4


def test_a_restart_makes_no_other_ledger(opened, file, tmp_path):
    with opened() as ledger:
        ledger.create_accounts(ACCOUNTS)
        file.rename(tmp_path / "old.tbk")
        os.kill(program_of(ledger).process.pid, signal.SIGKILL)
        with pytest.raises(tb.ProgramEnded) as met:
            ledger.create_transfers([moved(1)])
        assert (met.value.name, met.value.status, file.exists()) == ("Device", 1, False)
        (tmp_path / "old.tbk").rename(file)
        assert ledger.create_transfers([moved(1)]) == []


def test_a_child_that_is_killed_whenever_it_starts(tmp_path, file):
    path = script(tmp_path / "killed", f"echo >> {tmp_path}/starts", "kill -9 $$")
    with pytest.raises(tb.CannotStart, match="killed by SIGKILL, each of 5 times"):
        tb.open(file, program=path)
    assert (tmp_path / "starts").read_text() == "\n" * 5


ENDS = {
    "its-end": "sys.exit(0)",
    "no-cleaning-up": "os._exit(0)",
    "killed": "os.kill(os.getpid(), signal.SIGKILL)",
    "an-exception": "raise ValueError",
}


@pytest.mark.parametrize("end", ENDS)
def test_the_child_ends_with_the_program(keeper, file, end):
    text = "\n".join(
        [
            "import os, signal, sys, tb_client as tb",
            "ledger = tb.open(sys.argv[1], program=sys.argv[2], report=lambda _: None)",
            "ledger.create_accounts([tb.Account(1, ledger=700, code=10)])",
            "assert ledger._pool._workers[0].transport.process.poll() is None",
            ENDS[end],
        ]
    )
    words = [sys.executable, "-c", text, str(file), str(keeper)]
    ran = subprocess.run(words, stderr=subprocess.PIPE, text=True, timeout=SECONDS)
    assert ran.returncode == {"killed": -9, "an-exception": 1}.get(end, 0), ran.stderr
    until(lambda: not serving(file))


# faults of the program


def test_a_file_that_is_open_elsewhere(opened, file):
    with opened() as ledger:
        owner = program_of(ledger).process.pid
        with pytest.raises(tb.Locked) as met:
            opened()
        why = met.value
        assert (why.owner, why.name, why.status) == (owner, "Locked", 4)
        assert why.fault == f"Locked: {file} is open in another program; end that one first"
        assert f"process {owner} (" in str(why)
        assert f"started by process {os.getpid()} (" in str(why)
        assert ledger.create_accounts(ACCOUNTS) == []


def test_an_owner_that_the_system_does_not_name(opened, tmp_path, monkeypatch):
    monkeypatch.setattr("tb_client.locks.LOCKS", tmp_path / "nothing")
    with opened():
        with pytest.raises(tb.Locked) as met:
            opened()
    assert met.value.owner is None and str(met.value).endswith("(status 4)")


def test_a_lock_that_is_released_in_time(opened):
    """The child of a program that was killed ends a moment after it."""
    first = opened()
    timer = threading.Timer(0.5, first.close)
    timer.start()
    with opened(lock_timeout=SECONDS) as ledger:
        assert ledger.create_accounts(ACCOUNTS) == []
    timer.join()


@pytest.mark.parametrize(
    "kept, options, name, status",
    [
        pytest.param(b"no ledger, and not empty", {}, "NotAJournal", 5, id="another-file"),
        pytest.param(None, {"clients_max": 2}, "OtherRules", 7, id="other-clients"),
        pytest.param(None, {"profile": 2}, "OtherRules", 7, id="another-profile"),
    ],
)
def test_a_file_that_is_refused(opened, file, kept, options, name, status):
    if kept is None:
        opened().close()
    else:
        file.write_bytes(kept)
    before = file.read_bytes()
    with pytest.raises(tb.ProgramEnded) as met:
        opened(**options)
    assert (met.value.name, met.value.status) == (name, status)
    assert met.value.fault.startswith(f"{name}")
    assert file.read_bytes() == before and serving(file) == []


def test_a_fault_amid_the_service_is_passed_on(tmp_path, file):
    """The next call starts the child again."""
    path = keeper_at(tmp_path / "full", STAND_IN, FAIL="Full:8:3")
    with tb.open(file, program=path, report=quiet) as ledger:
        ledger.create_accounts(ACCOUNTS)
        with pytest.raises(tb.ProgramEnded) as met:
            ledger.create_transfers([moved(1)])
        assert (met.value.fault, met.value.name, met.value.status) == ("Full", "Full", 8)
        assert ledger.create_transfers([moved(1)]) == []


# callers


def test_threads_share_a_ledger(opened):
    """What they ask for while a request is on its way goes out as the next one."""
    sent = []
    exchange = LedgerFile.exchange

    def counted(self, moment, frame):
        sent.append(frame)
        time.sleep(0.01)
        return exchange(self, moment, frame)

    with opened() as ledger, mock.patch.object(LedgerFile, "exchange", counted):
        ledger.create_accounts(ACCOUNTS)

        def work(number):
            for at in range(20):
                assert ledger.create_transfers([moved(1 + 20 * number + at)]) == []

        in_threads(8, work)
        assert credited(ledger) == 1600
    assert len(sent) < 120


@pytest.mark.parametrize("way", ["with", "await"])
def test_asyncio(keeper, file, way):
    async def work(ledger):
        assert type(ledger) is tb.ClientAsync
        assert await ledger.create_accounts(ACCOUNTS) == []
        made = [ledger.create_transfers([moved(it)]) for it in range(1, 101)]
        assert await asyncio.gather(*made) == [[]] * 100
        assert (await ledger.lookup_accounts([2]))[0].credits_posted == 1000

    async def main():
        if way == "with":
            async with tb.open_async(file, program=keeper, report=quiet) as ledger:
                await work(ledger)
        else:
            ledger = await tb.open_async(file, program=keeper, report=quiet)
            await work(ledger)
            await ledger.close()

    asyncio.run(main())
    assert serving(file) == []


def test_asyncio_goes_on_while_a_file_is_read(tmp_path, file):
    """A task that is cancelled meanwhile leaves no child."""
    path = script(tmp_path / "slow", *READING, "exec sleep 1000")

    async def main():
        read = asyncio.Event()
        loop = asyncio.get_running_loop()

        async def opening():
            await tb.open_async(
                file, program=path, progress=lambda *_: loop.call_soon_threadsafe(read.set)
            )

        task = asyncio.ensure_future(opening())
        await asyncio.wait_for(read.wait(), SECONDS)
        task.cancel()
        with pytest.raises(asyncio.CancelledError):
            await task

    asyncio.run(main())


def test_asyncio_gets_the_fault_of_the_program(opened, keeper, file):
    async def main():
        async with tb.open_async(file, program=keeper, lock_timeout=0):
            pass

    with opened():
        with pytest.raises(tb.Locked):
            asyncio.run(main())


@pytest.mark.parametrize("lock", ["_changed", "_lock"])
def test_a_forked_child_has_no_ledger(opened, lock):
    with opened() as ledger:
        ledger.create_accounts(ACCOUNTS)

        def call():
            with pytest.raises(tb.Closed, match="belongs to the process that made it"):
                ledger.create_transfers([moved(1)])
            ledger.close()
            return 7

        held = ledger._pool._changed if lock == "_changed" else program_of(ledger)._lock
        assert status_in_a_child(call, held) == 7
        assert ledger.create_transfers([moved(2)]) == []
        assert credited(ledger) == 10


def test_a_forked_child_that_lives_on_does_not_hold_the_file(opened):
    ledger = opened()
    process = program_of(ledger).process
    child = os.fork()
    if not child:
        signal.pause()
        os._exit(0)
    try:
        ledger.close()
        assert process.returncode == 0  # its input ended, and it was not killed
    finally:
        os.kill(child, signal.SIGKILL)
        os.waitpid(child, 0)


def test_a_closed_ledger(opened, file):
    ledger = opened()
    ledger.close()
    ledger.close()
    with pytest.raises(tb.Closed):
        ledger.create_accounts(ACCOUNTS)
    assert serving(file) == []


def torn(file):
    """The copies of torn bytes of a file."""
    return list(file.parent.glob(f"{file.name}.cut-*"))


@pytest.mark.skipif(KEEPER == STAND_IN, reason="the stand-in makes no copies")
@pytest.mark.parametrize("drop_torn, copies", [(False, 1), (True, 0)], ids=["a-copy", "none"])
def test_torn_bytes(opened, file, drop_torn, copies):
    opened().close()
    with file.open("ab") as it:
        it.write(b"torn")
    lines = []
    opened(drop_torn=drop_torn, report=lines.append).close()
    assert (len(torn(file)), any(it.startswith("tbd: cut 4 bytes") for it in lines)) == (
        copies,
        True,
    )


# moments


@pytest.mark.parametrize(
    "steps, moments",
    [
        pytest.param([(5, 5)], [105], id="as-the-clock"),
        pytest.param([(5, 5), (-50, 1), (0, 9)], [105, 105, 105], id="set-back"),
        pytest.param([(5000, 2000), (10**6, 1000)], [2102, 3103], id="set-ahead"),
    ],
)
def test_steady_moments(steps, moments):
    """Each step is what the clock and the time that goes by rise by. They rise by a thousandth more
    than that at most."""
    at = [100, 7]
    found, these = [], SteadyMoments(0, lambda: at[0], lambda: at[1])
    for clock, gone in steps:
        at[0], at[1] = at[0] + clock, at[1] + gone
        found.append(these.next())
    assert found == moments


def test_moments_begin_with_the_ledger_s_last():
    these = SteadyMoments(0, lambda: 100, lambda: 0)
    these.go_on(130)
    these.go_on(120)
    assert these.next() == 130


@pytest.mark.parametrize(
    "jump", [pytest.param(HOUR, id="set-ahead"), pytest.param(-HOUR, id="set-back")]
)
def test_a_clock_that_jumps_does_not_move_the_ledger(opened, jump):
    with opened() as ledger:
        ledger.create_accounts(ACCOUNTS)
        program_of(ledger)._moments.clock = lambda: time.time_ns() + jump
        for number in (1, 2):
            assert ledger.create_transfers([moved(number)]) == []
        first, second = (it.timestamp for it in ledger.lookup_transfers([1, 2]))
        begun = ledger.lookup_accounts([1])[0].timestamp
        assert begun < first < second < begun + HOUR // 2


@pytest.mark.parametrize(
    "options, is_opened",
    [
        pytest.param({}, False, id="60-seconds"),
        pytest.param({"ahead_max": 7200}, True, id="two-hours"),
        pytest.param({"ahead_max": None}, True, id="no-check"),
    ],
)
def test_a_ledger_whose_time_is_ahead(keeper, opened, file, options, is_opened):
    with tb.Program(keeper, file=file, ahead_max=None, report=quiet) as program:
        session = tb.Session(program, 7, now=lambda: time.time_ns() + HOUR, jump_max=None)
        session.ask_body(tb.Operation.register, b"")
    if is_opened:
        with opened(**options) as ledger:
            assert ledger.create_accounts(ACCOUNTS) == []
        return
    with pytest.raises(tb.ClockJumped, match="last time is 3[56][0-9][0-9]"):
        opened(**options)
    assert serving(file) == []


# sockets


@pytest.mark.parametrize("place", ["path", "port", "cluster"])
def test_the_same_client_over_sockets(place):
    options = [] if place == "path" else ["--tcp", "127.0.0.1:0"]
    with Running(*options) as listener:
        port = "" if place == "path" else listener.address[1]
        address = {
            "path": listener.path,
            "port": str(port),
            "cluster": f"127.0.0.1:1,127.0.0.1:{port}",
        }[place]
        with tb.connect(address, timeout=SECONDS) as ledger:
            assert type(ledger) is tb.ClientSync
            assert ledger.create_accounts(ACCOUNTS) == []

        async def main():
            async with tb.connect_async(address, timeout=SECONDS) as ledger:
                assert type(ledger) is tb.ClientAsync
                return await ledger.lookup_accounts([1, 2])

        assert [it.id for it in asyncio.run(main())] == [1, 2]


# kills


class Killed:
    """A program that makes transfers, and is started again when it was killed."""

    def __init__(self, folder, keeper, count, options):
        self.file, self.made = folder / "books.tbk", folder / "made"
        self.words = [sys.executable, f"{TESTS}/helpers/transferring.py", self.file, keeper]
        self.words += [str(count), self.made, *options]
        self.start()

    def start(self):
        pipe = subprocess.PIPE
        self.process = subprocess.Popen(self.words, stdin=pipe, stderr=pipe, text=True)

    def wait_for(self, count):
        """Waits until this many calls have returned."""
        until(lambda: len(made_by(self.made)) >= count or self.process.poll() is not None)
        assert self.process.poll() is None, self.process.stderr.read()

    def kill_child(self):
        """Kills the child, if one runs at this moment."""
        for it in serving(self.file):
            if it != self.process.pid:
                with contextlib.suppress(ProcessLookupError):
                    os.kill(it, signal.SIGKILL)

    def kill(self):
        self.process.kill()
        assert self.process.wait(SECONDS) == -signal.SIGKILL, self.process.stderr.read()
        self.process.stdin.close()
        self.process.stderr.close()
        self.start()

    def end(self):
        said = self.process.communicate(timeout=30 * SECONDS)[1]
        assert (self.process.returncode, said) == (0, "")


@pytest.mark.parametrize(
    "count, kills, options",
    [
        pytest.param(100, 4, [], id="a-few"),
        pytest.param(
            10000,
            200,
            ["drop_torn"],  # a file has 16 copies of torn bytes at most
            id="two-hundred",
            marks=pytest.mark.slow(reason="kills the program and its child 200 times", seconds=400),
        ),
    ],
)
def test_kills_of_the_program_and_of_its_child(tmp_path, keeper, count, kills, options):
    """Each call that returned is there once, nothing is there twice, and no child is left."""
    drawn, killed = random.Random(count), Killed(tmp_path, keeper, count, options)
    try:
        for number in range(2 * kills):
            killed.wait_for(1 + number * count // (2 * kills + 1))
            time.sleep(drawn.uniform(0, 0.02))
            killed.kill_child() if number % 2 else killed.kill()
        killed.end()
    finally:
        killed.process.kill()
        killed.process.wait()
    until(lambda: not serving(killed.file))
    ids = range(1, count + 1)
    assert made_by(killed.made) == set(ids)
    with tb.open(killed.file, program=keeper, existing=True) as ledger:
        found = []
        for at in range(0, count, tb.ITEMS_MAX):
            found += ledger.lookup_transfers(ids[at : at + tb.ITEMS_MAX])
        assert [it.id for it in found] == list(ids)
        assert credited(ledger) == count
