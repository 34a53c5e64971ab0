"""`Program` over `tbd`, which keeps its ledger in a file; its own program or the stand-in for it.

    python3 -m unittest test_program
"""
import os
import shlex
import signal
import subprocess
import sys
import tempfile
import time
import unittest

import pytest
import tb_client as tb
from tb_client import Program, Session
from paths import TESTS
from helpers.listeners import KEEPER
from helpers.records import account, transfer
from helpers.threads import faults_at_close

# sends Ctrl-C to all processes of its terminal, and then asks the program
INTERRUPTED = """
import os, signal, sys, time
from tb_client import Program, Session
signal.signal(signal.SIGINT, signal.default_int_handler)
with Program(sys.argv[1], file=sys.argv[2]) as program, Session.register(program) as session:
    try:
        os.killpg(0, signal.SIGINT)
        time.sleep(60)
    except KeyboardInterrupt:
        time.sleep(0.5)
        print(session.lookup_accounts([1]))
"""


class OverAFile(unittest.TestCase):
    def setUp(self):
        self.folder = tempfile.TemporaryDirectory()
        self.file = os.path.join(self.folder.name, "ledger")
        # one word that starts the program, as a path has to be
        self.path = os.path.join(self.folder.name, "keeper")
        with open(self.path, "w", encoding="utf-8") as file:
            file.write(f'#!/bin/sh\nexec {shlex.join(KEEPER)} "$@"\n')
        os.chmod(self.path, 0o755)

    def tearDown(self):
        self.folder.cleanup()

    def test_the_ledger_is_there_again(self):
        with Program(self.path, file=self.file) as program, Session.register(program) as session:
            tb.require_ok(session.create_accounts([account(1), account(2)]))
            saved = session.saved
        with Program(self.path, file=self.file) as program:
            session = Session.resumed(program, saved)
            self.assertEqual(len(session.lookup_accounts([1, 2])), 2)

    def test_a_program_that_is_killed_goes_on_over_the_file(self):
        with Program(self.path, file=self.file, restarts=True) as program:
            with Session.register(program) as session:
                tb.require_ok(session.create_accounts([account(1), account(2)]))
                for number in (1, 2):
                    os.kill(program.process.pid, signal.SIGKILL)
                    tb.require_ok(session.create_transfers([transfer(number, 1, 2, 10)]))
                self.assertEqual(session.lookup_accounts([2])[0].credits_posted, 20)
            self.assertEqual(program.script, [])

    def test_a_program_that_reads_its_ledger_for_long(self):
        """Nothing is sent to it before it has: a request that has no time left was not made."""
        with Program(self.path, file=self.file) as program, Session.register(program) as session:
            saved = session.saved
        with open(self.path, "w", encoding="utf-8") as file:
            file.write(f'#!/bin/sh\nsleep 2\nexec {shlex.join(KEEPER)} "$@"\n')
        with Program(self.path, file=self.file, timeout=0.5) as program:
            session = Session.resumed(program, saved)
            with self.assertRaises(tb.CannotStart) as met:
                session.lookup_accounts([1])
            self.assertIn("has not read its ledger within 0.5 seconds", str(met.exception))
            self.assertIsNone(session.in_doubt)
            program.timeout = 20
            self.assertEqual(session.lookup_accounts([1]), [])

    def test_close_waits_for_one_exchange(self):
        """Threads that wait for it send nothing more."""
        with open(self.path, "w", encoding="utf-8") as file:
            file.write("#!/bin/sh\necho tbd: ready >&2\nexec sleep 600\n")
        program = Program(self.path, file=self.file, timeout=300)
        found = faults_at_close(
            program,
            lambda it: Session.register(program, it, attempts=1),
            lambda: os.kill(program.process.pid, signal.SIGKILL),
        )
        self.assertEqual(found, [tb.Closed] * 7 + [tb.ProgramEnded])

    def test_ctrl_c_at_a_terminal_is_not_the_program_s(self):
        words = [sys.executable, "-B", "-c", INTERRUPTED, self.path, self.file]
        it = subprocess.run(
            words, cwd=TESTS, capture_output=True, text=True, start_new_session=True, timeout=60
        )
        made = f"tbd: made {self.file}\n"
        self.assertEqual((it.stdout, it.stderr, it.returncode), ("[]\n", made, 0))

    def test_tbd_without_a_file(self):
        path = os.path.join(self.folder.name, "tbd")
        os.symlink(sys.executable, path)
        with self.assertRaises(tb.InvalidValue) as met:
            Program(path)
        self.assertIn("give file=", str(met.exception))

    def test_a_file_of_digits_lies_in_the_folder(self):
        before = os.getcwd()
        os.chdir(self.folder.name)
        try:
            with Program(self.path, file="64") as program:
                self.assertEqual(program.command[2], "./64")
                Session.register(program)
            self.assertTrue(os.path.exists("64"))
        finally:
            os.chdir(before)

    def test_what_it_says_at_its_end(self):
        with open(self.file, "wb") as file:
            file.write(b"no ledger, and not empty")
        with Program(self.path, file=self.file) as program:
            with self.assertRaises(tb.ProgramEnded) as met:
                Session.register(program, attempts=1)
        self.assertEqual(
            (met.exception.fault.split(":")[0], met.exception.status), ("NotAJournal", 5)
        )


@pytest.fixture
def keeper(tmp_path):
    """One word that starts `tbd`."""
    path = tmp_path / "keeper"
    path.write_text(f'#!/bin/sh\nexec {shlex.join(KEEPER)} "$@"\n')
    path.chmod(0o755)
    return path


MADE = "tbd: made a.tbk"
COPIED = "tbd: copied 7 bytes, from byte 307 on, 0 whole entries, to a.tbk.cut-307-b79f836b"
CUT = "tbd: cut 7 bytes of a batch that was not committed, after byte 303"


@pytest.mark.parametrize(
    "said, reported",
    [
        pytest.param([MADE], [MADE], id="a-new-file"),
        pytest.param([COPIED, CUT], [COPIED, CUT], id="torn-bytes"),
        pytest.param(["tbd: reading a.tbk, 64 of 900 MB"], [], id="progress"),
        pytest.param([], [], id="nothing"),
    ],
)
def test_what_a_start_did_to_the_file_is_reported(tmp_path, said, reported):
    path, lines = tmp_path / "tbd", [*said, "tbd: ready: commit 0, time 0"]
    echoes = "\n".join(f"echo '{it}' >&2" for it in lines)
    path.write_text(f"#!/bin/sh\n{echoes}\nexec cat > /dev/null\n")
    path.chmod(0o755)
    found = []
    with Program(path, file=tmp_path / "a.tbk", report=found.append) as program:
        assert program.wait(20)
    assert found == reported


def test_a_new_file_is_reported_on_standard_error(keeper, tmp_path, capfd):
    for _ in range(2):
        with Program(keeper, file=tmp_path / "a.tbk") as program:
            Session.register(program)
    assert capfd.readouterr().err == f"tbd: made {tmp_path}/a.tbk\n"


def test_existing_makes_no_file(keeper, tmp_path):
    with Program(keeper, file=tmp_path / "a.tbk", existing=True) as program:
        with pytest.raises(tb.ProgramEnded) as met:
            Session.register(program, attempts=1)
    assert (met.value.status, (tmp_path / "a.tbk").exists()) == (1, False)


def test_a_restart_makes_no_other_ledger(keeper, tmp_path):
    """A file that was moved away is missed: in a new one every id would be accepted again."""
    file = tmp_path / "a.tbk"
    with Program(keeper, file=file, restarts=True, report=lambda _: None) as program:
        session = Session.register(program)
        file.rename(tmp_path / "old.tbk")
        os.kill(program.process.pid, signal.SIGKILL)
        with pytest.raises(tb.ClientError):
            session.lookup_accounts([1])
    assert not file.exists()


@pytest.mark.parametrize("existing", [None, 1, "yes"])
def test_existing_is_a_truth_value(keeper, tmp_path, existing):
    with pytest.raises(tb.InvalidType, match="^existing"):
        Program(keeper, file=tmp_path / "a.tbk", existing=existing)


def test_existing_needs_a_file(keeper):
    with pytest.raises(tb.InvalidValue, match="^existing needs file="):
        Program(keeper, existing=True)


# moments

HOUR = 3600


@pytest.mark.parametrize(
    "ahead, options, is_sent",
    [
        pytest.param(HOUR, {}, False, id="an-hour"),
        pytest.param(70, {}, False, id="70-seconds"),
        pytest.param(50, {}, True, id="50-seconds"),
        pytest.param(-HOUR, {}, True, id="an-hour-ago"),
        pytest.param(HOUR, {"ahead_max": None}, True, id="no-check"),
        pytest.param(HOUR, {"ahead_max": 2 * HOUR}, True, id="a-greater-bound"),
        pytest.param(50, {"ahead_max": 10}, False, id="a-smaller-bound"),
    ],
)
def test_a_moment_far_ahead_is_refused_before_it_is_sent(keeper, tmp_path, ahead, options, is_sent):
    moment, file = time.time_ns() + ahead * 10**9, tmp_path / "a.tbk"
    with Program(keeper, file=file, report=lambda _: None, **options) as program:
        session = Session(program, 7, now=lambda: moment, jump_max=None)
        if is_sent:
            session.ask_body(tb.Operation.register, b"")
            assert session.session == 1
            return
        with pytest.raises(tb.ClockJumped, match="nothing was sent"):
            session.ask_body(tb.Operation.register, b"")
        assert program.sent == 0
        session = Session.register(program)  # at the clock's moment
        assert session.session == 1


def test_a_ledger_in_memory_takes_any_moment(keeper, tmp_path):
    """It ends with its program: what is tried there moves no ledger that is kept."""
    path = tmp_path / "tbs"
    path.write_text("#!/bin/sh\nexec sleep 60\n")
    path.chmod(0o755)
    with Program(path, timeout=0.2) as program:
        session = Session(program, 7, now=lambda: 2**62, jump_max=None, attempts=1)
        with pytest.raises(tb.ReplyLost):
            session.ask_body(tb.Operation.register, b"")
        assert program.sent == 1


if __name__ == "__main__":
    unittest.main()
