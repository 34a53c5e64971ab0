"""The words of the kit and of the money: what they name, and what is wrong."""
import glob
import json
import os
import shlex
import shutil
import signal
import socket
import subprocess
import sys
import tempfile
import time
import unittest
from unittest import mock

HERE = os.path.dirname(os.path.abspath(__file__))
TOP = os.path.dirname(os.path.dirname(HERE))
sys.path.insert(0, HERE)

import driver  # noqa: E402
import kit  # noqa: E402
import wrong_clients  # noqa: E402
from made import sequences  # noqa: E402
from runner import Ended, Patience, Runner, waited  # noqa: E402
from server import Connections, Failed, Server, readable  # noqa: E402

RUNNER = ["--", sys.executable, "-B", "clients/python/conformance_runner.py"]
STAND_IN = "clients/python/tests/stand_in_tbd.py"
JUNIT = "/usr/share/java/junit4.jar"


def setUpModule():
    """In the background of a shell SIGINT is ignored, and programs would inherit that."""
    signal.signal(signal.SIGINT, signal.default_int_handler)


def ran(program, *words):
    it = subprocess.run(
        [sys.executable, "-B", f"{HERE}/{program}", *words],
        cwd=TOP,
        capture_output=True,
        text=True,
        timeout=600,
    )
    return it.returncode, it.stdout, it.stderr


class Money(unittest.TestCase):
    def test_a_server_by_a_relative_path(self):
        server = f"{sys.executable} -SE {STAND_IN}"
        status, said, faults = ran("money.py", "--kills", "3", "--server", server, *RUNNER)
        self.assertEqual((status, faults), (0, ""), said)
        self.assertIn("6 transfers moved 21, each once, over stand_in_tbd.py", said)

    def test_a_client_that_is_not_there(self):
        server = f"{sys.executable} -SE {STAND_IN}"
        status, said, faults = ran("money.py", "--server", server, "--", "no/such/client")
        self.assertEqual((status, faults), (1, ""), said)
        self.assertIn("FAILED: ", said)
        self.assertIn("no/such/client", said)

    def test_no_kill_and_no_span(self):
        for words in (["--kills", "0"], ["--kills", "-2"], ["--span", "nan"], ["--span", "-1"]):
            status, said, faults = ran("money.py", *words, *RUNNER)
            self.assertEqual((status, said), (2, ""), words)
            self.assertIn(f"{words[0]} must be ", faults)

    def interrupted(self, server, begun):
        """Interrupts it once this file is in its room, of which it leaves nothing. What the file
        has."""
        room = tempfile.mkdtemp()
        self.addCleanup(shutil.rmtree, room)
        it = subprocess.Popen(
            [sys.executable, "-B", f"{HERE}/money.py", "--kills", "9999", "--server", server]
            + RUNNER,
            cwd=TOP,
            env={**os.environ, "TMPDIR": room},
            stdout=subprocess.PIPE,
            stderr=subprocess.PIPE,
            text=True,
        )
        deadline = time.monotonic() + 60
        while not (found := glob.glob(f"{room}/*/{begun}")) and time.monotonic() < deadline:
            time.sleep(0.02)
        with open(found[0], encoding="utf-8") as file:
            text = file.read()
        it.send_signal(signal.SIGINT)
        said, faults = it.communicate(timeout=60)
        self.assertEqual((it.returncode, said, faults), (130, "", "interrupted\n"))
        self.assertEqual(os.listdir(room), [])
        return text

    def test_an_interrupt_is_one_line(self):
        self.interrupted(f"{sys.executable} -SE {STAND_IN}", "session.json")

    def test_an_interrupt_before_the_listener_listens(self):
        """Nothing is left. The listener ran on."""
        code = "import os, sys; at = sys.argv[2]; print(os.getppid(), file=open(at + '.new', 'w'));"
        code += "os.rename(at + '.new', at + '.ppid'); sys.stdin.read()"
        server = shlex.join([sys.executable, "-SEc", code])
        listener = self.interrupted(server, "ledger.journal.ppid")
        with self.assertRaises(ProcessLookupError):
            os.kill(int(listener), signal.SIGTERM)


class WrongClients(unittest.TestCase):
    @staticmethod
    def said(*words):
        """For each language: its name, the status, and what is said."""
        program = [sys.executable, "-B", f"{HERE}/wrong_clients.py"]
        for language in wrong_clients.LANGUAGES:
            it = subprocess.run(
                [*program, language, *words], capture_output=True, text=True, timeout=60
            )
            yield language, it.returncode, it.stdout + it.stderr

    def test_a_name_that_none_has(self):
        for program, status, said in self.said("--only", "none such"):
            self.assertEqual(status, 1, program)
            self.assertIn("no wrong client has such a name: none such", said)

    def test_from_one_of_them_on(self):
        everyone = {program: said for program, _, said in self.said("--list")}
        for program, status, said in self.said("--list", "--from", "6"):
            names = everyone[program].splitlines()
            self.assertEqual((status, said.splitlines()), (0, names[5:]), program)
            self.assertTrue(names[0].startswith("1 ") and names[5].startswith("6 "), names)
        for program, status, said in self.said("--from", "99"):
            self.assertEqual((status, said), (1, "no wrong client is there from number 99 on\n"))

    def test_no_jobs(self):
        status, said, faults = ran("wrong_clients.py", "go", "--jobs", "0")
        self.assertNotEqual(status, 0, said)
        self.assertIn("--jobs must be 1 or more", faults)

    def test_each_can_be_made(self):
        for language, status, said in self.said("--texts"):
            self.assertEqual(status, 0, f"{language}: {said}")


class Drawn(unittest.TestCase):
    """Scenarios that are drawn by a seed (made/sequences.py)."""

    def test_a_seed_draws_the_same_again(self):
        self.assertEqual(sequences.drawn(7), sequences.drawn(7))
        self.assertNotEqual(sequences.drawn(7)["steps"], sequences.drawn(8)["steps"])

    def test_each_step_is_one_that_the_kit_knows(self):
        for seed in range(300):
            for step in sequences.drawn(seed)["steps"]:
                for action in step.get("server", ()):
                    known = [it for it in action if hasattr(Connections, f"do_{it}")]
                    self.assertEqual(len(known), 1, (seed, action))

    def test_a_scenario_without_some_steps(self):
        whole = sequences.drawn(3)
        fewer = sequences.drawn(3, whole["places"][:-1])
        self.assertEqual(fewer["places"], whole["places"][:-1])
        self.assertEqual(sequences.drawn(3, whole["places"])["steps"], whole["steps"])
        self.assertTrue(sequences.drawn(3, [])["says"].endswith("--seed 3 --steps none"))

    def test_no_steps(self):
        for words in (["--steps", "1"], ["--drawn", "2", "--steps", "1"], ["--steps", "1,"]):
            status, said, faults = ran("kit.py", *words, *RUNNER)
            self.assertEqual((status, said), (2, ""), words)
            self.assertIn("--steps is none, or places like 2,5, with --drawn 1", faults)

    def test_no_seed_and_no_scenario(self):
        for words in (["--drawn", "0"], ["--more", "-1"], ["--drawn", "1", "--seed", "-1"]):
            status, said, faults = ran("kit.py", *words, *RUNNER)
            self.assertEqual((status, said), (2, ""), words)
            self.assertIn(
                "--drawn and --more must be 1 or more, and --seed must be 0 or more", faults
            )

    def test_no_crowd(self):
        for words in (["--count", "0"], ["--seed", "-1"]):
            status, said, faults = ran("crowds.py", *words, *RUNNER)
            self.assertEqual((status, said), (2, ""), words)
            self.assertIn("--seed must be 0 or more, and --count must be 1 or more", faults)

    def test_a_crowd_of_a_wrong_client(self):
        with tempfile.TemporaryDirectory() as folder:
            name = "a session that two threads use at once"
            runner = wrong_clients.edited("python", folder, wrong_clients.wrong("python")[name])
            status, said, faults = ran("crowds.py", "--first", "--count", "200", "--", *runner)
        self.assertEqual((status, faults), (1, ""), said)
        self.assertRegex(said, r"(?m)^FAILED: --seed \d+ --count 1: ask \d+ is told InDoubt")

    def test_a_wrong_client_is_caught_and_its_seed_told(self):
        with tempfile.TemporaryDirectory() as folder:
            edits = wrong_clients.wrong("python")["a refusal ends the doubt"]
            runner = wrong_clients.edited("python", folder, edits)
            status, said, faults = ran("kit.py", "--first", "--drawn", "100", "--", *runner)
        self.assertEqual((status, faults), (1, ""), said)
        self.assertRegex(said, r"(?m)^FAILED: drawn-(\d+): .*\n.*--drawn 1 --seed \1$")


class Throughput(unittest.TestCase):
    """What measures the clients, by a server's relative path."""

    def begun(self, words):
        """What it prints at first, and what it leaves."""
        room = tempfile.mkdtemp()
        self.addCleanup(shutil.rmtree, room)
        it = subprocess.Popen(
            [sys.executable, "-B", "clients/throughput.py", *words],
            cwd=TOP,
            env={**os.environ, "TMPDIR": room},
            stdout=subprocess.PIPE,
            stderr=subprocess.STDOUT,
            text=True,
            start_new_session=True,
        )
        try:
            said = it.stdout.read() if "no/such/tbd" in words else it.stdout.readline()
        finally:
            os.killpg(it.pid, signal.SIGKILL)
            it.wait()
            it.stdout.close()
        return said, os.listdir(room)

    def test_a_server_that_does_not_start(self):
        said, left = self.begun(["--server", "no/such/tbd"])
        self.assertRegex(said, "the server does not start: .*no/such/tbd")
        self.assertEqual(left, [])

    def test_a_column_for_each_language_and_clone(self):
        words = ["--server", f"{sys.executable} -SE {STAND_IN}", "--languages", "python,go"]
        said, _ = self.begun([*words, "--before", TOP])
        heads = "python | python before | go | go before"
        self.assertEqual(said, f"| transfers a second | {heads} |\n")


class Java(unittest.TestCase):
    """What builds the client in Java."""

    @unittest.skipUnless(shutil.which("javac") and os.path.exists(JUNIT), "there is no JUnit")
    def test_the_tests_are_of_the_sources_as_they_are(self):
        room = tempfile.mkdtemp()
        self.addCleanup(shutil.rmtree, room)
        client = shutil.copytree(
            f"{TOP}/clients/java", f"{room}/java", ignore=shutil.ignore_patterns("out")
        )
        words = ["sh", f"{client}/build.sh"]
        subprocess.run(words, check=True, timeout=600)
        with open(
            f"{client}/src/main/java/org/telovamish/tbclient/Link.java", "a", encoding="utf-8"
        ) as it:
            it.write("no Java\n")
        ran = subprocess.run([*words, "test"], capture_output=True, text=True, timeout=600)
        self.assertIn("Link.java", ran.stderr)
        self.assertEqual(ran.returncode, 1, ran.stdout[-300:])


class Kit(unittest.TestCase):
    def test_each_scenario_has_a_name_of_its_own(self):
        names = [it["name"] for it in kit.scenarios()[0]]
        self.assertEqual(len(set(names)), len(names))

    def test_a_scenario_whole(self):
        status, said, faults = ran("kit.py", "--show", "--only", "reply-body-late")
        self.assertEqual((status, faults), (0, ""))
        shown = json.loads(said)
        self.assertEqual(
            [it for it in kit.scenarios()[0] if it["name"] == "reply-body-late"], [shown]
        )

    def test_no_runner_at_once(self):
        """No scenario would run, and no scenario would fail."""
        for jobs in ("0", "-1"):
            status, said, faults = ran("kit.py", "--jobs", jobs, "--first", *RUNNER)
            self.assertEqual((status, said), (2, ""))
            self.assertIn("--jobs must be 1 or more", faults)

    def begun(self, *words):
        it = subprocess.Popen(
            [sys.executable, "-B", f"{HERE}/kit.py", *words],
            cwd=TOP,
            stdout=subprocess.PIPE,
            stderr=subprocess.PIPE,
            text=True,
        )
        self.addCleanup(it.__exit__, None, None, None)
        self.addCleanup(it.kill)
        return it

    def test_an_interrupt(self):
        """No scenario fails by it, and no traceback is printed."""
        it = self.begun("--verbose", *RUNNER)
        self.assertIn("ok: ", it.stdout.readline())
        it.send_signal(signal.SIGINT)
        said, faults = it.communicate(timeout=60)
        self.assertEqual((it.returncode, faults), (130, "interrupted\n"))
        self.assertNotIn("FAILED", said)

    def test_a_list_that_nobody_reads_to_its_end(self):
        it = self.begun("--list")
        it.stdout.close()
        self.assertEqual((it.wait(60), it.stderr.read()), (141, ""))

    def test_a_client_that_left_with_bytes_unread(self):
        """Its system resets the connection then: the kit has to go on."""
        with socket.create_server(("127.0.0.1", 0)) as listening:
            client = socket.create_connection(listening.getsockname())
            it = Connections({}, {}, None)
            it.open["c"] = listening.accept()[0]
        it.open["c"].sendall(b"no reply")
        self.assertTrue(readable(client, 10))
        client.close()
        it.run([{"half": "c"}, {"ended": "c"}])
        self.assertEqual(it.open, {})

    def test_a_server_that_listens_no_more(self):
        """A process that is started meanwhile has a copy of its descriptor."""
        for over, family in (("unix", socket.AF_UNIX), ("tcp", socket.AF_INET)):
            with tempfile.TemporaryDirectory() as folder, socket.socket(family) as client:
                server = Server("a", folder, over)
                at = server.path if over == "unix" else ("127.0.0.1", server.port)
                copy = os.dup(server.socket.fileno())
                server.unlisten()
                with self.assertRaises(ConnectionRefusedError, msg=over):
                    client.connect(at)
                os.close(copy)

    def test_the_port_of_a_server_that_listens_no_more(self):
        """Nobody else gets it, so that no client calls another scenario's server; it listens there
        again."""
        with tempfile.TemporaryDirectory() as folder, socket.socket() as other:
            server = Server("a", folder, "tcp")
            at = ("127.0.0.1", server.port)
            server.unlisten()
            with self.assertRaises(OSError):
                other.bind(at)
            server.listen()
            socket.create_connection(at).close()
            server.close()


class Waiting(unittest.TestCase):
    """How long the kit waits: seconds of an idle client, more for one without a processor."""

    def setUp(self):
        self.now = 0.0

    def clock(self):
        return mock.patch("runner.time.monotonic", lambda: self.now)

    def test_an_idle_process(self):
        with self.clock():
            patience = Patience(0.05, lambda: 0.0)
            self.assertFalse(patience.is_over())
            self.now += patience.look()
            self.assertTrue(patience.is_over())

    def test_a_process_that_waits_for_a_processor(self):
        with self.clock():
            patience = Patience(0.05, lambda: self.now)
            for _ in range(4):
                self.assertFalse(patience.is_over())
                self.now += 0.03

    def test_a_kit_that_waits_for_a_processor(self):
        """However late it looks, a look counts for a second."""
        with mock.patch("runner.time.monotonic", side_effect=[0, 100, 200]):
            patience = Patience(1.5, lambda: 0.0)
            self.assertFalse(patience.is_over())
            self.assertTrue(patience.is_over())

    def test_an_answer_while_the_server_goes_on(self):
        silent, served = "import time\ntime.sleep(600)", [True] * 5
        with tempfile.TemporaryDirectory() as folder:
            runner = Runner([sys.executable, "-c", silent], folder)
            with self.assertRaises(Ended), mock.patch("runner.START", 0.1):
                runner.start()
            with self.assertRaisesRegex(Ended, "no answer within 0.05 s"):
                runner.answer(0.05, lambda: bool(served) and served.pop())
            runner.kill()
        self.assertEqual(served, [])

    def test_the_wait_for_a_processor_of_a_runner(self):
        """Beside a process that does not stop, in a session of its own as the runner: some systems
        share a processor by sessions. What an earlier process waited is not forgotten."""
        spins = "import time\nwhile time.process_time() < %g: pass\n"
        answers = spins % 0.3 + "import sys\nfor line in sys.stdin: print('{}', flush=True)"
        usual = os.sched_getaffinity(0)
        os.sched_setaffinity(0, {min(usual)})
        try:
            words = [sys.executable, "-c", spins % 600]
            beside = subprocess.Popen(words, start_new_session=True)
            with tempfile.TemporaryDirectory() as folder:
                runner = Runner([sys.executable, "-c", answers], folder)
                for _ in range(3):
                    runner.start()
                    self.assertGreater(waited(runner.process.pid), 0.02)
                self.assertGreater(runner.past, 0.04)
                least = runner.past + waited(runner.process.pid) + waited("self")
                self.assertGreater(runner.waited(), least - 0.001)
                runner.kill()
        finally:
            os.sched_setaffinity(0, usual)
            beside.kill()
            beside.wait()

    def test_a_call_after_a_failure(self):
        """The client has some seconds more, and is killed then."""
        silent = "import time\nprint(input() and '{}', flush=True)\ntime.sleep(600)"
        steps = [{"call": {"do": "ask"}, "server": [{"read": "00", "on": "x"}]}]
        with tempfile.TemporaryDirectory() as folder, mock.patch.object(driver, "LAST_WORD", 0.1):
            runner, began = Runner([sys.executable, "-c", silent], folder), time.monotonic()
            runner.start()
            with self.assertRaisesRegex(Failed, r"step 1 \(ask\): no connection x is open"):
                driver.Run({"steps": steps}, {}, runner, set(), "unix", {}).run()
            runner.kill()
        self.assertLess(time.monotonic() - began, 30)

    def test_a_short_limit_is_tried_again(self):
        """More often if the client waits for a processor."""
        for is_timed, starved, wanted in (
            (False, 100, [1]),
            (True, 0, [1, 10, 40]),
            (True, 100, [1, 10] + [40] * 7),
        ):
            tried, runner = [], mock.Mock()
            runner.waited.side_effect = lambda: len(tried) * starved
            run = mock.Mock(is_timed=is_timed, scenario={"name": "x"})
            run.run.side_effect = lambda factor: tried.append(factor) or self.fails()
            with self.assertRaises(Failed):
                kit.Kit(None, {}, {}).tried(run, runner)
            self.assertEqual(tried, wanted)

    @staticmethod
    def fails():
        raise Failed("it is late")


if __name__ == "__main__":
    unittest.main()
