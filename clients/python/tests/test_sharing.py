#!/usr/bin/env python3
"""A Program, a session and `id` shared by threads; programs that end, are closed, or were
forked."""
import contextlib
import errno
import os
import signal
import stat
import sys
import tempfile
import threading
import time
import unittest
import unittest.mock

import conformance_runner
import tb_client as tb
from helpers.programs import PROGRAM, has_program
from helpers.records import account, at_ten, register, registered, reply, transfer
from helpers.servers import Server
from helpers.threads import closed_in_a_child, in_threads, status_in_a_child
from tb_client import Direct, Program, Session


class Ids(unittest.TestCase):
    def test_they_rise(self):
        before = time.time_ns() // 10**6
        ids = [tb.id() for _ in range(10000)]
        self.assertEqual(ids, sorted(set(ids)))
        self.assertTrue(before <= ids[0] >> 80 <= ids[-1] >> 80 <= time.time_ns() // 10**6)
        self.assertTrue(all(0 < it < tb.amount_max for it in ids))

    def test_they_rise_where_the_clock_stands_or_goes_back(self):
        from tb_client.ids import Ids

        with unittest.mock.patch(
            "time.time_ns", side_effect=[5 * 10**6, 5 * 10**6, 3 * 10**6, 0, 6 * 10**6]
        ):
            ids = Ids()
            made = [ids.next() for _ in range(5)]
        self.assertEqual(made, sorted(set(made)))
        self.assertEqual([it >> 80 for it in made], [5, 5, 5, 5, 6])

    def test_past_the_end_of_the_random_part(self):
        from tb_client.ids import Ids

        with unittest.mock.patch("time.time_ns", lambda: 5 * 10**6), unittest.mock.patch(
            "os.urandom", lambda size: b"\xff" * size
        ):
            ids = Ids()
            made = [ids.next() for _ in range(3)]
        self.assertEqual(made, [(6 << 80) - 1, 6 << 80, (6 << 80) + 1])

    def test_threads(self):
        made = [[] for _ in range(8)]
        interval = sys.getswitchinterval()
        sys.setswitchinterval(1e-6)
        try:
            with unittest.mock.patch("time.time_ns", lambda: 5 * 10**6):
                in_threads(8, lambda number: made[number].extend(tb.id() for _ in range(2000)))
        finally:
            sys.setswitchinterval(interval)
        self.assertTrue(all(it == sorted(it) for it in made))
        self.assertEqual(len({id for it in made for id in it}), 16000)

    def test_a_forked_child_has_its_own(self):
        with unittest.mock.patch("time.time_ns", lambda: 5 * 10**6):
            self.forked()

    def forked(self):
        tb.id()
        reading, writing = os.pipe()
        child = os.fork()
        if not child:
            os.write(writing, b"".join(tb.id().to_bytes(16, "big") for _ in range(200)))
            os._exit(0)
        here = {tb.id() for _ in range(200)}
        os.waitpid(child, 0)
        data = os.read(reading, 3200)
        os.close(reading), os.close(writing)
        there = {int.from_bytes(data[at : at + 16], "big") for at in range(0, 3200, 16)}
        self.assertEqual((len(here), len(there), here & there), (200, 200, set()))


class Sharing(unittest.TestCase):
    def test_one_thread_at_a_time_is_in_a_function(self):
        inside, most = [0], [0]

        def serve(moment, frame):
            inside[0] += 1
            most[0] = max(most[0], inside[0])
            time.sleep(0.001)
            inside[0] -= 1
            return reply(frame, commit=2)

        direct = Direct(serve)
        in_threads(
            8,
            lambda number: [
                Session(direct, number + 1, session=1, now=at_ten).lookup_accounts([])
                for _ in range(5)
            ],
        )
        self.assertEqual(most, [1])

    def test_threads_save_a_session_to_one_file(self):
        session = Session(Direct(lambda moment, frame: reply(frame)), 7, session=1)
        with tempfile.TemporaryDirectory() as folder:
            path = os.path.join(folder, "session.json")

            def work(_):
                for _ in range(50):
                    session.save(path)
                    self.assertEqual(Session.load(session.transport, path).saved, session.saved)

            in_threads(4, work)
            self.assertEqual(os.listdir(folder), ["session.json"])

    def test_with(self):
        with Direct(lambda moment, frame: reply(frame)) as direct:
            with Session(direct, 7, session=1, now=at_ten) as session:
                self.assertEqual(session.lookup_accounts([]), [])
            self.assertRaises(tb.Closed, session.lookup_accounts, [])


@has_program
class Programs(unittest.TestCase):
    def program(self, path=PROGRAM, clients_max=64, **options):
        transport = Program(path, clients_max, **{"timeout": 30, **options})
        self.addCleanup(transport.close)
        return transport

    def test_threads_share_a_program(self):
        program = self.program()
        tb.require_ok(
            Session.register(program, 1, now=at_ten).create_accounts([account(1), account(2)])
        )

        def work(number):
            session = Session.register(program, 100 + number, now=at_ten)
            for at in range(30):
                mine = transfer(1000 * (number + 1) + at, 1, 2, 1, user_data_32=number)
                tb.require_ok(session.create_transfers([mine]))
                self.assertEqual(
                    [(it.id, it.user_data_32) for it in session.lookup_transfers([mine.id])],
                    [(mine.id, number)],
                )

        in_threads(8, work)
        self.assertEqual(
            [
                it.credits_posted
                for it in Session.register(program, 2, now=at_ten).lookup_accounts([2])
            ],
            [240],
        )

    def test_threads_share_a_program_that_is_killed_and_loses_replies(self):
        program = self.program(restarts=True)
        lossy = tb.Faulty(program, requests=range(7, 2000, 11), replies=range(9, 2000, 7))
        tb.require_ok(
            Session.register(lossy, 1, now=at_ten).create_accounts([account(1), account(2)])
        )

        def work(number):
            if number == 8:
                for _ in range(5):
                    time.sleep(0.03)
                    process = program.process
                    if process is not None and process.returncode is None:
                        # Popen.kill could take its status from the thread that waits for it
                        with contextlib.suppress(ProcessLookupError):
                            os.kill(process.pid, signal.SIGKILL)
                return
            session = Session.register(lossy, 100 + number, now=at_ten, attempts=50)
            for at in range(30):
                tb.require_ok(
                    session.create_transfers([transfer(1000 * (number + 1) + at, 1, 2, 1)])
                )

        in_threads(9, work)
        self.assertEqual(
            [
                it.credits_posted
                for it in Session.register(program, 2, now=at_ten).lookup_accounts([2])
            ],
            [240],
        )

    def test_threads_share_a_session(self):
        session = Session.register(self.program(), 7, now=at_ten)
        tb.require_ok(session.create_accounts([account(1), account(2)]))

        def work(number):
            for at in range(30):
                id = 1000 * (number + 1) + at
                tb.require_ok(session.create_transfers([transfer(id, 1, 2, 1)]))
                self.assertEqual([it.id for it in session.lookup_transfers([id])], [id])

        in_threads(8, work)
        self.assertEqual(
            (session.number, [it.credits_posted for it in session.lookup_accounts([2])]),
            (481, [240]),
        )

    def test_a_closed_program_stays_closed(self):
        for restarts in (False, True):
            program = self.program(restarts=restarts)
            session = Session.register(program, 7, now=at_ten)
            frame = tb.request_frame(7, 1, 1, 131)
            for _ in range(2):
                program.close()
                self.assertRaises(tb.Closed, program.exchange, 10, frame)
                with self.assertRaises(tb.Closed) as raised:
                    session.lookup_accounts([1])
                self.assertEqual(str(raised.exception), "this Program was closed")
                self.assertRaises(tb.Closed, Session.register, program, 8)
            self.assertEqual((program.process, session.pending), (None, None))

    def test_with(self):
        with Program(PROGRAM, 2) as program:
            with Session.register(program, 7, now=at_ten) as session:
                process = program.process
                self.assertEqual(session.lookup_accounts([1]), [])
            self.assertEqual(process.returncode, 0)
            self.assertRaises(tb.Closed, session.lookup_accounts, [1])

    def test_closing_while_another_thread_waits(self):
        program = self.program()
        session = Session.register(program, 7, now=at_ten)

        def work(number):
            if number == 0:
                time.sleep(0.05)
                program.close()
                return
            with self.assertRaises(tb.Closed):
                while True:
                    session.lookup_accounts([1])

        in_threads(2, work)

    def test_a_bounded_script(self):
        program = self.program(restarts=True, script_max=56 + 56 + 256)
        session = Session.register(program, 7, now=at_ten)
        session.create_accounts([account(1), account(2)])
        for _ in range(2):
            with self.assertRaises(tb.ScriptFull) as raised:
                session.lookup_accounts([1])
            self.assertEqual(
                str(raised.exception),
                "the script for restarts would have 440 bytes, and script_max is 368",
            )
            self.assertEqual((session.pending, session.number), (None, 1))
        program.script_max = None
        program.process.kill()
        self.assertEqual([it.id for it in session.lookup_accounts([1])], [1])

    def test_no_script_without_restarts(self):
        program = self.program()
        session = Session.register(program, 7, now=at_ten)
        session.create_accounts([account(1)])
        self.assertEqual((program.script, program.script_bytes), ([], 0))

    def test_bytes_that_would_end_the_program_for_all(self):
        program = self.program()
        session = Session.register(program, 7, now=at_ten)
        frame = tb.request_frame(7, session.session, 1, 131, bytes(16))
        wrong = [
            b"",
            frame[:-1],
            frame + b"\0",
            frame[:29] + b"\1" + frame[30:],
            bytes(16) + frame[16:],
            frame[:28] + b"\x07" + frame[29:],
            frame[:24] + bytes(4) + frame[28:],
        ]
        wrong += [frame[:24] + bytes(4) + b"\2" + frame[29:], None, "x", 5]
        for it in wrong:
            self.assertRaises(tb.Invalid, program.exchange, 10, it)
        for moment in (-1, 2**63, 2**64, 1.5, None, "1", True):
            with self.assertRaises(tb.Invalid) as raised:
                program.exchange(moment, frame)
            self.assertEqual(raised.exception.field, "moment")
        self.assertEqual((program.sent, session.lookup_accounts([1])), (1, []))

    def failing(self, session, pipe, call, error, is_done=True):
        """A patch by which the next read or write of the program's pipes fails once, after what it
        does or before."""
        true, number, left = (
            getattr(os, call),
            getattr(session.transport.process, pipe).fileno(),
            [1],
        )

        def broken(file, *rest):
            result = true(file, *rest) if is_done or file != number or not left else None
            if file == number and left:
                left.pop()
                raise error
            return result

        return unittest.mock.patch(f"os.{call}", broken)

    def interrupted(self, session, pipe, call):
        """A transfer amid which a signal's handler raises."""
        with self.failing(session, pipe, call, KeyboardInterrupt), self.assertRaises(
            KeyboardInterrupt
        ):
            session.create_transfers([transfer(11, 1, 2, 100)])
        self.assertEqual(session.in_doubt.items, (transfer(11, 1, 2, 100),))

    def test_a_pipe_that_fails_once(self):
        for pipe, call in (("stdin", "write"), ("stdout", "read")):
            for code in (errno.EIO, errno.ENOMEM):
                for is_done in (False, True):
                    session = self.begun(restarts=True)
                    with self.failing(
                        session, pipe, call, OSError(code, os.strerror(code)), is_done
                    ):
                        self.assertEqual(session.create_transfers([transfer(11, 1, 2, 100)]), [])
                    self.assertEqual(
                        [it.credits_posted for it in session.lookup_accounts([2])], [100]
                    )
                    session = self.begun()
                    with self.failing(
                        session, pipe, call, OSError(code, os.strerror(code)), is_done
                    ), self.assertRaises(tb.ProgramEnded):
                        session.create_transfers([transfer(11, 1, 2, 100)])
                    self.assertEqual(session.in_doubt.items, (transfer(11, 1, 2, 100),))
            session = self.begun()
            with self.failing(session, pipe, call, BlockingIOError(errno.EAGAIN, "not now"), False):
                self.assertEqual(
                    session.create_transfers([transfer(11, 1, 2, 100)]),
                    [],
                    "a pipe that is not ready after all",
                )

    def test_no_file_to_wait_for_pipes(self):
        session = self.begun()
        with unittest.mock.patch(
            "selectors.DefaultSelector",
            side_effect=OSError(errno.EMFILE, os.strerror(errno.EMFILE)),
        ), self.assertRaises(tb.ReplyLost) as raised:
            session.create_transfers([transfer(11, 1, 2, 100)])
        self.assertEqual(
            str(raised.exception), "the pipes of the program failed: Too many open files"
        )
        self.assertEqual(session.retry(), [])
        self.assertEqual([it.credits_posted for it in session.lookup_accounts([2])], [100])

    def begun(self, **options):
        session = Session.register(self.program(**options), 7, now=at_ten)
        tb.require_ok(session.create_accounts([account(1), account(2)]))
        return session

    def test_a_signal_amid_a_read_or_a_write(self):
        """How much went over the pipe is not known then. Nothing is sent twice over it: the
        program is started again, or it has ended."""
        for pipe, call in (("stdin", "write"), ("stdout", "read")):
            session = self.begun(restarts=True)
            self.interrupted(session, pipe, call)
            self.assertEqual(session.retry(), [])
            self.assertEqual([it.credits_posted for it in session.lookup_accounts([2])], [100])
            session = self.begun()
            self.interrupted(session, pipe, call)
            for _ in range(2):
                with self.assertRaises(tb.ProgramEnded) as raised:
                    session.retry()
                self.assertEqual(
                    str(raised.exception), "interrupted amid its pipes, and killed (status -9)"
                )

    def test_a_lock_of_popen_that_was_not_given_back(self):
        """As it is if a signal's handler raises amid Popen.wait. No call waits for that lock."""
        for restarts in (False, True):
            session = self.begun(restarts=restarts)
            session.transport.process._waitpid_lock.acquire()
            session.transport.process.kill()
            if restarts:
                self.assertEqual([it.id for it in session.lookup_accounts([1])], [1])
                session.transport.process._waitpid_lock.acquire()
            else:
                with self.assertRaises(tb.ProgramEnded) as raised:
                    session.lookup_accounts([1])
                self.assertEqual(raised.exception.status, -9)
            session.transport.close()

    def test_a_signal_while_a_reply_is_waited_for(self):
        session = self.begun()
        with unittest.mock.patch(
            "selectors.DefaultSelector.select", side_effect=KeyboardInterrupt
        ), self.assertRaises(KeyboardInterrupt):
            session.create_transfers([transfer(11, 1, 2, 100)])
        self.assertEqual(session.retry(), [])
        self.assertEqual([it.credits_posted for it in session.lookup_accounts([2])], [100])

    def test_a_timeout_that_was_changed_to_what_it_may_not_be(self):
        session = self.begun()
        for value in (-1, "5", None, True):
            session.transport.timeout = value
            with self.assertRaises(tb.Invalid) as raised:
                session.lookup_accounts([1])
            self.assertEqual(
                (raised.exception.field, session.pending, session.transport.sent),
                ("timeout", None, 2),
            )
        session.transport.timeout = 30
        self.assertEqual(session.number, 1)

    def test_a_forked_child_has_no_program(self):
        program = self.program()
        session = Session.register(program, 7, now=at_ten)
        child = os.fork()
        if not child:
            try:
                session.lookup_accounts([1])
            except tb.Closed:
                os._exit(3)
            os._exit(4)
        self.assertEqual(os.waitpid(child, 0)[1] >> 8, 3)
        self.assertEqual(session.lookup_accounts([1]), [])

    def test_a_forked_child_closes_what_another_thread_holds(self):
        """A child may leave the `with` of its parent's transport at any time: it closes its
        copy, and the parent's goes on."""
        program = self.program()
        session = Session.register(program, 7, now=at_ten)
        for lock in (program._lock, program.process._waitpid_lock):
            self.assertEqual(closed_in_a_child(program, lock), 0)
            self.assertEqual(session.lookup_accounts([1]), [])


class Forks(unittest.TestCase):
    """A forked child has copies of its parent's files, and not its threads."""

    def setUp(self):
        folder = tempfile.TemporaryDirectory()
        self.addCleanup(folder.cleanup)
        self.path = os.path.join(folder.name, "a")

    def forked(self):
        """A child that does nothing for a while."""
        child = os.fork()
        if not child:
            time.sleep(60)
            os._exit(0)
        self.addCleanup(os.waitpid, child, 0)
        self.addCleanup(os.kill, child, signal.SIGKILL)

    def test_a_connection_ends_while_a_child_runs(self):
        server = Server(self.path, registered(7))
        it = tb.Socket(self.path)
        it.exchange(0, register(7))
        self.forked()
        it.close()
        server.end()
        self.assertEqual(server.left, [b""])

    def test_a_program_ends_while_a_child_runs(self):
        with open(self.path, "w", encoding="ascii") as file:
            file.write("#!/bin/sh\nexec cat > /dev/null\n")
        os.chmod(self.path, 0o700)
        program = Program(self.path, 2, timeout=5)
        process = program.process
        self.forked()
        program.close()
        self.assertEqual(process.returncode, 0, "it was waited for, and killed")

    def test_a_session_that_a_thread_of_the_parent_holds(self):
        session = Session(tb.Socket(self.path), 7, session=1)
        session.prepare(tb.Operation.lookup_accounts, [1])

        def retry():
            self.assertRaises(tb.Closed, session.retry)

        self.assertEqual(status_in_a_child(retry, session._lock), 0)

    def test_a_function_that_a_thread_of_the_parent_is_in(self):
        direct = Direct(lambda moment, frame: frame)
        for it in (direct, tb.Faulty(direct)):
            self.assertEqual(status_in_a_child(lambda: it.exchange(0, b""), it._lock), 0)

    def test_transports_that_are_equal(self):
        """Each is closed in a child, though a subclass says that they are one, or has no hash."""

        class Equal(tb.Socket):
            def __eq__(self, other):
                return True

        one, other = Equal(self.path), Equal(self.path)

        def exchange():
            for it in (one, other):
                self.assertRaises(tb.Closed, it.exchange, 0, register(7))

        self.assertEqual(status_in_a_child(exchange, threading.Lock()), 0)


class TheKitsRunner(unittest.TestCase):
    def test_a_retry_answers_for_what_it_sent(self):
        """At its turn another request may be in doubt than when it was called."""
        runner, answer = conformance_runner.Runner(), tb.Reply(7, 1, 1, 130, 0, 2, b"")
        saved = {"client": "7", "session": "1", "number": "0", "pending": ""}
        with tempfile.TemporaryDirectory() as folder:
            server = Server(os.path.join(folder, "a"), answer.to_bytes())
            runner.do_connect({"transport": "t", "addresses": [{"unix": server.path}]})
            runner.do_resume({"session": "s", "transport": "t", "saved": saved})
            runner.do_prepare({"session": "s", "operation": "create_transfers"})
            with unittest.mock.patch.object(tb.Session, "in_doubt", None):
                self.assertEqual(runner.do_retry({"session": "s"}), {"results": []})
            runner.do_reset({})
            server.end()


@has_program
class FakePrograms(unittest.TestCase):
    """Programs that end on purpose, and then run as the true one."""

    def begun(self, times, last, **options):
        folder = tempfile.TemporaryDirectory()
        self.addCleanup(folder.cleanup)
        path = os.path.join(folder.name, "tbs")
        with open(path, "w", encoding="ascii") as file:
            file.write(
                f'#!/bin/sh\ncd "{folder.name}"\necho >> lives\n'
                f"if [ $(wc -l < lives) -le {times} ]; then head -c 56 > /dev/null; {last}; fi\n"
                f'exec "{PROGRAM}" "$@"\n'
            )
        os.chmod(path, os.stat(path).st_mode | stat.S_IXUSR)
        program = Program(path, 2, timeout=30, **options)
        self.addCleanup(program.close)
        return program

    def test_want_of_memory(self):
        no_memory = "echo 'tbs: NoMemory' >&2; exit 1"
        self.assertEqual(Session.register(self.begun(4, no_memory, restarts=True), 7).session, 1)
        self.assertRaises(tb.NoMemory, Session.register, self.begun(5, no_memory, restarts=True), 7)
        with self.assertRaises(tb.ProgramEnded) as raised:
            Session.register(self.begun(1, no_memory), 7)
        self.assertEqual(
            (raised.exception.fault, raised.exception.status, str(raised.exception)),
            ("NoMemory", 1, "NoMemory (status 1)"),
        )

    def test_other_ends(self):
        for last, said in (
            ("echo 'tbs: Device' >&2; exit 1", "Device (status 1)"),
            ("exit 0", "the program ended (status 0)"),
            ("kill -9 $$", "killed by SIGKILL (status -9)"),
        ):
            with self.assertRaises(tb.ProgramEnded) as raised:
                Session.register(self.begun(1, last), 7)
            self.assertEqual(str(raised.exception), said)

    def test_a_program_that_says_nothing(self):
        started = time.monotonic()
        with self.begun(1, "exec sleep 100") as program:
            program.timeout = 0.1
            self.assertRaises(tb.ReplyLost, Session.register, program, 7)
        self.assertLess(time.monotonic() - started, 10)


if __name__ == "__main__":
    unittest.main()
