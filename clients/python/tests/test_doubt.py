#!/usr/bin/env python3
"""Requests in doubt: over crashes, evictions, lost replies, lack of memory and clocks that jump."""
import json
import os
import random
import signal
import struct
import subprocess
import sys
import tempfile
import time
import unittest
from unittest import mock

import tb_client as tb
from paths import PYTHONPATH
from helpers.programs import PROGRAM, has_program
from helpers.records import account, at_ten, reply, results, transfer
from tb_client import Account, Direct, Program, Session

SECOND = 10**9
# A client that makes 30 transfers, and speaks frames over its pipes as `tbs` does.
CLIENT = """
import os, struct, sys
from tb_client import *

def exchange(moment, frame):
    sys.stdout.buffer.write(struct.pack("<Q", moment) + frame)
    sys.stdout.buffer.flush()
    head = sys.stdin.buffer.read(HEADER)
    return head + sys.stdin.buffer.read(reply_length(head) - HEADER)

path, transport = sys.argv[1], Direct(exchange)
if not os.path.exists(path):
    Session(transport, 7).save(path)
session = Session.load(transport, path)
if not session.session and session.pending is None:
    session.prepare(Operation.register)
    session.save(path)
while session.number < 30:
    if session.pending is None:
        at = session.number + 1
        session.prepare(Operation.create_transfers, [Transfer(id(), 1, 2, at, ledger=700, code=10)])
        session.save(path)
    assert not session.retry()
    session.save(path)
"""


class Crash(BaseException):
    """The client ends here."""


class Crashing:
    """A transport whose client ends before its nth exchange, or after it."""

    def __init__(self, inner, before=0, after=0):
        self.inner, self.before, self.after, self.count = inner, before, after, 0

    def exchange(self, moment, frame):
        self.count += 1
        if self.count == self.before:
            raise Crash()
        answer = self.inner.exchange(moment, frame)
        if self.count == self.after:
            raise Crash()
        return answer


class Doubt(unittest.TestCase):
    def session(self, serve, **options):
        def exchange(moment, frame):
            self.sent.append((moment, frame))
            return serve(frame)

        self.sent = []
        return Session(Direct(exchange), 7, session=1, **{"now": at_ten, **options})

    def failing(self, error, times):
        left = [times]

        def serve(frame):
            left[0] -= 1
            if left[0] >= 0:
                raise error
            return reply(frame, commit=2)

        return serve

    def test_want_of_memory_is_tried_again_so_many_times(self):
        with mock.patch("time.sleep") as sleep:
            session = self.session(self.failing(tb.NoMemory("no memory"), 4))
            self.assertEqual(session.create_accounts([account(1)]), [])
            self.assertEqual((len(self.sent), len(set(self.sent)), sleep.call_count), (5, 1, 4))
            session = self.session(self.failing(tb.NoMemory("no memory"), 5))
            self.assertRaises(tb.NoMemory, session.create_accounts, [account(1)])
            self.assertEqual((len(self.sent), session.in_doubt.items), (5, (account(1),)))
            self.assertEqual((session.retry(), session.pending, session.number), ([], None, 1))
            session = self.session(self.failing(tb.NoMemory("no memory"), 1), attempts=1)
            self.assertRaises(tb.NoMemory, session.create_accounts, [account(1)])

    def paused(self, error, attempts=5, **options):
        """The pauses of a call in which each attempt gets this error."""
        with mock.patch("time.sleep") as sleep:
            session = self.session(self.failing(error, 10**9), attempts=attempts, **options)
            self.assertRaises(type(error), session.create_accounts, [account(1)])
        self.assertEqual(
            (len(self.sent), len(set(self.sent)), session.in_doubt.items),
            (attempts, 1, (account(1),)),
        )
        return [it.args[0] for it in sleep.call_args_list]

    def test_pauses_where_the_server_says_to_come_later(self):
        """docs/use/CLIENTS.md: `pause` seconds (0.05), each time twice as many, up to a second,
        or to `pause` if that is longer."""
        for error in (tb.Busy("busy"), tb.NoMemory("no memory")):
            self.assertEqual(self.paused(error), [0.05, 0.1, 0.2, 0.4])
            self.assertEqual(self.paused(error, attempts=1), [])
            self.assertEqual(
                self.paused(error, attempts=9), [0.05, 0.1, 0.2, 0.4, 0.8, 1.0, 1.0, 1.0]
            )
            self.assertEqual(
                self.paused(error, attempts=2000)[5:], [1.0] * 1994, "they stay bounded"
            )
            self.assertEqual(self.paused(error, pause=0.3), [0.3, 0.6, 1.0, 1.0])
            self.assertEqual(self.paused(error, pause=7), [7, 7, 7, 7])
            self.assertEqual(self.paused(error, pause=0), [0, 0, 0, 0])
        self.assertEqual(
            self.paused(tb.ReplyLost("lost")), [], "a reply that was lost is asked for at once"
        )
        with mock.patch("time.sleep") as sleep:
            session = self.session(lambda frame: reply(frame, status=tb.Status.NotYet))
            self.assertRaises(tb.NotYet, session.lookup_accounts, [1])
        self.assertEqual([it.args[0] for it in sleep.call_args_list], [0.05, 0.1, 0.2, 0.4])

    def test_each_way_to_make_a_session_takes_a_pause(self):
        serve = Direct(lambda moment, frame: reply(frame))
        with tempfile.TemporaryDirectory() as folder:
            path = os.path.join(folder, "session.json")
            made = [
                Session(serve, 7, pause=3),
                Session.register(serve, pause=3),
                Session.resumed(serve, Session(serve, 7).saved, pause=3),
            ]
            made[0].save(path)
            made.append(Session.load(serve, path, pause=3))
        self.assertEqual([it.pause for it in made], [3] * 4)

    def test_options_that_were_changed_to_what_they_may_not_be(self):
        for field, value in (
            ("attempts", 0),
            ("attempts", -1),
            ("attempts", 1.5),
            ("attempts", "5"),
            ("pause", -1),
            ("pause", None),
            ("pause", "1"),
            ("jump_max", "60"),
            ("jump_max", -1),
            ("now", None),
            ("transport", None),
        ):
            session = self.session(lambda frame: reply(frame))
            setattr(session, field, value)
            with self.assertRaises(tb.Invalid) as raised:
                session.create_accounts([account(1)])
            self.assertEqual(
                (raised.exception.field, self.sent, session.pending), (field, [], None)
            )

    def test_what_is_in_doubt_can_be_read(self):
        lost = self.failing(tb.ReplyLost("lost"), 10**9)
        for call, items, operation in (
            ("create_accounts", (account(1), account(2)), 129),
            ("create_transfers", (transfer(1, 2, 3, 4, flags=tb.TransferFlags.pending),), 130),
            ("lookup_accounts", (1, tb.amount_max), 131),
            ("lookup_transfers", (), 132),
        ):
            session = self.session(lost)
            self.assertRaises(tb.ReplyLost, getattr(session, call), items)
            self.assertEqual(session.in_doubt, tb.Request(7, 1, 1, tb.Operation(operation), items))
            self.assertEqual(
                Session.resumed(session.transport, json.loads(json.dumps(session.saved))).in_doubt,
                session.in_doubt,
            )

    def test_what_a_retry_says_can_be_required(self):
        failed = [tb.EventResult(0, tb.CreateTransferResult.exists)]
        for said in (None, [], [account(1)], [transfer(1, 2, 3, 4)]):
            tb.require_ok(said)
        self.assertRaises(tb.EventsFailed, tb.require_ok, failed)

    def test_items_that_ask_the_session_themselves(self):
        def lost(moment, frame):
            raise tb.ReplyLost("lost")

        def items():
            with self.assertRaises(tb.ReplyLost):
                session.create_accounts([Account(1)])
            yield Account(2)

        session = Session(Direct(lost), 7, session=1, now=lambda: 10, attempts=1)
        self.assertRaises(tb.InDoubt, session.create_accounts, items())
        self.assertEqual(session.in_doubt.items, (Account(1),))

    def test_nothing_in_doubt(self):
        session = self.session(lambda frame: reply(frame, commit=2))
        self.assertRaises(tb.NothingInDoubt, session.retry)
        self.assertIsNone(session.in_doubt)

    def test_a_wrong_reply_leaves_it_in_doubt(self):
        session = self.session(lambda frame: None)
        self.assertRaises(tb.BadReply, session.create_accounts, [account(1)])
        self.assertEqual(session.in_doubt.items, (account(1),))

    def test_what_was_not_sent_is_not_in_doubt(self):
        session = self.session(lambda frame: reply(frame, commit=2))
        session.transport.close()
        self.assertRaises(tb.Closed, session.create_accounts, [account(1)])
        self.assertEqual((session.pending, self.sent), (None, []))

    def test_one_base_of_all_errors(self):
        for name in tb.__all__:
            it = getattr(tb, name)
            if isinstance(it, type) and issubclass(it, BaseException):
                self.assertTrue(issubclass(it, tb.ClientError), name)

    def test_a_jump_after_a_lost_reply_leaves_it_in_doubt(self):
        moments = iter((10, 10**18))
        session = self.session(self.failing(tb.ReplyLost("lost"), 1), now=lambda: next(moments))
        with self.assertRaises(tb.ReplyLost) as lost:
            session.create_accounts([account(1)])
        self.assertRegex(
            str(lost.exception),
            "^lost; it was not sent again: the clock is .* s ahead of where it should be",
        )
        self.assertIsInstance(lost.exception.__cause__, tb.ClockJumped)
        self.assertEqual((len(self.sent), session.in_doubt.items), (1, (account(1),)))

    def test_what_was_sent_once_is_never_told_as_not_sent(self):
        for first in (tb.ReplyLost("lost"), tb.NoMemory("lost")):
            for then in (
                tb.CannotConnect("nobody listens"),
                tb.Closed("closed"),
                tb.CannotStart("no program"),
            ):
                faults = [first, then]

                def serve(frame):
                    if faults:
                        raise faults.pop(0)
                    return reply(frame, commit=2)

                with mock.patch("time.sleep"):
                    session = self.session(serve)
                    with self.assertRaises(tb.ReplyLost) as lost:
                        session.create_accounts([account(1)])
                self.assertEqual(str(lost.exception), f"lost; it was not sent again: {then}")
                self.assertEqual(session.in_doubt.items, (account(1),))
                faults.append(then)
                self.assertRaises(type(then), session.retry)  # of this call it is true
                self.assertEqual((session.retry(), len(set(self.sent))), ([], 1))

    def test_a_fault_that_was_told_is_shown(self):
        """The one of several sendings that reported why the server ended."""
        gone = tb.CannotConnect("nobody listens")
        for faults, shown in (
            ([tb.ReplyLost("told: Full", "Full"), tb.ReplyLost("reset"), gone], "told: Full"),
            ([tb.Busy("Busy", "Busy"), tb.ReplyLost("reset"), gone], "reset"),
            ([tb.ReplyLost("first"), tb.ReplyLost("reset"), gone], "reset"),
            ([tb.ReplyLost("reset"), tb.ReplyLost("told: Full", "Full"), gone], "told: Full"),
        ):
            session = Session(mock.Mock(exchange=mock.Mock(side_effect=faults)), 7, pause=0)
            session.prepare(tb.Operation.register)
            with self.assertRaises(tb.ReplyLost) as lost:
                session.retry()
            self.assertEqual(str(lost.exception), f"{shown}; it was not sent again: nobody listens")

    def test_a_file_is_on_the_disk_before_it_takes_the_old_one_s_place(self):
        with tempfile.TemporaryDirectory() as folder:
            path, calls = os.path.join(folder, "session.json"), mock.Mock()
            with mock.patch("os.fsync", calls.fsync), mock.patch("os.replace", calls.replace):
                Session(Direct(reply), 7).save(path)
            self.assertEqual([it[0] for it in calls.mock_calls], ["fsync", "replace", "fsync"])
            self.assertEqual(os.listdir(folder), ["session.json.new"])

    # Clocks

    def test_a_clock_that_jumps(self):
        session = self.session(lambda frame: reply(frame, commit=2), now=time.time_ns)
        session.lookup_accounts([1])
        for ahead in (61 * SECOND, 3600 * SECOND, 2**62):
            session.now = lambda ahead=ahead: time.time_ns() + ahead
            with self.assertRaises(tb.ClockJumped) as raised:
                session.lookup_accounts([1])
            self.assertIn("jump_max is 60 s", str(raised.exception))
            self.assertEqual((len(self.sent), session.pending), (1, None))
        session.jump_max = None
        session.lookup_accounts([1])
        self.assertEqual(len(self.sent), 2)

    def test_the_first_moment_too(self):
        session = self.session(reply, now=lambda: time.time_ns() + 61 * SECOND)
        self.assertRaises(tb.ClockJumped, session.lookup_accounts, [1])
        session = self.session(reply, now=lambda: time.time_ns() + 61 * SECOND, jump_max=62)
        session.lookup_accounts([1])

    def test_a_clock_that_goes_back_and_comes_again(self):
        at = [0]
        session = self.session(
            lambda frame: reply(frame, commit=2), now=lambda: time.time_ns() - at[0]
        )
        for at[0] in (0, 3600 * SECOND, 0, 7200 * SECOND, 0):
            session.lookup_accounts([1])

    def test_time_that_goes_by_is_no_jump(self):
        at = [0]
        session = self.session(lambda frame: reply(frame, commit=2), now=lambda: 10**18 + at[0])
        with mock.patch("tb_client.moments.running_ns", lambda: at[0]):
            for at[0] in (0, 3600 * SECOND, 10**6 * SECOND):
                session.lookup_accounts([1])

    def test_a_clock_of_its_own(self):
        at = [10]
        session = self.session(lambda frame: reply(frame, commit=2), now=lambda: at[0])
        session.lookup_accounts([1])
        at[0] = 10 + 59 * SECOND
        session.lookup_accounts([1])
        at[0] = 10 + 120 * SECOND
        self.assertRaises(tb.ClockJumped, session.lookup_accounts, [1])

    def test_a_request_in_doubt_stays_so_over_a_jump(self):
        session = self.session(self.failing(tb.ReplyLost("lost"), 5), now=time.time_ns)
        self.assertRaises(tb.ReplyLost, session.create_accounts, [account(1)])
        session.now = lambda: time.time_ns() + 61 * SECOND
        self.assertRaises(tb.ClockJumped, session.retry)
        self.assertEqual((len(self.sent), session.in_doubt.items), (5, (account(1),)))
        session.now = time.time_ns
        self.assertEqual(session.retry(), [])


@has_program
class OnTheProgram(unittest.TestCase):
    def program(self, clients_max=2, **options):
        transport = Program(PROGRAM, clients_max, **{"timeout": 30, **options})
        self.addCleanup(transport.close)
        return transport

    def test_an_eviction_keeps_what_is_in_doubt(self):
        """The reply to the transfer is lost, others register, and the session ends: the transfer
        was made, and is not made again."""
        for executed in (False, True):
            program = self.program(1)
            first = Session.register(program, 7, now=at_ten)
            tb.require_ok(first.create_accounts([account(1), account(2)]))
            ids = [tb.id(), tb.id()]
            lossy = tb.Faulty(program, **{"replies" if executed else "requests": range(1, 6)})
            first.transport = lossy
            self.assertRaises(
                tb.ReplyLost, first.create_transfers, [transfer(it, 1, 2, 50) for it in ids]
            )
            Session.register(program, 8, now=at_ten)
            first.transport = program
            saved = json.loads(json.dumps(first.saved))
            for again in (first, Session.resumed(program, saved, now=at_ten)):
                self.assertRaises(tb.NoSession, again.retry)
                self.assertEqual(again.saved, saved)
                with self.assertRaises(tb.InDoubt) as raised:
                    again.lookup_accounts([1])
                self.assertEqual(
                    str(raised.exception),
                    "the session has ended (NoSession): register anew, and see in_doubt",
                )
                second = Session.register(program, now=at_ten)
                made = second.create_transfers(again.in_doubt.items)
                was_there = executed or again is not first
                self.assertEqual(results(made), [(0, "exists"), (1, "exists")] if was_there else [])
                self.assertEqual([it.credits_posted for it in second.lookup_accounts([2])], [100])

    def test_a_crash_at_each_step(self):
        """The client ends before or after each exchange, and between preparing and saving. Its
        next life goes on from the file."""
        with tempfile.TemporaryDirectory() as folder:
            path = os.path.join(folder, "session.json")
            ended = 0
            for how in ("before", "after", "unsaved"):
                for at in range(1, 6):
                    if os.path.exists(path):
                        os.remove(path)
                    ended += self.lives(path, how, at)
            self.assertEqual(ended, 15 - 1)  # there is no fifth unsaved request
            self.assertEqual(os.listdir(folder), ["session.json"])

    def lives(self, path, how, at):
        program, crashes = self.program(), 0
        transport = Crashing(program, **({} if how == "unsaved" else {how: at}))
        steps = [
            (tb.Operation.create_accounts, [account(1), account(2)]),
            (tb.Operation.create_transfers, [transfer(11, 1, 2, 100)]),
            (tb.Operation.create_transfers, [transfer(12, 1, 2, 10)]),
            (tb.Operation.lookup_accounts, [2]),
        ]
        said = None
        while True:
            try:
                if os.path.exists(path):
                    session = Session.load(transport, path, now=at_ten)
                else:
                    session = Session(transport, 7, now=at_ten)
                    session.prepare(tb.Operation.register)
                    session.save(path)
                if session.pending is not None:
                    said = session.retry()
                    session.save(path)
                for step in steps[session.number :]:
                    session.prepare(*step)
                    if how == "unsaved" and session.number + 1 == at and not crashes:
                        raise Crash()
                    session.save(path)
                    said = session.retry()
                    session.save(path)
                break
            except Crash:
                crashes += 1
        self.assertEqual([it.credits_posted for it in said], [110])
        self.assertEqual(session.session, 1)
        program.close()
        return crashes

    def test_a_client_killed_at_any_time(self):
        """A client in a process of its own is killed again and again, while the server goes on.
        Its file is all that it has."""
        chance, program, lives = random.Random(3), self.program(), 0
        tb.require_ok(
            Session.register(program, 9, now=at_ten).create_accounts([account(1), account(2)])
        )
        with tempfile.TemporaryDirectory() as folder:
            path, there = os.path.join(folder, "session.json"), {
                **os.environ,
                "PYTHONPATH": PYTHONPATH,
            }
            status, deadline = None, time.monotonic() + 120
            while status != 0 and time.monotonic() < deadline:
                lives += 1
                life = subprocess.Popen(
                    [sys.executable, "-B", "-c", CLIENT, path],
                    stdin=subprocess.PIPE,
                    stdout=subprocess.PIPE,
                    env=there,
                )
                status = self.serve(life, program, chance.randrange(0, 12))
            self.assertEqual(status, 0)
        self.assertGreater(lives, 3)
        session = Session.register(program, 9 + 1, now=at_ten)
        self.assertEqual(
            [it.credits_posted for it in session.lookup_accounts([2])], [sum(range(1, 31))]
        )

    def serve(self, life, program, most):
        """Serves a number of requests of a client's process, 0 for all, and kills it before or
        after the last one's reply. Returns its status."""
        served = 0
        with life, life.stdin, life.stdout:
            while head := life.stdout.read(56):
                (length,) = struct.unpack_from("<I", head, 40)
                frame = head[8:] + life.stdout.read(length)
                answer = program.exchange(10, frame)
                served += 1
                if served == most and most % 2:
                    life.kill()
                    break
                life.stdin.write(answer)
                life.stdin.flush()
                if served == most:
                    time.sleep(0.001 * (most % 4))
                    life.kill()
                    break
        return life.wait()

    def test_what_was_seen_of_a_lost_reply_outlives_the_program(self):
        """One session's reply is not awaited, another sees what that request did: after a kill
        it is still there."""
        program = self.program(restarts=True)
        first, second = (Session.register(program, it, now=at_ten) for it in (7, 8))
        tb.require_ok(first.create_accounts([account(1), account(2)]))
        program.timeout = 0.05
        os.kill(program.process.pid, signal.SIGSTOP)
        self.assertRaises(tb.ReplyLost, first.create_transfers, [transfer(11, 1, 2, 100)])
        os.kill(program.process.pid, signal.SIGCONT)
        program.timeout = 30
        seen = second.lookup_transfers([11])
        self.assertEqual([it.amount for it in seen], [100])
        for _ in range(3):
            program.process.kill()
            self.assertEqual(second.lookup_transfers([11]), seen)
        self.assertEqual(first.retry(), [])
        self.assertEqual([it.credits_posted for it in first.lookup_accounts([2])], [100])

    def test_a_request_that_ends_the_program_is_not_kept(self):
        program = self.program(restarts=True)
        tb.require_ok(Session.register(program, 7, now=at_ten).create_accounts([account(1)]))
        last = Session.register(program, 8, now=lambda: 2**63 - 1, jump_max=None)
        for _ in range(2):
            self.assertRaises(
                tb.ProgramEnded, last.retry if last.pending else lambda: last.lookup_accounts([1])
            )
            self.assertEqual(len(program.script), 3)
        repeated = tb.Reply.from_bytes(
            program.exchange(10, tb.request_frame(7, 1, 1, 129, account(1).to_bytes()))
        )
        self.assertEqual((repeated.status, repeated.commit), (0, 2))

    def test_a_program_that_is_killed_while_it_comes_back(self):
        program = self.program(restarts=True)
        session = Session.register(program, 7, now=at_ten, attempts=1)
        tb.require_ok(session.create_accounts([account(1), account(2)]))
        for id in range(1, 3001):
            session.create_transfers([transfer(id, 1, 2, 1)])
        program.process.kill()
        self.assertRaises(tb.ReplyLost, session.lookup_accounts, [2])
        for is_read in (False, True):  # nothing of the script has replies by then, or a part of it
            program.timeout = 1e-4
            self.assertRaises(tb.ReplyLost, session.retry)
            while is_read and not program.seen:
                self.assertRaises(tb.ReplyLost, session.retry)
            program.process.kill()
            program.timeout = 30
            self.assertRaises(tb.ReplyLost, session.retry)
        self.assertEqual([it.credits_posted for it in session.retry()], [3000])

    def test_a_moment_far_ahead_ends_what_others_hold(self):
        """What `jump_max` is for: a clock an hour ahead would end another client's pending
        transfer."""
        program = self.program()
        first = Session.register(program, 7)
        tb.require_ok(first.create_accounts([account(1), account(2)]))
        tb.require_ok(
            first.create_transfers(
                [transfer(11, 1, 2, 100, timeout=600, flags=tb.TransferFlags.pending)]
            )
        )
        second = Session.register(program, 8)
        second.now = lambda: time.time_ns() + 3600 * SECOND
        self.assertRaises(tb.ClockJumped, second.lookup_accounts, [1])
        self.assertEqual([it.debits_pending for it in first.lookup_accounts([1])], [100])
        second.jump_max = None
        second.lookup_accounts([1])
        self.assertEqual([it.debits_pending for it in first.lookup_accounts([1])], [0])


if __name__ == "__main__":
    unittest.main()
