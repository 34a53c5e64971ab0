#!/usr/bin/env python3
"""Tests of the client: its frames, its retries over transports that fail on purpose, and worked
rows on the program itself.

    python3 -m unittest        (in this folder; TBS names another tbs than crates/tbs/out/tbs)
"""
import dataclasses
import json
import os
import signal
import struct
import tempfile
import time
import unittest

import tb_client as tb
from helpers.programs import PROGRAM, has_program
from helpers.records import account, at_ten, reply, results, transfer, wrong_replies
from tb_client import (
    Account,
    AccountFlags,
    Direct,
    Faulty,
    Program,
    Session,
    Transfer,
    TransferFlags,
)


class Frames(unittest.TestCase):
    def test_request(self):
        self.assertEqual(tb.request_frame(7, 0, 0, 2).hex(), "07" + "00" * 27 + "02" + "00" * 19)
        body = account(1).to_bytes() + account(2).to_bytes()
        header = (
            "07" + "00" * 15 + "01" + "00" * 7 + "01000000" + "81000000" + "00010000" + "00" * 12
        )
        self.assertEqual(tb.request_frame(7, 1, 1, 129, body)[:48].hex(), header)
        self.assertEqual(body[:128].hex(), "01" + "00" * 111 + "bc0200000a0000000000000000000000")

    def test_records(self):
        whole = Account(
            2**128 - 1,
            1,
            2,
            3,
            4,
            5,
            6,
            7,
            0,
            700,
            10,
            AccountFlags.linked | AccountFlags.closed,
            9,
        )
        self.assertEqual(Account.from_bytes(whole.to_bytes()), whole)
        moved = Transfer(
            1,
            2,
            3,
            tb.MAX,
            4,
            5,
            6,
            7,
            8,
            700,
            10,
            TransferFlags.pending | TransferFlags.closing_debit,
            9,
        )
        self.assertEqual(Transfer.from_bytes(moved.to_bytes()), moved)
        self.assertEqual(moved.to_bytes()[118:120].hex(), "4200")

    def test_requests_there_and_back(self):
        for operation, items in (
            (2, ()),
            (129, (account(1), account(2))),
            (130, (transfer(1, 1, 2, 10),)),
            (131, (1, tb.MAX)),
            (132, ()),
        ):
            session, number = (0, 0) if operation == 2 else (5, 6)
            made = tb.Request(7, session, number, tb.Operation(operation), items)
            self.assertEqual(tb.Request.from_bytes(made.to_bytes()), made)
        for operation, items in (
            (2, (1,)),
            (129, (transfer(1, 1, 2, 10),)),
            (130, (account(1),)),
            (131, (account(1),)),
            (133, ()),
            (129, 5),
        ):
            with self.assertRaises(tb.Invalid, msg=str(operation)):
                tb.Request(7, 5, 6, operation, items).to_bytes()

    def test_what_a_reply_says(self):
        whole = account(1, credits_posted=5)
        for operation, body, items in (
            (2, b"", None),
            (129, b"\1\0\0\0\x15\0\0\0", [tb.EventResult(1, tb.CreateAccountResult.exists)]),
            (130, b"\1\0\0\0\x2e\0\0\0", [tb.EventResult(1, tb.CreateTransferResult.exists)]),
            (131, whole.to_bytes(), [whole]),
            (132, b"", []),
        ):
            self.assertEqual(tb.Reply(7, 1, 1, operation, 0, 2, body).items, items)
        for operation, body in ((133, b""), (129, b"1234567"), (130, b"\0\0\0\0\xff\0\0\0")):
            with self.assertRaises(tb.BadReply):
                tb.Reply(7, 1, 1, operation, 0, 2, body).items

    def test_reply(self):
        frame = bytes.fromhex(
            "07"
            + "00" * 15
            + "01"
            + "00" * 7
            + "01000000"
            + "8100"
            + "0000"
            + "08000000"
            + "0200000000000000"
            + "00" * 4
            + "0100000015000000"
        )
        read = tb.Reply.from_bytes(frame)
        self.assertEqual(
            (read.client, read.session, read.number, read.operation, read.status, read.commit),
            (7, 1, 1, 129, 0, 2),
        )
        self.assertEqual(read.body, b"\1\0\0\0\x15\0\0\0")
        for wrong in (frame[:47], frame[:-1], frame + b"\0"):
            self.assertRaises(tb.BadReply, tb.Reply.from_bytes, wrong)

    def test_headers_that_are_cut(self):
        """Short is the first fault of docs/use/FORMATS.md: fewer than 48 bytes are there."""
        request, answer = (
            tb.request_frame(7, 1, 1, 131, bytes(16)),
            tb.Reply(7, 1, 1, 129, 0, 2, bytes(8)).to_bytes(),
        )
        for count in range(48):
            self.assertEqual(
                (tb.request_fault(request[:count]), tb.frames.reply_fault(answer[:count])),
                ("Short", "Short"),
                count,
            )
            for call in (tb.reply_length, tb.frames.test_reply):
                with self.assertRaisesRegex(tb.BadReply, "Short", msg=count):
                    call(answer[:count])
        self.assertEqual(
            (
                tb.request_fault(request, 17),
                tb.request_fault(request, 10**9),
                tb.request_fault(b"12" + request, 2),
            ),
            ("Short", "Short", None),
        )
        self.assertEqual(
            (
                tb.reply_length(answer),
                tb.reply_length(b"123" + answer, 3),
                tb.reply_length(request),
            ),
            (56, 56, 64),
        )
        self.assertRaises(tb.BadReply, tb.reply_length, answer, 9)

    def test_headers_of_each_type(self):
        request = tb.request_frame(7, 1, 1, 131)
        for call in (
            tb.request_fault,
            tb.reply_length,
            tb.frames.reply_fault,
            tb.frames.test_reply,
        ):
            for value in (None, 5, "x" * 48, [0] * 48, {}, request.hex(), object()):
                with self.assertRaises(tb.InvalidType) as raised:
                    call(value)
                self.assertEqual(raised.exception.field, "data")
            for value in (-1, -48, 2**64, 1.0, "0", None, True):
                with self.assertRaises(tb.Invalid) as raised:
                    call(request, value)
                self.assertEqual(raised.exception.field, "at")
        for like in (bytearray, memoryview):
            self.assertEqual(
                (
                    tb.request_fault(like(request)),
                    tb.request_fault(like(bytes(48))),
                    tb.reply_length(like(request)),
                ),
                (None, "ClientZero", 48),
            )

    def test_bodies_of_a_reply_that_is_made(self):
        for body in (None, 5, "x", [1], [b"1"]):
            for call in (
                lambda: tb.Reply(7, 1, 1, 129, 0, 2, body).to_bytes(),
                lambda: tb.Reply(7, 1, 1, 129, 0, 2, body).items,
            ):
                with self.assertRaises(tb.InvalidType) as raised:
                    call()
                self.assertEqual(raised.exception.field, "Reply.body")

    def test_each_fault_of_a_reply(self):
        """Nothing is read of a reply that has a fault of docs/use/FORMATS.md, and the error
        names it."""
        for name, wrong in wrong_replies().items():
            with self.assertRaises(tb.BadReply) as raised:
                tb.Reply.from_bytes(wrong)
            self.assertEqual(str(raised.exception), f"what came is no frame of a reply ({name})")
        for field, value in (
            ("client", -1),
            ("session", 2**64),
            ("number", 2**32),
            ("operation", 256),
            ("status", -1),
            ("commit", 2**64),
        ):
            with self.assertRaises(tb.InvalidValue) as refused:
                dataclasses.replace(tb.Reply(7, 1, 1, 129, 0, 2, b""), **{field: value}).to_bytes()
            self.assertEqual(refused.exception.field, f"Reply.{field}")


class Programs(unittest.TestCase):
    """What is told of a program that is no server, or ends amid a reply. The programs are shell
    scripts."""

    def asked(self, answer, then, timeout=0.5):
        """What a session gets from a program that writes these bytes and then does this, and
        from the same transport asked again."""
        with tempfile.TemporaryDirectory() as folder:
            path, answers = os.path.join(folder, "it"), os.path.join(folder, "answer")
            for name, data in (
                (path, f"#!/bin/sh\ncat {answers}\n{then}\n".encode()),
                (answers, answer),
            ):
                with open(name, "wb") as file:
                    file.write(data)
            os.chmod(path, 0o755)
            told, began = [], time.monotonic()
            with Program(path, timeout=timeout) as program:
                session = Session(program, 7, session=1, attempts=1, now=at_ten)
                session.prepare(129, [account(1)])
                for _ in range(2):
                    try:
                        told.append(session.retry())
                    except tb.ClientError as fault:
                        told.append((type(fault), str(fault)))
                        self.assertIsNotNone(session.pending)
            return told, time.monotonic() - began

    def test_a_program_that_is_no_server(self):
        for name, wrong in wrong_replies().items():
            fault = (tb.BadReply, f"what came is no frame of a reply ({name})")
            told, took = self.asked(wrong, "exec cat", timeout=60)
            self.assertEqual(told, [fault, fault], name)
            self.assertLess(
                took, 60, "a wrong header is told at once, and its body is not waited for"
            )
        told, _ = self.asked(
            b"Usage: it is a program, and no server. It writes a text.\n", "exec cat", timeout=60
        )
        self.assertEqual(
            told[0],
            (
                tb.BadReply,
                "what came is no frame of a reply (UnknownOperation): 'Usage: it is a program, "
                "and no server. It writes'",
            ),
        )
        right = tb.Reply(7, 1, 1, 129, 0, 2, b"").to_bytes()
        told, _ = self.asked(right[:32] + b"\xff" * 4 + right[36:], "exec cat", timeout=60)
        self.assertEqual(told[0], (tb.BadReply, f"a reply with a body of {2**32 - 1} bytes"))

    def test_a_program_that_holds_its_pipes(self):
        """One that writes no more and does not end is killed; what one started and left does not
        hold up its end."""
        for then, said in (
            ("exec >&-; exec sleep 600", "killed by SIGKILL (status -9)"),
            ("exec >&- 2>&-; exec sleep 600", "killed by SIGKILL (status -9)"),
            ("sleep 60 >&- & exit 3", "the program ended (status 3)"),
        ):
            told, took = self.asked(b"", then, timeout=1.5)
            self.assertEqual(told, [(tb.ProgramEnded, said)] * 2)
            self.assertLess(took, 60)

    def test_the_longest_timeout(self):
        for timeout in (2147484, 2**32 - 1):
            fault = (tb.ProgramEnded, "the program ended (status 0)")
            self.assertEqual(self.asked(b"", "exit 0", timeout=timeout)[0], [fault, fault])

    def test_a_program_that_ends_amid_a_reply(self):
        whole = tb.Reply(7, 1, 1, 129, 0, 2, bytes(80)).to_bytes()
        for cut in (0, 1, 47, 48, 49, len(whole) - 1):
            for then, said in (
                ("exit 0", "the program ended (status 0)"),
                ("echo tbs: Device >&2; exit 1", "Device (status 1)"),
                ("kill -9 $$", "killed by SIGKILL (status -9)"),
            ):
                fault = (tb.ProgramEnded, said)
                self.assertEqual(self.asked(whole[:cut], then, timeout=3)[0], [fault, fault])
        late = (tb.ReplyLost, "no reply within 0.2 seconds")
        self.assertEqual(self.asked(whole[:50], "exec sleep 5", timeout=0.2)[0], [late, late])


class Retries(unittest.TestCase):
    def session(self, serve, **options):
        def exchange(moment, frame):
            self.sent.append(frame)
            return serve(frame)

        self.sent = []
        return Session(Direct(exchange), 7, session=1, **options)

    def test_same_bytes_until_the_reply_comes(self):
        session = self.session(lambda frame: reply(frame, commit=2))
        session.transport = Faulty(session.transport, requests=[1], replies=[2, 3])
        self.assertEqual(session.create_accounts([account(1)]), [])
        self.assertEqual((len(self.sent), len(set(self.sent)), session.number), (3, 1, 1))

    def test_in_doubt(self):
        def lost(frame):
            raise tb.ReplyLost("lost")

        session = self.session(lost, attempts=2)
        self.assertRaises(tb.ReplyLost, session.create_accounts, [account(1)])
        self.assertRaises(tb.InDoubt, session.create_accounts, [account(2)])
        saved = session.saved
        again = Session.resumed(Direct(lambda moment, frame: reply(frame, commit=2)), saved)
        self.assertEqual((again.retry(), again.number, again.pending), ([], 1, None))
        self.assertEqual(again.saved, {"client": 7, "session": 1, "number": 1, "pending": ""})
        self.assertRaises(ValueError, again.retry)

    def test_each_refusal_by_its_name(self):
        for status in tb.Status:
            if status == tb.Status.Reply:
                continue
            session = self.session(lambda frame: reply(frame, status=status, commit=0))
            with self.assertRaises(tb.Refused) as raised:
                session.lookup_accounts([1])
            self.assertEqual(
                (type(raised.exception).__name__, raised.exception.status), (status.name, status)
            )
            self.assertEqual(
                isinstance(raised.exception, tb.Evicted),
                status in (tb.Status.NoSession, tb.Status.SessionTooLow),
            )
            self.assertEqual(
                (session.number, session.pending, session.in_doubt.items), (0, self.sent[0], (1,))
            )
            self.assertTrue(str(raised.exception).startswith("request 1 of session 1 is refused: "))
            self.assertEqual(len(self.sent), 5 if status == tb.Status.NotYet else 1)
            self.assertRaises(tb.InDoubt, session.lookup_accounts, [1])

    def test_replies_to_something_else(self):
        other = tb.request_frame(7, 1, 2, 131)
        for wrong in (
            lambda frame: reply(other),
            lambda frame: reply(frame, session=2),
            lambda frame: reply(frame, status=9),
            lambda frame: reply(frame, body=b"1234567"),
        ):
            session = self.session(wrong)
            self.assertRaises(tb.BadReply, session.lookup_accounts, [1])
        session = self.session(lambda frame: reply(frame, body=struct.pack("<II", 0, 99)))
        self.assertRaises(tb.BadReply, session.create_transfers, [transfer(1, 1, 2, 1)])

    def test_a_refusal_of_another_session(self):
        """A refusal repeats the request's session (docs/use/FORMATS.md). One that does not is no
        answer, and the request stays in doubt."""
        for status in tb.Status:
            for other in (0, 2, 2**64 - 1):
                if status != tb.Status.Reply:
                    session = self.session(lambda frame: reply(frame, status=status, session=other))
                    with self.assertRaises(tb.BadReply) as raised:
                        session.create_accounts([account(1)])
                    self.assertEqual(
                        str(raised.exception),
                        f"a refusal in session {other} came for request 1 of session 1",
                    )
                    self.assertEqual(
                        (len(self.sent), session.pending, session.in_doubt.items),
                        (1, self.sent[0], (account(1),)),
                    )
                    with self.assertRaises(tb.InDoubt) as doubt:
                        session.lookup_accounts([1])
                    self.assertEqual(
                        str(doubt.exception),
                        "the last request has no reply yet: retry it",
                        "it is not told as refused",
                    )
                    session.transport = Direct(lambda moment, frame: reply(frame))
                    self.assertEqual((session.retry(), session.number), ([], 1))

    def test_results_of_no_event(self):
        """A create's body lists the events that were not accepted (docs/use/CLIENTS.md), by
        their index in the request."""
        exists = 46
        for rows, said in (
            ([(2, exists)], "a result of event 2 came for 2 events"),
            ([(2**32 - 1, exists)], f"a result of event {2**32 - 1} came for 2 events"),
            ([(0, exists), (0, exists)], "a result of event 0 came behind that of event 0"),
            ([(1, exists), (0, exists)], "a result of event 0 came behind that of event 1"),
            ([(1, 0)], "event 1 came as ok among those that failed"),
        ):
            session = self.session(
                lambda frame: reply(frame, body=b"".join(struct.pack("<II", *it) for it in rows))
            )
            with self.assertRaises(tb.BadReply) as raised:
                session.create_transfers([transfer(1, 1, 2, 1), transfer(2, 1, 2, 1)])
            self.assertEqual(
                (str(raised.exception), session.number, session.pending), (said, 0, self.sent[0])
            )
        session = self.session(
            lambda frame: reply(frame, body=struct.pack("<IIII", 0, exists, 1, exists))
        )
        self.assertEqual(
            results(session.create_transfers([transfer(1, 1, 2, 1)] * 2)),
            [(0, "exists"), (1, "exists")],
        )

    def test_records_that_were_not_looked_up(self):
        """A lookup returns the records that are there, in the order of the ids."""
        for found in ([4], [1, 1], [2, 1], [1, 2, 3, 3], [1, 2, 3, 1]):
            session = self.session(
                lambda frame: reply(frame, body=b"".join(account(it).to_bytes() for it in found))
            )
            with self.assertRaises(tb.BadReply) as raised:
                session.lookup_accounts([1, 2, 3])
            self.assertEqual(
                str(raised.exception),
                f"a record with id {found[-1]} came, which was not looked up there",
            )
            self.assertEqual(session.in_doubt.items, (1, 2, 3))
        for found in ([], [1], [3], [1, 3], [1, 2, 3]):
            session = self.session(
                lambda frame: reply(frame, body=b"".join(account(it).to_bytes() for it in found))
            )
            self.assertEqual([it.id for it in session.lookup_accounts([1, 2, 3])], found)
        session = self.session(lambda frame: reply(frame, body=account(1).to_bytes() * 3))
        self.assertEqual(len(session.lookup_accounts([1, 1, 1])), 3)

    def test_too_many(self):
        self.assertRaises(ValueError, self.session(reply).lookup_accounts, [1] * 8191)
        self.assertRaises(ValueError, self.session(reply, number=2**32 - 1).lookup_accounts, [1])


@has_program
class Worked(unittest.TestCase):
    """Rows with the values that docs/use/RULES.md gives them, on the program."""

    def program(self, clients_max=2, **options):
        transport = Program(PROGRAM, clients_max, **{"timeout": 30, **options})
        self.addCleanup(transport.close)
        return transport

    def registered(self, transport=None, client=7):
        return Session.register(transport or self.program(), client, now=at_ten)

    def begun(self, transport=None):
        session = self.registered(transport)
        self.assertEqual(session.create_accounts([account(1), account(2)]), [])
        return session

    def test_accounts(self):
        session = self.begun()
        self.assertEqual(session.session, 1)
        self.assertEqual(
            session.lookup_accounts([2, 9, 1]), [account(2, timestamp=12), account(1, timestamp=11)]
        )
        again = session.create_accounts(
            [
                account(0),
                account(1),
                Account(1, ledger=701, code=10),
                account(3, flags=AccountFlags(6)),
            ]
        )
        self.assertEqual(
            results(again),
            [
                (0, "id_must_not_be_zero"),
                (1, "exists"),
                (2, "exists_with_different_ledger"),
                (3, "flags_are_mutually_exclusive"),
            ],
        )

    def test_money_moves_once(self):
        # exchanges 1 and 2 register and create; 3 loses the request, 4 and 5 the reply
        session = self.begun(Faulty(self.program(), requests=[3], replies=[4, 5]))
        self.assertEqual(session.create_transfers([transfer(11, 1, 2, 100)]), [])
        self.assertEqual(session.transport.count, 6)
        self.assertEqual([it.debits_posted for it in session.lookup_accounts([1])], [100])
        self.assertEqual(session.lookup_transfers([11]), [transfer(11, 1, 2, 100, timestamp=13)])

    def test_failed_events(self):
        session = self.begun()
        chain = [
            transfer(50, 1, 2, 1, flags=TransferFlags.linked),
            transfer(51, 99, 2, 1, flags=TransferFlags.linked),
            transfer(52, 1, 2, 1),
        ]
        with self.assertRaises(tb.EventsFailed) as raised:
            tb.require_ok(session.create_transfers(chain))
        self.assertEqual(
            str(raised.exception),
            "event 0: linked_event_failed, event 1: debit_account_not_found, event 2: "
            "linked_event_failed",
        )
        tb.require_ok(session.create_transfers([transfer(53, 1, 2, 1)]))
        many = tb.EventsFailed(session.create_transfers([transfer(0, 1, 2, 1)] * 8190))
        self.assertTrue(str(many).endswith("event 9: id_must_not_be_zero, and 8180 more"))

    def test_refused(self):
        transport = self.program(1)
        first = self.registered(transport)
        second = self.registered(transport, client=8)  # one place: the first session ends
        self.assertEqual(second.session, 2)
        self.assertRaises(tb.NoSession, first.lookup_accounts, [1])
        self.assertEqual(self.registered(transport).session, 3)
        self.assertRaises(tb.SessionTooLow, first.retry)

    def test_program_ends(self):
        session = Session.register(self.program(), 7, now=lambda: 2**63 - 1, jump_max=None)
        with self.assertRaises(tb.ProgramEnded) as raised:
            session.lookup_accounts([1])
        self.assertEqual((raised.exception.fault, raised.exception.status), ("TimeExhausted", 2))
        # the history is gone with the process, and no empty one takes its place
        self.assertRaises(tb.ProgramEnded, session.retry)

    def test_reply_comes_too_late(self):
        session = self.begun()
        program = session.transport
        program.timeout = 0.05
        os.kill(program.process.pid, signal.SIGSTOP)
        try:
            self.assertRaises(tb.ReplyLost, session.create_transfers, [transfer(11, 1, 2, 100)])
        finally:
            os.kill(program.process.pid, signal.SIGCONT)
        program.timeout = 30
        self.assertEqual(session.retry(), [])
        # it was on its way, and was not put after itself
        self.assertEqual((program.sent, program.seen), (3, 3))
        self.assertEqual([it.credits_posted for it in session.lookup_accounts([2])], [100])

    def test_killed_program(self):
        session = self.begun(self.program(restarts=True))
        session.create_transfers([transfer(11, 1, 2, 100)])
        for id in (12, 13):
            session.transport.process.kill()
            self.assertEqual(session.create_transfers([transfer(id, 1, 2, 1)]), [])
        self.assertEqual(
            [it.timestamp for it in session.lookup_transfers([11, 12, 13])], [13, 14, 15]
        )
        self.assertEqual([it.debits_posted for it in session.lookup_accounts([1])], [102])

    def test_killed_client(self):
        """What was saved before the sending suffices to go on, whether the request had been sent
        or not."""
        session = self.begun()
        session.prepare(tb.Operation.create_transfers, [transfer(11, 1, 2, 100)])
        saved = json.loads(json.dumps(session.saved))
        for _ in range(2):
            again = Session.resumed(session.transport, saved, now=at_ten)
            self.assertEqual((again.retry(), again.number), ([], 2))
        self.assertEqual([it.debits_posted for it in again.lookup_accounts([1])], [100])

    def test_killed_without_restarts(self):
        session = self.begun()
        session.transport.process.kill()
        for _ in range(2):
            with self.assertRaises(tb.ProgramEnded) as raised:
                session.lookup_accounts([1]) if session.pending is None else session.retry()
            self.assertEqual(
                (raised.exception.fault, raised.exception.status), ("killed by SIGKILL", -9)
            )
        self.assertEqual(session.in_doubt.items, (1,))

    def test_bodies_past_every_buffer(self):
        session = self.begun()
        ids = list(range(1000, 9190))
        self.assertEqual(session.create_accounts([account(id) for id in ids]), [])
        self.assertEqual([it.id for it in session.lookup_accounts(ids)], ids)


if __name__ == "__main__":
    unittest.main()
