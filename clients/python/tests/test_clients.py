#!/usr/bin/env python3
"""ClientSync and ClientAsync: the face of TigerBeetle's client, lists that are joined, evictions,
callers that do not wait; what a session that is abandoned means, logs and reprs."""
import asyncio
import os
import pwd
import random
import struct
import sys
import tempfile
import threading
import time
import unittest
import unittest.mock

import stand_in_tbd
import tb_client as tb
from paths import CLIENT, PYTHONPATH
from helpers.listeners import Running
from helpers.programs import PROGRAM, has_program
from helpers.records import account, transfer
from helpers.threads import in_threads
from tb_client import ClientAsync, ClientSync, Program, Session
from tb_client.clients import addresses_of

# as the pages of TigerBeetle's client in Python show it
SAMPLE = """
import os
import tigerbeetle as tb

with tb.ClientSync(cluster_id=0, replica_addresses=os.getenv("TB_ADDRESS", "3000")) as client:
    account_errors = client.create_accounts([
        tb.Account(
            id=1,
            debits_pending=0,
            debits_posted=0,
            credits_pending=0,
            credits_posted=0,
            user_data_128=0,
            user_data_64=0,
            user_data_32=0,
            ledger=1,
            code=718,
            flags=tb.AccountFlags.NONE,
            timestamp=0,
        ),
        tb.Account(id=2, ledger=1, code=718, flags=tb.AccountFlags.HISTORY | tb.AccountFlags.NONE),
        tb.Account(id=1, ledger=1, code=718, flags=tb.AccountFlags.NONE),
    ])
    for error in account_errors:
        if error.result == tb.CreateAccountResult.EXISTS:
            print(f"Batch account at {error.index} already exists.")
        else:
            print(f"Batch account at ${error.index} failed to create: {error.result}.")

    transfers = [tb.Transfer(
        id=tb.id(),
        debit_account_id=1,
        credit_account_id=2,
        amount=10,
        pending_id=0,
        user_data_128=0,
        user_data_64=0,
        user_data_32=0,
        timeout=0,
        ledger=1,
        code=720,
        flags=tb.TransferFlags.NONE,
        timestamp=0,
    )]
    assert client.create_transfers(transfers) == []
    again = client.create_transfers(transfers)
    print([(it.index, it.result == tb.CreateTransferResult.EXISTS) for it in again])
    print([it.amount for it in client.lookup_transfers([transfers[0].id, 99])])
    print([(it.id, it.debits_posted, it.credits_posted) for it in client.lookup_accounts([1, 2])])
"""
SAID = """Batch account at 2 already exists.
[(0, True)]
[10]
[(1, 10, 0), (2, 0, 10)]
"""
ASYNC_SAMPLE = """
import asyncio
import os
import tigerbeetle as tb

async def main():
    async with tb.ClientAsync(cluster_id=0, replica_addresses=os.getenv("TB_ADDRESS")) as client:
        accounts = [tb.Account(id=it, ledger=1, code=718) for it in (1, 2)]
        assert not await client.create_accounts(accounts)
        sales = [tb.Transfer(id=tb.id(), debit_account_id=1, credit_account_id=2, amount=it,
                             ledger=1, code=720) for it in range(1, 9)]
        made = await asyncio.gather(*(client.create_transfers([it]) for it in sales))
        assert made == [[]] * 8, made
        print((await client.lookup_accounts([2]))[0].credits_posted)

asyncio.run(main())
"""


class InProcess:
    """A transport to the rules of stand_in_tbd.py, in this process. Sessions may share it. `held`
    has events for which the exchanges with these numbers wait, once they were executed; `lost` has
    those whose reply is lost. While it is `unreachable` nothing is sent."""

    def __init__(self, clients_max=64, held=(), lost=()):
        self.ledger = stand_in_tbd.Ledger(clients_max)
        self.held, self.lost = dict(held), set(lost)
        self.frames, self.lock = [], threading.Lock()
        self.unreachable, self.refused = False, 0

    def exchange(self, moment, frame):
        if self.unreachable:
            self.refused += 1
            time.sleep(0.01)
            raise tb.CannotConnect("on purpose")
        with self.lock:
            self.frames.append(frame)
            number = len(self.frames)
            status = self.ledger.status(frame)
            if status is None:
                self.ledger.enter(self.ledger.next_time(moment, frame), frame)
                status = 0
            reply = (
                tb.Reply(*asked(frame), status, 0, b"").to_bytes()
                if status
                else bytes(self.ledger.sessions[frame[:16]][3])
            )
        if number in self.held:
            assert self.held[number].wait(60), "it was never let go on"
        if number in self.lost:
            raise tb.ReplyLost(f"reply {number} was lost on purpose")
        return reply

    def requests(self):
        """What was asked for: the operation, and the ids of the items."""
        found = map(tb.Request.from_bytes, self.frames)
        return [
            (it.operation.name, [getattr(item, "id", item) for item in it.items]) for it in found
        ]

    def wait_for(self, count):
        """Waits until a number of frames have come."""
        until(lambda: len(self.frames) >= count)


def asked(frame):
    """Client, session, number and operation."""
    return (int.from_bytes(frame[:16], "little"), *struct.unpack_from("<QIB", frame, 16))


def until(holds):
    end = time.monotonic() + 60
    while not holds():
        assert time.monotonic() < end, "it does not come to hold"
        time.sleep(0.002)


def over(transport, **more):
    return ClientSync(0, "3000", connect=lambda: transport, **more)


def queued(client):
    return len(client._pool._calls)


def in_background(work, *arguments):
    """Begins a call in a thread. Returns what gives its answer, or raises what it raised."""
    found = []

    def run():
        try:
            found.append((work(*arguments), None))
        except BaseException as fault:
            found.append((None, fault))

    thread = threading.Thread(target=run, daemon=True)
    thread.start()

    def answer():
        thread.join(60)
        assert found, "it does not come back"
        said, fault = found[0]
        if fault:
            raise fault
        return said

    return answer


def failing_once(exchange, number, fault):
    """An exchange whose call of this number, from 1, raises this fault."""
    calls = []

    def fails(moment, frame):
        calls.append(frame)
        if len(calls) == number:
            raise fault
        return exchange(moment, frame)

    return fails


def kinds(results):
    return [(it.index, it.result.name) for it in results]


class Face(unittest.TestCase):
    def run_sample(self, text, address):
        with tempfile.NamedTemporaryFile("w", suffix=".py") as file:
            file.write(text.replace("import tigerbeetle as tb", "import tb_client as tb"))
            file.flush()
            reading = os.popen(
                f"TB_ADDRESS={address} PYTHONPATH={PYTHONPATH} {sys.executable} -B {file.name} 2>&1"
            )
            with reading:
                return reading.read()

    def test_programs_run_with_the_import_changed(self):
        with Running("--tcp", "127.0.0.1:0") as listener:
            self.assertEqual(self.run_sample(SAMPLE, listener.address[1]), SAID)
        with Running() as listener:
            self.assertEqual(self.run_sample(ASYNC_SAMPLE, listener.path), "36\n")

    def test_names_in_capitals(self):
        self.assertIs(tb.TransferFlags.PENDING, tb.TransferFlags.pending)
        self.assertIs(tb.CreateTransferResult.EXISTS, tb.CreateTransferResult.exists)
        self.assertIs(tb.Operation.CREATE_ACCOUNTS, tb.Operation.create_accounts)
        self.assertEqual(tb.AccountFlags.NONE | tb.AccountFlags.LINKED, 1)
        for kind in (tb.AccountFlags, tb.TransferFlags, tb.CreateAccountResult):
            names = set(kind.__members__) - {"NONE"}
            self.assertEqual({it.lower() for it in names}, {it for it in names if it.islower()})

    def test_addresses(self):
        for text, wanted in (
            ("3000", [("127.0.0.1", 3000)]),
            ("3000,3001", [("127.0.0.1", 3000), ("127.0.0.1", 3001)]),
            ("10.0.0.1:3000, db.example:3001", [("10.0.0.1", 3000), ("db.example", 3001)]),
            ("[::1]:3000", [("::1", 3000)]),
            ("0003001", [("127.0.0.1", 3001)]),
            ("localhost", [("localhost", 3001)]),
            ("[::1]", [("::1", 3001)]),
            (":3000", [("127.0.0.1", 3000)]),
            ("./ledger.sock", ["./ledger.sock"]),
        ):
            self.assertEqual(addresses_of(text), wanted)
        self.assertEqual(addresses_of(("127.0.0.1", 3000)), ("127.0.0.1", 3000))
        wrong = "", ":", "a:1:2", "3000,", "localhost:x", "0", "65536", "localhost:0", "-1", "000"
        for text in wrong:
            with self.assertRaises(tb.InvalidValue, msg=text):
                ClientSync(0, text)
        for wrong in (3000, None, b"3000"):
            with self.assertRaises(tb.InvalidType):
                ClientSync(0, wrong)

    def test_calls_that_no_server_has(self):
        client = ClientSync(0, "3000")
        self.addCleanup(client.close)
        debits = tb.AccountFilter(account_id=1, limit=10, flags=tb.AccountFilterFlags.DEBITS)
        newest = tb.QueryFilter(ledger=1, limit=10, flags=tb.QueryFilterFlags.REVERSED)
        for name, given in (
            ("query_accounts", newest),
            ("query_transfers", newest),
            ("get_account_transfers", debits),
            ("get_account_balances", debits),
        ):
            with self.assertRaises(tb.NotSupported) as caught:
                getattr(client, name)(given)
            self.assertIn("lookup_", caught.exception.instead)

    def test_names_of_tigerbeetles_errors(self):
        with self.assertRaises(tb.InitError):
            ClientSync(0, "a:1:2")
        client = ClientSync(0, "3000")
        with self.assertRaises(tb.IntegerOverflowError):
            client.create_accounts([tb.Account(code=65536)])
        with self.assertRaises(tb.PacketError):
            client.lookup_accounts(range(8191))
        client.close()
        with self.assertRaises(tb.ClientClosedError):
            client.lookup_accounts([1])

    def test_wrong_arguments(self):
        for more in ({"sessions": 0}, {"sessions": 65}, {"timeout": 0}, {"timeout": "1"}):
            with self.assertRaises(tb.Invalid):
                ClientSync(0, "3000", **more)
        for wrong in (-1, 2**128, "0", 0.0):
            with self.assertRaises(tb.Invalid):
                ClientAsync(wrong, "3000")
        with self.assertRaises(tb.InvalidType):
            ClientSync(0, "3000", tls=True)

    def test_shown(self):
        with ClientSync(0, "3000", sessions=2) as client:
            self.assertEqual(repr(client), "<ClientSync of 3000, 2 sessions>")
        self.assertEqual(repr(ClientAsync(0, "3001")), "<ClientAsync of 3001, 1 session>")

    def test_version(self):
        with open(os.path.join(CLIENT, "pyproject.toml"), encoding="utf-8") as file:
            self.assertIn(f'\nversion = "{tb.__version__}"\n', file.read())


class Joined(unittest.TestCase):
    """While one request is on its way, others wait, and go out together."""

    def setUp(self):
        self.go_on = threading.Event()
        self.server = InProcess(held={2: self.go_on})
        self.client = over(self.server)
        self.addCleanup(self.client.close)
        self.addCleanup(self.go_on.set)
        self.first = in_background(self.client.create_accounts, [account(1), account(2)])
        self.server.wait_for(2)

    def call(self, work, *arguments):
        """Begins a call, which waits after those before it."""
        many = queued(self.client) + 1
        answer = in_background(work, *arguments)
        until(lambda: queued(self.client) == many)
        return answer

    def sent(self):
        """What goes out once the first request has its reply."""
        self.go_on.set()
        self.assertEqual(self.first(), [])
        return self.server.requests()[2:]

    def test_one_request_for_all(self):
        make = self.client.create_transfers
        answers = [
            self.call(make, [transfer(11, 1, 2, 5)]),
            self.call(make, [transfer(12, 1, 9, 5), transfer(13, 1, 2, 5)]),
            self.call(make, []),
            self.call(make, [transfer(14, 1, 2, 5), transfer(11, 1, 2, 5)]),
        ]
        self.go_on.set()
        said = [kinds(it()) for it in answers]
        self.assertEqual(said, [[], [(0, "credit_account_not_found")], [], [(1, "exists")]])
        self.assertEqual(self.sent(), [("create_transfers", [11, 12, 13, 14, 11])])

    def test_look_ups_with_ids_that_are_not_there(self):
        answers = [self.call(self.client.lookup_accounts, it) for it in ([2, 9], [9], [1, 1, 2])]
        self.go_on.set()
        said = [[record.id for record in it()] for it in answers]
        self.assertEqual(said, [[2], [], [1, 1, 2]])
        self.assertEqual(self.sent(), [("lookup_accounts", [2, 9, 9, 1, 1, 2])])

    def test_a_list_is_never_cut(self):
        many = [
            [transfer(1000 * at + it, 1, 2, 1) for it in range(1, 4001)] for at in (100, 200, 300)
        ]
        answers = [self.call(self.client.create_transfers, it) for it in many]
        self.go_on.set()
        self.assertEqual([it() for it in answers], [[], [], []])
        self.assertEqual([len(ids) for _, ids in self.sent()], [8000, 4000])

    def test_nothing_is_joined_to_an_open_chain(self):
        linked = tb.TransferFlags.linked
        make = self.client.create_transfers
        answers = [
            self.call(make, [transfer(11, 1, 2, 5)]),
            self.call(make, [transfer(12, 1, 2, 5, flags=linked), transfer(13, 1, 2, 5)]),
            self.call(make, [transfer(14, 1, 2, 5, flags=linked)]),
            self.call(make, [transfer(15, 1, 2, 5)]),
        ]
        self.go_on.set()
        for it in answers:
            it()
        self.assertEqual([ids for _, ids in self.sent()], [[11, 12, 13, 14], [15]])

    def test_operations_in_their_order(self):
        answers = [
            self.call(self.client.create_transfers, [transfer(11, 1, 2, 5)]),
            self.call(self.client.lookup_accounts, [2]),
            self.call(self.client.create_transfers, [transfer(12, 1, 2, 5)]),
        ]
        self.go_on.set()
        self.assertEqual(answers[1]()[0].credits_posted, 5)
        self.assertEqual([it() for it in answers[::2]], [[], []])
        self.assertEqual([ids for _, ids in self.sent()], [[11], [2], [12]])

    def test_a_wrong_value_is_its_callers_own(self):
        right = self.call(self.client.create_transfers, [transfer(11, 1, 2, 5)])
        with self.assertRaises(tb.InvalidType):
            self.client.create_transfers([account(3)])
        with self.assertRaises(tb.InvalidValue):
            self.client.create_transfers([transfer(11, 1, 2, 5)] * 8191)
        self.go_on.set()
        self.assertEqual(right(), [])

    def test_who_leaves_takes_nothing_along(self):
        stays = self.call(self.client.create_transfers, [transfer(11, 1, 2, 5)])
        self.client.timeout = 0.05
        with self.assertRaisesRegex(tb.CannotConnect, "not sent within 0.05 seconds"):
            self.client.create_transfers([transfer(12, 1, 2, 5)])
        self.client.timeout = None
        self.go_on.set()
        self.assertEqual(stays(), [])
        self.assertEqual(self.sent(), [("create_transfers", [11])])

    def test_who_leaves_amid_its_request(self):
        self.server.held[3] = threading.Event()
        self.go_on.set()
        self.first()
        for seconds in (0.05, 1, 20):  # a busy computer may send nothing in a short time
            self.client.timeout = seconds
            with self.assertRaises((tb.ReplyLost, tb.CannotConnect)) as told:
                self.client.create_transfers([transfer(11, 1, 2, 5)])
            if isinstance(told.exception, tb.ReplyLost):
                break
        self.assertRegex(str(told.exception), "may be executed yet")
        self.client.timeout = None
        self.server.held[3].set()
        self.assertEqual(
            kinds(self.client.create_transfers([transfer(11, 1, 2, 5)])), [(0, "exists")]
        )

    def test_the_end(self):
        waits = self.call(self.client.create_transfers, [transfer(11, 1, 2, 5)])
        ending = in_background(self.client.close)
        with self.assertRaisesRegex(tb.Closed, "nothing of this call was sent"):
            waits()
        self.go_on.set()
        ending()
        self.assertEqual(self.first(), [])
        with self.assertRaises(tb.Closed):
            self.client.lookup_accounts([1])
        self.client.close()

    def test_the_end_amid_a_call(self):
        """As by a signal's handler while the thread of a first call is started."""
        server, closed = InProcess(), []
        server.close = lambda: closed.append(True)
        client = over(server, timeout=20)
        started = client._pool._started

        def ended():
            client.close()
            return started()

        with unittest.mock.patch.object(client._pool, "_started", ended):
            with self.assertRaisesRegex(tb.Closed, "nothing of this call was sent"):
                client.lookup_accounts([1])
        self.assertEqual(len(closed), 1, "its transport is closed")

    def test_a_forked_child(self):
        self.go_on.set()
        self.first()
        child = os.fork()
        if not child:
            try:
                self.client.lookup_accounts([1])
            except tb.Closed:
                self.client.close()
                os._exit(7)
            finally:
                os._exit(1)
        self.assertEqual(os.waitstatus_to_exitcode(os.waitpid(child, 0)[1]), 7)
        self.assertEqual(len(self.client.lookup_accounts([1])), 1)


class Lost(unittest.TestCase):
    def test_replies_that_are_lost(self):
        server = InProcess(lost={1, 2, 4, 5, 6, 8})
        with over(server) as client:
            client.create_accounts([account(1), account(2)])
            for it in range(11, 20):
                self.assertEqual(client.create_transfers([transfer(it, 1, 2, 1)]), [])
            self.assertEqual(client.lookup_accounts([2])[0].credits_posted, 9)

    def test_evicted_before_a_request(self):
        server = InProcess(clients_max=1)
        with over(server) as client:
            client.create_accounts([account(1), account(2)])
            Session.register(server)
            with self.assertLogs("tb_client", "WARNING") as logs:
                self.assertEqual(client.create_transfers([transfer(11, 1, 2, 5)]), [])
            self.assertTrue(any("NoSession" in it for it in logs.output), logs.output)
            self.assertEqual(client.lookup_accounts([2])[0].credits_posted, 5)

    def test_evicted_after_a_reply_was_lost(self):
        server = InProcess(clients_max=1, lost={3})
        exchange = server.exchange

        def evicting(moment, frame):
            try:
                return exchange(moment, frame)
            except tb.ReplyLost:
                Session.register(server)
                raise

        with over(server) as client:
            client.create_accounts([account(1), account(2)])
            server.exchange = evicting
            results = client.create_transfers([transfer(11, 1, 2, 5), transfer(12, 1, 9, 5)])
            self.assertEqual(kinds(results), [(0, "exists"), (1, "credit_account_not_found")])
            server.exchange = exchange
            self.assertEqual(client.lookup_accounts([2])[0].credits_posted, 5)

    def test_a_server_that_is_not_there_for_a_while(self):
        server = InProcess()
        with over(server) as client:
            client.create_accounts([account(1), account(2)])
            server.unreachable = True
            waits = in_background(client.create_transfers, [transfer(11, 1, 2, 5)])
            until(lambda: server.refused > 3)
            client.timeout = 0.1
            with self.assertRaises(tb.ClientError):
                client.create_transfers([transfer(12, 1, 2, 5)])
            client.timeout = None
            server.unreachable = False
            self.assertEqual(waits(), [])
            self.assertEqual([it.id for it in client.lookup_transfers([11, 12])], [11])

    def test_the_end_while_the_server_is_not_there(self):
        """Who waits for it is told so, and waits no longer."""
        server = InProcess()
        with over(server) as client:
            client.create_accounts([account(1), account(2)])
            server.unreachable = True
            waits = in_background(client.create_transfers, [transfer(11, 1, 2, 5)])
            until(lambda: server.refused > 3)
        with self.assertRaisesRegex(tb.Closed, "nothing of this call was sent"):
            waits()

    def test_who_leaves_while_the_server_is_not_there(self):
        """Nothing of theirs is kept, neither before the client has a session nor later."""
        server = InProcess()
        for is_there in (False, True):
            with over(server) as client:
                if is_there:
                    client.create_accounts([account(1), account(2)])
                client.timeout, server.unreachable = 0.02, True
                for number in range(20):
                    with self.assertRaisesRegex(tb.ClientError, "within 0.02 seconds"):
                        client.create_transfers([transfer(number, 1, 2, 5)])
                self.assertLess(queued(client), 2)
                server.unreachable = False

    def test_a_transport_that_tells_at_once_that_the_server_is_not_there(self):
        """As if the server's certificate is not trusted. It is called with pauses, before the
        client has a session, when it has one, and when a reply was lost."""
        for lost in (set(), {3}, None):
            server, calls = InProcess(lost=lost or ()), []
            exchange = server.exchange

            def away(moment, frame, calls=calls):
                calls.append(frame)
                raise tb.CannotConnect("on purpose")

            def loses(moment, frame, server=server, exchange=exchange, away=away):
                try:
                    return exchange(moment, frame)
                except tb.ReplyLost:
                    server.exchange = away
                    raise

            with over(server) as client:
                if lost is not None:
                    client.create_accounts([account(1), account(2)])
                server.exchange = loses if lost else away
                waits = in_background(client.create_transfers, [transfer(11, 1, 2, 5)])
                until(lambda: len(calls) > 2)
                time.sleep(1)
                self.assertLess(len(calls), 9)
                self.assertEqual(len(set(calls)), 1)
            with self.assertRaises(tb.ReplyLost if lost else tb.Closed):
                waits()

    def test_lost_and_then_not_there_for_a_while(self):
        server = InProcess(lost={3})
        with over(server) as client:
            client.create_accounts([account(1), account(2)])
            exchange = server.exchange

            def loses(moment, frame):
                try:
                    return exchange(moment, frame)
                except tb.ReplyLost:
                    server.unreachable = True
                    raise

            server.exchange = loses
            waits = in_background(client.create_transfers, [transfer(11, 1, 2, 5)])
            until(lambda: server.refused > 3)
            server.unreachable = False
            self.assertEqual(waits(), [])
            self.assertEqual(client.lookup_accounts([2])[0].credits_posted, 5)

    def test_a_request_in_doubt_is_no_other_callers(self):
        """What was asked for next went out as the bytes of the request before it."""
        for fault in (tb.CannotStart, tb.ScriptFull, tb.ClockJumped):
            server = InProcess(lost={3})
            with self.subTest(fault=fault), over(server) as client:
                client.create_accounts([account(1), account(2)])
                server.exchange = failing_once(server.exchange, 2, fault("on purpose"))
                with self.assertRaisesRegex(tb.ReplyLost, "not sent again: on purpose"):
                    client.create_transfers([transfer(11, 1, 2, 5)])
                self.assertEqual(client.create_transfers([transfer(12, 1, 2, 7)]), [])
                found = client.lookup_transfers([11, 12])
                self.assertEqual([it.id for it in found], [11, 12])

    def test_a_server_that_is_not_trusted(self):
        """Waiting does not mend that: those who asked are told, and waited for ever before."""
        for before, lost in ((0, ()), (1, ()), (2, {3})):
            server = InProcess(lost=lost)
            exchange = server.exchange
            fault = tb.CannotConnect("certificate verify failed", untrusted=True)
            with self.subTest(before=before), over(server, timeout=20) as client:
                if before:
                    client.create_accounts([account(1)])
                server.exchange = failing_once(exchange, max(before, 1), fault)
                wanted = tb.ReplyLost if lost else tb.CannotConnect
                with self.assertRaisesRegex(wanted, "certificate verify failed"):
                    client.create_accounts([account(2)])
                wanted = [1, 2] if lost else [1] if before else []
                self.assertEqual([it.id for it in client.lookup_accounts([1, 2])], wanted)

    def test_who_leaves_after_the_server_said_to_come_later(self):
        """It is not sent, as the call says, and what is asked for next is."""
        for fault in (tb.Busy, tb.NoMemory):
            server = InProcess()
            with self.subTest(fault=fault), over(server) as client:
                client.create_accounts([account(1), account(2)])
                client.timeout = 1.0
                exchange, server.unreachable = server.exchange, True
                server.exchange = failing_once(exchange, 1, fault("on purpose"))
                with self.assertRaisesRegex(tb.CannotConnect, "not sent .* will not be"):
                    client.create_transfers([transfer(11, 1, 2, 5)])
                client.timeout = None
                waits = in_background(client.create_transfers, [transfer(12, 1, 2, 7)])
                until(lambda: queued(client))
                server.unreachable = False
                self.assertEqual(waits(), [])
                self.assertEqual([it.id for it in client.lookup_transfers([11, 12])], [12])

    def test_a_transport_that_cannot_be_made(self):
        server, is_there = InProcess(), []

        def connect():
            if not is_there:
                raise tb.CannotStart("on purpose")
            return server

        with ClientSync(0, "3000", connect=connect) as client:
            with self.assertRaises(tb.CannotStart):
                client.create_accounts([account(1)])
            is_there.append(True)
            self.assertEqual(client.lookup_accounts([1]), [])

    def test_a_thread_that_does_not_start(self):
        """The client goes on if the system has one later."""
        server, closed = InProcess(), []
        server.close = lambda: closed.append(True)
        with over(server, timeout=20) as client:
            fault = RuntimeError("can't start new thread")
            with unittest.mock.patch("threading.Thread.start", side_effect=fault):
                with self.assertRaises(RuntimeError):
                    client.create_accounts([account(1)])
            self.assertEqual(len(closed), 1, "its transport is closed")
            self.assertEqual(client.lookup_accounts([1]), [])

    def test_a_further_thread_that_does_not_start(self):
        """The call gets its answer by a session that is there."""
        go_on = threading.Event()
        server = InProcess(held={2: go_on})
        with over(server, timeout=20, sessions=2) as client:
            waits = in_background(client.create_accounts, [account(1)])
            server.wait_for(2)
            fault = RuntimeError("can't start new thread")
            with unittest.mock.patch.object(client._pool, "_started", side_effect=fault):
                try:
                    call = client._pool.ask(tb.Operation.lookup_accounts, [1])
                finally:
                    go_on.set()
            self.assertEqual(waits(), [])
            self.assertEqual([it.id for it in call.future.result(20)], [1])

    def test_a_session_without_a_next_number(self):
        """The client goes on in a new one."""
        server = InProcess()
        with over(server) as client:
            client.create_accounts([account(1)])
            (worker,) = client._pool._workers
            first, worker._session.number = worker._session, tb.NUMBER_MAX
            self.assertEqual([it.id for it in client.lookup_accounts([1])], [1])
            self.assertNotEqual(worker._session.client, first.client)

    def test_a_bad_reply_is_told_and_the_client_goes_on(self):
        server = InProcess()
        exchange = server.exchange
        with over(server) as client:
            client.create_accounts([account(1), account(2)])
            server.exchange = lambda moment, frame: exchange(moment, frame)[:40]
            with self.assertRaises(tb.BadReply):
                client.create_transfers([transfer(11, 1, 2, 5)])
            server.exchange = exchange
            again = client.create_transfers([transfer(11, 1, 2, 5)])
            self.assertEqual(kinds(again), [(0, "exists")])

    def test_a_fault_of_a_transport_is_told(self):
        server = InProcess()
        server.exchange = lambda moment, frame: 1 // 0
        with over(server) as client:
            with self.assertRaises(ZeroDivisionError):
                client.lookup_accounts([1])

    def test_nobody_listens(self):
        with tempfile.TemporaryDirectory() as folder:
            path = os.path.join(folder, "ledger.sock")
            with ClientSync(0, path, timeout=0.3) as client:
                with self.assertRaisesRegex(tb.CannotConnect, "not be: .*: No such file"):
                    client.create_accounts([account(1)])
                with Running("--unix", path, folder=folder):
                    client.timeout = None
                    self.assertEqual(client.lookup_accounts([1]), [])

    def test_many_threads_amid_losses_and_evictions(self):
        for sessions in (1, 3):
            server, draw = InProcess(clients_max=4), random.Random(sessions)
            exchange = server.exchange

            def hostile(moment, frame):
                what = draw.random()
                if what < 0.1:
                    raise tb.ReplyLost("the request, on purpose")
                if what < 0.15:
                    raise tb.CannotConnect("on purpose")
                reply = exchange(moment, frame)
                if what < 0.25:
                    raise tb.ReplyLost("the reply, on purpose")
                if what < 0.3:
                    for client in range(4):
                        exchange(moment, tb.request_frame(tb.id(), 0, 0, tb.Operation.register))
                    if what < 0.27:
                        raise tb.ReplyLost("the reply and the session, on purpose")
                return reply

            server.exchange = hostile
            self.storm(server, sessions)

    def storm(self, server, sessions):
        """Eight threads make 30 lists of three transfers each. Each is made once."""
        results = []
        with over(server, sessions=sessions) as client:
            client.create_accounts([account(1), account(2)])

            def sell(number):
                for first in range(1000 * (number + 1), 1000 * (number + 1) + 90, 3):
                    many = [transfer(first + it, 1, 2, 1) for it in range(3)]
                    results.extend(it.result.name for it in client.create_transfers(many))
                    self.assertEqual(client.lookup_transfers([first + 2, 9])[0].id, first + 2)

            in_threads(8, sell)
            self.assertEqual(client.lookup_accounts([2])[0].credits_posted, 720)
        self.assertLessEqual(set(results), {"exists"})

    def test_a_server_that_is_killed(self):
        with Running() as listener, ClientSync(0, listener.path, sessions=3) as client:
            client.create_accounts([account(1), account(2)])
            done, ended = [], threading.Event()

            def sell(number):
                for it in range(40):
                    done.append(client.create_transfers([transfer(number * 100 + it, 1, 2, 1)]))

            def kill(number):
                for it in range(1, 4):
                    until(lambda: len(done) >= it * 60 or ended.is_set())
                    listener.kill_server()

            in_threads(7, lambda number: kill(number) if number == 0 else sell(number))
            self.assertEqual(done, [[]] * 240)
            self.assertEqual(client.lookup_accounts([2])[0].credits_posted, 240)


@has_program
class Chains(unittest.TestCase):
    """Chains whose reply was lost, and whose session has ended since then: over tbs itself."""

    def evicted(self, make):
        """The answer to a call whose first sending was executed, and whose session is gone."""
        with Program(PROGRAM, clients_max=1) as program:
            setup = Session.register(program)
            setup.create_accounts([account(1), account(2)])
            setup.create_transfers(self.chain(5, 6))

            class Once:
                lost = False

                def exchange(self, moment, frame):
                    reply = program.exchange(moment, frame)
                    if frame[28] in (129, 130) and not self.lost:
                        self.lost = True
                        Session.register(program)
                        raise tb.ReplyLost("on purpose")
                    return reply

            with over(Once()) as client:
                results = make(client)
                posted = client.lookup_accounts([2])[0].credits_posted
            return kinds(results), posted

    @staticmethod
    def chain(*ids, **more):
        linked = tb.TransferFlags.linked
        return [transfer(it, 1, 2, 10, flags=linked if it != ids[-1] else 0, **more) for it in ids]

    def test_one_that_was_made(self):
        made = self.evicted(lambda client: client.create_transfers(self.chain(11, 12, 13)))
        self.assertEqual(made, ([(0, "exists"), (1, "exists"), (2, "exists")], 50))

    def test_among_others(self):
        events = [transfer(20, 1, 2, 10), *self.chain(11, 12), transfer(21, 1, 9, 10)]
        results, posted = self.evicted(lambda client: client.create_transfers(events))
        self.assertEqual(results[:3], [(0, "exists"), (1, "exists"), (2, "exists")])
        self.assertEqual((results[3:], posted), ([(3, "credit_account_not_found")], 50))

    def test_one_that_failed_since_its_first_event_exists(self):
        failed = [(0, "exists"), (1, "linked_event_failed")]
        made = self.evicted(lambda client: client.create_transfers(self.chain(5, 12)))
        self.assertEqual(made, (failed, 20))

    def test_one_whose_other_event_is_there_with_another_content(self):
        failed = [(0, "exists"), (1, "linked_event_failed")]
        events = [self.chain(5, 6)[0], transfer(6, 1, 2, 11)]
        made = self.evicted(lambda client: client.create_transfers(events))
        self.assertEqual(made, (failed, 20))

    def test_accounts(self):
        linked = tb.AccountFlags.linked
        events = [account(21, flags=linked), account(22)]
        results, _ = self.evicted(lambda client: client.create_accounts(events))
        self.assertEqual(results, [(0, "exists"), (1, "exists")])

    def test_posts(self):
        flags = tb.TransferFlags

        def make(client):
            return client.create_transfers(
                [
                    transfer(30, 1, 2, 7, flags=flags.pending | flags.linked),
                    tb.Transfer(
                        31, pending_id=30, amount=tb.amount_max, flags=flags.post_pending_transfer
                    ),
                ]
            )

        results, posted = self.evicted(make)
        self.assertEqual((results, posted), ([(0, "exists"), (1, "exists")], 27))


class Asynchronous(unittest.IsolatedAsyncioTestCase):
    async def asyncSetUp(self):
        self.go_on = threading.Event()
        self.server = InProcess(held={3: self.go_on})
        self.client = ClientAsync(0, "3000", connect=lambda: self.server)
        await self.client.create_accounts([account(1), account(2)])

    async def asyncTearDown(self):
        self.go_on.set()
        await self.client.close()

    async def begun(self, *items):
        """A call that is on its way, and whose reply is held back."""
        task = asyncio.ensure_future(self.client.create_transfers(list(items)))
        while len(self.server.frames) < 3:
            await asyncio.sleep(0.002)
        return task

    async def test_together(self):
        first = await self.begun(transfer(11, 1, 2, 1))
        sales = [[transfer(it, 1, 2, 1)] for it in range(12, 61)]
        tasks = [asyncio.ensure_future(self.client.create_transfers(it)) for it in sales]
        await asyncio.sleep(0)
        self.go_on.set()
        self.assertEqual(await asyncio.gather(first, *tasks), [[]] * 50)
        self.assertEqual(len(self.server.frames), 4)
        self.assertEqual((await self.client.lookup_accounts([2]))[0].credits_posted, 50)

    async def test_a_call_that_is_cancelled_before_it_is_sent(self):
        first = await self.begun(transfer(11, 1, 2, 5))
        left = asyncio.ensure_future(self.client.create_transfers([transfer(12, 1, 2, 5)]))
        stays = asyncio.ensure_future(self.client.create_transfers([transfer(13, 1, 2, 5)]))
        await asyncio.sleep(0)
        left.cancel()
        with self.assertRaises(asyncio.CancelledError):
            await left
        self.go_on.set()
        self.assertEqual(await asyncio.gather(first, stays), [[], []])
        found = await self.client.lookup_transfers([11, 12, 13])
        self.assertEqual([it.id for it in found], [11, 13])

    async def test_a_call_that_is_cancelled_on_its_way(self):
        first = await self.begun(transfer(11, 1, 2, 5))
        first.cancel()
        with self.assertRaises(asyncio.CancelledError):
            await first
        self.go_on.set()
        found = await self.client.lookup_transfers([11])
        self.assertEqual([it.id for it in found], [11])

    async def test_timeouts(self):
        first = await self.begun(transfer(11, 1, 2, 5))
        self.client.timeout = 0.05
        with self.assertRaisesRegex(tb.CannotConnect, "will not be"):
            await self.client.create_transfers([transfer(12, 1, 2, 5)])
        self.client.timeout = None
        with self.assertRaises(asyncio.TimeoutError):
            await asyncio.wait_for(self.client.lookup_accounts([1]), 0.05)
        self.go_on.set()
        self.assertEqual(await first, [])
        self.assertEqual(await self.client.lookup_transfers([12]), [])

    @unittest.skipUnless(hasattr(asyncio, "TaskGroup"), "Python has no TaskGroup")
    async def test_a_task_group(self):
        self.go_on.set()
        async with asyncio.TaskGroup() as group:
            tasks = [
                group.create_task(self.client.create_transfers([transfer(it, 1, 2, 1)]))
                for it in range(11, 31)
            ]
        self.assertEqual([it.result() for it in tasks], [[]] * 20)

    @unittest.skipUnless(hasattr(asyncio, "TaskGroup"), "Python has no TaskGroup")
    async def test_a_task_group_of_which_one_fails(self):
        first = await self.begun(transfer(11, 1, 2, 5))

        async def fail():
            raise ZeroDivisionError

        with self.assertRaises(BaseException) as raised:
            async with asyncio.TaskGroup() as group:
                left = group.create_task(self.client.create_transfers([transfer(12, 1, 2, 5)]))
                group.create_task(fail())
        self.assertIsInstance(raised.exception.exceptions[0], ZeroDivisionError)
        self.assertTrue(left.cancelled())
        self.go_on.set()
        self.assertEqual(await first, [])
        self.assertEqual(await self.client.lookup_transfers([12]), [])


class Ranges(unittest.TestCase):
    """Client ids whose upper 64 bits are a peer's number."""

    def test_ids(self):
        server = InProcess()
        sessions = [Session.register(server, client_range=it) for it in (0, 1, 1, 2**64 - 1)]
        self.assertEqual([it.client >> 64 for it in sessions], [0, 1, 1, 2**64 - 1])
        self.assertEqual(len({it.client for it in sessions}), 4)
        for wrong in (-1, 2**64, "1", 1.0):
            with self.assertRaises(tb.Invalid):
                Session.register(server, client_range=wrong)
            with self.assertRaises(tb.Invalid):
                ClientSync(0, "3000", client_range=wrong)

    def test_after_an_eviction(self):
        server = InProcess(clients_max=1)
        with over(server, client_range=16) as client:
            client.create_accounts([account(1)])
            Session.register(server)
            client.lookup_accounts([1])
        registered = [it for it in map(asked, server.frames) if it[3] == tb.Operation.register]
        self.assertEqual([it[0] >> 64 for it in (registered[0], registered[2])], [16, 16])

    def test_who_is_not_let_in(self):
        with tempfile.TemporaryDirectory() as folder:
            clients = os.path.join(folder, "clients")
            with open(clients, "w") as file:
                file.write(f"user {pwd.getpwuid(os.getuid()).pw_name} 16\n")
            with Running("--clients", clients, folder=folder) as listener:
                with ClientSync(0, listener.path, client_range=16) as client:
                    self.assertEqual(client.create_accounts([account(1)]), [])
                with ClientSync(0, listener.path, client_range=17) as client:
                    with self.assertRaisesRegex(tb.ReplyLost, "ClientNotAllowed"):
                        client.lookup_accounts([1])


class Abandoned(unittest.TestCase):
    def test_what_it_means(self):
        server = InProcess(lost={3})
        session = Session.register(server, client=7, attempts=1)
        session.create_accounts([account(1), account(2)])
        with tempfile.TemporaryDirectory() as folder:
            path = os.path.join(folder, "session.json")
            session.prepare(tb.Operation.create_transfers, [transfer(11, 1, 2, 5)])
            session.save(path)
            with self.assertRaises(tb.ReplyLost):
                session.retry()
            given_up = session.abandon()
            self.assertEqual([it.id for it in given_up.items], [11])
            self.assertIsNone(session.abandon())
            for call in (
                session.retry,
                lambda: session.lookup_accounts([1]),
                lambda: session.prepare(tb.Operation.lookup_accounts, [1]),
                lambda: session.save(path),
            ):
                with self.assertRaisesRegex(tb.Closed, "was abandoned"):
                    call()
            self.assertIsNotNone(Session.load(server, path).in_doubt)
        again = Session.register(server).create_transfers(given_up.items)
        self.assertEqual(kinds(again), [(0, "exists")])

    def test_one_with_nothing_in_doubt(self):
        session = Session.register(InProcess())
        self.assertIsNone(session.abandon())


class Shown(unittest.TestCase):
    def test_reprs(self):
        server = InProcess()
        session = Session.register(server, client=7)
        self.assertEqual(repr(session), "<Session 1 of client 7, 0 requests answered>")
        session.prepare(tb.Operation.create_transfers, [transfer(11, 1, 2, 5)])
        self.assertIn(", in doubt: request 1, create_transfers>", repr(session))
        session.abandon()
        self.assertIn(", abandoned>", repr(session))
        self.assertEqual(
            repr(tb.Socket([("::1", 3001), "a.sock"])),
            "<Socket [::1]:3001 and 1 more, not connected>",
        )
        self.assertRegex(repr(tb.Direct(len)), "^<Direct <built-in function len>>$")
        faulty = tb.Faulty(tb.Direct(len))
        self.assertEqual(repr(faulty), "<Faulty <Direct <built-in function len>>, 0 exchanges>")

    @has_program
    def test_a_program(self):
        with Program(PROGRAM) as program:
            self.assertRegex(repr(program), r"^<Program .* run 64 1, process \d+>$")
        self.assertIn("not running", repr(program))

    def test_each_public_class_shows_more_than_its_place(self):
        plain = object.__repr__
        for name in tb.__all__:
            it = getattr(tb, name)
            if isinstance(it, type) and name not in ("Transport", "Saved"):
                self.assertIsNot(it.__repr__, plain, name)

    def test_logs(self):
        server = InProcess(lost={2})
        with self.assertLogs("tb_client", "DEBUG") as logs:
            session = Session.register(server, client=7)
            session.lookup_accounts([1])
        said = "\n".join(logs.output)
        self.assertRegex(said, "INFO:tb_client:client 7 is registered, session 1")
        self.assertRegex(said, "WARNING:tb_client:sent again, 4 times left: reply 2 was lost")
        self.assertRegex(said, "DEBUG:tb_client:request 1, lookup_accounts: answered")
        server = InProcess(lost={2})
        with self.assertLogs("tb_client", "WARNING") as logs, over(server) as client:
            client.lookup_accounts([1])
        self.assertRegex(logs.output[0], "sent again in 0.00 s: reply 2 was lost")

    def test_nothing_is_said_unasked(self):
        with os.popen(
            f"PYTHONPATH={PYTHONPATH} {sys.executable} -B -c 'import test_clients as t; "
            "t.Session.register(t.InProcess(lost={1}))' 2>&1"
        ) as reading:
            self.assertEqual(reading.read(), "")


if __name__ == "__main__":
    unittest.main()
