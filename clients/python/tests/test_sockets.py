"""Sockets to several addresses, what a server sends, replies of other requests, and TLS's
arguments."""
import contextlib
import errno
import os
import shutil
import socket
import ssl
import sys
import tempfile
import threading
import time
import unittest
from unittest import mock

import tb_client as tb
from paths import CONFORMANCE
from helpers.records import register, registered
from helpers.servers import Server
from helpers.threads import faults_at_close
from tb_client import Socket
from tb_client.ids import Ids

sys.path.append(CONFORMANCE)
import certificates  # noqa: E402


def bound_at_one_port(hosts):
    """A socket at each of these hosts, at a port that is free at all of them. A program that
    listens on all addresses may have a port that the system gives for one."""
    for _ in range(40):
        with contextlib.ExitStack() as stack:
            port, found = 0, []
            try:
                for host in hosts:
                    found.append(stack.enter_context(socket.socket()))
                    found[-1].bind((host, port))
                    port = found[-1].getsockname()[1]
            except OSError as error:
                if error.errno != errno.EADDRINUSE:
                    raise
                continue
            stack.pop_all()
            return found
    raise AssertionError(f"no port is free at {hosts}")


class Ports(unittest.TestCase):
    def test_a_port_that_another_program_has(self):
        """It is taken at the second host: another is chosen, once or, on a busy machine, again."""
        bind, ports = socket.socket.bind, []

        class Bound(socket.socket):
            def bind(self, address):
                ports.append(address[1])
                if len(ports) == 2:
                    raise OSError(errno.EADDRINUSE, "Address already in use")
                bind(self, address)

        with mock.patch("socket.socket", Bound):
            some = bound_at_one_port(["127.0.0.1", "127.0.0.2"])
        port = some[0].getsockname()[1]
        self.assertEqual([it.getsockname()[1] for it in some], [port, port])
        self.assertEqual((ports[0], ports[-2:]), (0, [0, port]))
        self.assertGreaterEqual(len(ports), 4)
        for it in some:
            it.close()


class Addresses(unittest.TestCase):
    def setUp(self):
        self.folder = tempfile.TemporaryDirectory()
        self.addCleanup(self.folder.cleanup)

    def path(self, name):
        return os.path.join(self.folder.name, name)

    def test_the_next_one_where_none_listens(self):
        server = Server(self.path("b"), registered(7))
        with Socket([self.path("a"), self.path("b")]) as it:
            self.assertEqual(it.exchange(0, register(7)), registered(7))
            self.assertEqual(it.address, self.path("b"))
        server.end()

    def test_the_next_one_where_it_is_lost(self):
        first, second = Server(self.path("a"), None), Server(self.path("b"), registered(7))
        with tb.Session.register(
            Socket([self.path("a"), self.path("b")]), 7, attempts=2
        ) as session:
            self.assertEqual(session.session, 1)
        first.end()
        second.end()
        self.assertEqual(first.requests, second.requests)

    def test_none_listens(self):
        began = time.monotonic()
        with Socket([self.path(it) for it in "abc"], timeout=0.3) as it, self.assertRaises(
            tb.CannotConnect
        ):
            it.exchange(0, register(7))
        self.assertGreaterEqual(time.monotonic() - began, 0.3, "it calls for all of its time")

    def test_the_address_is_named_whose_fault_is_told(self):
        folder = self.path("folder")
        os.mkdir(folder)
        for places, wanted in (
            ([folder, self.path("none")], f"{self.path('none')}: No such file"),
            ([self.path("none"), folder], f"{folder}: Connection refused"),
        ):
            with Socket(places, timeout=0.1) as it, self.assertRaises(tb.CannotConnect) as found:
                it.exchange(0, register(7))
            self.assertTrue(str(found.exception).startswith(wanted), found.exception)

    def not_connected(self, places, **how):
        """What a Socket says that cannot connect."""
        with Socket(places, **how) as it, self.assertRaises(tb.CannotConnect) as found:
            it.exchange(0, register(7))
        return str(found.exception)

    def test_a_fault_is_told_and_not_the_end_of_the_time(self):
        with socket.socket() as listening, socket.socket() as waiting:
            listening.bind(("127.0.0.1", 0))
            listening.listen(0)
            waiting.connect(listening.getsockname())  # no other one gets a reply
            places = [self.path("none"), listening.getsockname()]
            said = self.not_connected(places, timeout=0.3)
            self.assertTrue(said.startswith(f"{places[0]}: No such file"), said)

    def test_what_was_before_the_end_of_the_time_is_told(self):
        """A server that was starting, and then cannot be called in time, or is silent."""
        for is_silent in (False, True):
            begins, told = socket.socketpair()
            told.sendall(b"tb_listen: Starting\n")
            told.shutdown(socket.SHUT_WR)
            silent, other = socket.socketpair()
            made = [begins, silent] if is_silent else [begins]

            def call(address, timeout, tls, made=made):
                if made:
                    return made.pop(0)
                time.sleep(timeout)
                raise socket.timeout("timed out")

            kind = tb.ReplyLost if is_silent else tb.CannotConnect
            with mock.patch("tb_client.sockets._call", call), self.subTest(is_silent):
                with Socket(self.path("a"), timeout=0.3) as it, self.assertRaises(kind) as found:
                    it.exchange(0, register(7))
            for it in (begins, told, silent, other):
                it.close()
            self.assertTrue(str(found.exception).endswith("Starting"), found.exception)

    def test_a_server_is_told_that_closes_while_tls_is_agreed_on(self):
        with socket.socket() as listening:
            listening.bind(("127.0.0.1", 0))
            listening.listen()
            closing = threading.Thread(target=lambda: listening.accept()[0].close())
            closing.start()  # the first connection; the others are not answered
            tls = ssl.create_default_context()
            said = self.not_connected(listening.getsockname(), timeout=3, tls=tls)
            closing.join()
        self.assertNotIn("timed out", said)

    def test_a_host_of_many_addresses(self):
        """If they do not reply, they take the time of one, and leave some for the next."""
        hosts, found = [f"127.0.0.{last}" for last in range(1, 5)], []
        with contextlib.ExitStack() as stack:
            for listening in map(stack.enter_context, bound_at_one_port(hosts)):
                listening.listen(0)
                place = listening.getsockname()
                found.append((socket.AF_INET, socket.SOCK_STREAM, 6, "", place))
                for _ in range(2):  # which fill its queue: no other one gets a reply
                    it = stack.enter_context(socket.socket())
                    it.setblocking(False)
                    it.connect_ex(place)
            server = Server(self.path("a"), registered(7))
            host = ("ledger.example", found[0][4][1])
            with mock.patch("socket.getaddrinfo", return_value=found):
                with Socket([host, self.path("a")], timeout=4) as it:
                    self.assertEqual(it.exchange(0, register(7)), registered(7))
                began = time.monotonic()
                with Socket(host, timeout=1) as it, self.assertRaises(tb.CannotConnect):
                    it.exchange(0, register(7))
                self.assertLess(time.monotonic() - began, 3.5)
            server.end()

    def test_a_name_that_is_looked_up_for_long(self):
        """The lookup is within the timeout, and one that fails is reported. A number needs no
        lookup."""
        done = threading.Event()
        found = socket.getaddrinfo

        def late(*words, flags=0, **how):
            if flags:
                return found(*words, flags=flags, **how)
            done.wait(20)
            raise socket.gaierror(socket.EAI_AGAIN, "no name server answers")

        with mock.patch("socket.getaddrinfo", late):
            began = time.monotonic()
            said = self.not_connected(("ledger.example", 1), timeout=0.3)
            self.assertLess(time.monotonic() - began, 10)
            self.assertEqual(said, "ledger.example:1: the lookup of the host's name timed out")
            done.set()
            said = self.not_connected(("ledger.example", 1), timeout=0.3)
            self.assertIn("no name server answers", said)
            with mock.patch.object(threading.Thread, "start", side_effect=RuntimeError):
                said = self.not_connected(("ledger.example", 1), timeout=0.3)
                self.assertIn("no name server answers", said)
                said = self.not_connected(("127.0.0.1", 1), timeout=0.3)
                self.assertIn("Connection refused", said)

    def test_a_long_time(self):
        """It is no short one: Python cuts its milliseconds to 32 bits."""
        listening = socket.socket(socket.AF_UNIX)
        listening.bind(self.path("a"))
        listening.listen()

        def answer_late():
            with listening, listening.accept()[0] as it:
                it.recv(48, socket.MSG_WAITALL)
                time.sleep(1)
                it.sendall(registered(7))

        answering = threading.Thread(target=answer_late)
        answering.start()
        with Socket(self.path("a"), timeout=4294968) as it:
            self.assertEqual(it.exchange(0, register(7)), registered(7))
        answering.join()

    def test_close_waits_for_one_exchange(self):
        """Threads that wait for it send nothing more."""
        with socket.socket(socket.AF_UNIX) as listening:
            listening.bind(self.path("a"))
            listening.listen()  # and nobody answers
            it = Socket(self.path("a"), timeout=300)
            found = faults_at_close(
                it,
                lambda number: it.exchange(0, register(number)),
                lambda: listening.accept()[0].close(),
            )
        self.assertEqual(found, [tb.Closed] * 7 + [tb.ReplyLost])

    def test_a_signal_s_handler_that_closes_it(self):
        """Amid an exchange: it waited for the lock of the exchange that it interrupted, for ever.
        The same if it comes while the connection is made."""
        for call, told in (("_read", tb.ReplyLost), ("_call_each", tb.Closed)):
            listening = socket.socket(socket.AF_UNIX)
            with listening, self.subTest(call=call):
                listening.bind(self.path(call))
                listening.listen()
                it = Socket(self.path(call), timeout=20)
                inner = getattr(it, call)

                def handled(*arguments):
                    it.close()
                    return inner(*arguments)

                with mock.patch.object(it, call, handled):
                    thread = threading.Thread(target=self.told, args=(it, told), daemon=True)
                    thread.start()
                    thread.join(10)
                self.assertFalse(thread.is_alive())
                self.assertIsNone(it._socket)

    def test_a_signal_s_handler_that_asks(self):
        """Amid an exchange of its thread: its frame would be amid the other one's."""
        server = Server(self.path("a"), registered(7))
        it, told = Socket(self.path("a")), []
        send = it._send

        def handled(connection, frame):
            try:
                it.exchange(0, register(8))
            except tb.NotSent as fault:
                told.append(str(fault))
            send(connection, frame)

        with it, mock.patch.object(it, "_send", handled):
            self.assertEqual(it.exchange(0, register(7)), registered(7))
        server.end()
        self.assertEqual(told, ["a signal's handler asked amid an exchange of its thread"])
        self.assertEqual(server.requests, [register(7)])

    def told(self, it, fault):
        self.assertRaises(fault, it.exchange, 0, register(7))

    def test_wrong_lists(self):
        for wrong, error in (
            ([], tb.InvalidValue),
            (["a", 5], tb.InvalidType),
            ([("h", 0)], tb.InvalidValue),
            ((), tb.InvalidType),
        ):
            with self.assertRaises(error):
                Socket(wrong)

    def test_a_reply_of_another_request_ends_the_connection(self):
        server = Server(self.path("a"), registered(8), registered(7))
        with Socket(self.path("a")) as it:
            with self.assertRaises(tb.BadReply) as fault:
                it.exchange(0, register(7))
            self.assertIn("of client 8", str(fault.exception))
            self.assertEqual(it.exchange(0, register(7)), registered(7))
        server.end()
        self.assertEqual(server.left, [b"", b""])

    def test_what_the_server_tells(self):
        for number, (said, kind, name) in enumerate(
            (
                ("Busy", tb.Busy, "Busy"),
                ("Full", tb.ReplyLost, "Full"),
                ("Slow", tb.ReplyLost, "Slow"),
                ("\x1b]2;Full\x07", tb.ReplyLost, ""),  # a terminal would take it for an order
                ("a\rb", tb.ReplyLost, ""),
            )
        ):
            server = Server(self.path(str(number)), f"tb_listen: {said}\n".encode())
            with Socket(self.path(str(number))) as it, self.assertRaises(tb.ReplyLost) as lost:
                it.exchange(0, register(7))
            server.end()
            self.assertEqual((type(lost.exception), lost.exception.told), (kind, name))
            self.assertTrue(str(lost.exception).isprintable())


class Tls(unittest.TestCase):
    def test_wrong_arguments(self):
        context = ssl.create_default_context()
        with self.assertRaises(tb.InvalidType):
            Socket(("localhost", 1), tls=True)
        with self.assertRaises(tb.InvalidValue):
            Socket("ledger.sock", tls=context)
        with self.assertRaises(tb.InvalidValue):
            Socket([("localhost", 1), "ledger.sock"], tls=context)
        Socket([("localhost", 1), ("::1", 2)], tls=context).close()

    @unittest.skipUnless(shutil.which("openssl"), "openssl is not installed")
    def test_a_certificate_that_is_not_trusted(self):
        """It is reported at once, if no other address may reply later."""
        with tempfile.TemporaryDirectory() as folder, socket.socket() as listening:
            paths = certificates.made(folder)
            served = certificates.server_context(paths, {"cert": "server"})
            listening.bind(("127.0.0.1", 0))
            listening.listen()
            threading.Thread(target=self.agree, args=(listening, served), daemon=True).start()
            address = ("localhost", listening.getsockname()[1])
            context = ssl.create_default_context(cafile=paths["other_ca"])
            for addresses, timeout, untrusted in (
                ([address, address], 60, True),
                ([("localhost", 1), address], 0.5, False),
            ):
                began = time.monotonic()
                with Socket(addresses, timeout, context) as it:
                    with self.assertRaises(tb.CannotConnect) as found:
                        it.exchange(0, register(7))
                self.assertEqual(found.exception.untrusted, untrusted)
                self.assertEqual(time.monotonic() - began < timeout, untrusted)
            with tb.ClientSync(0, [address], tls=context, timeout=20) as client:
                with self.assertRaisesRegex(tb.CannotConnect, "^localhost:.* verify failed"):
                    client.lookup_accounts([1])

    @staticmethod
    def agree(listening, context):
        """Agrees on TLS with all who come, or tries to."""
        with contextlib.suppress(OSError):
            while True:
                it, _ = listening.accept()
                with contextlib.suppress(ssl.SSLError):
                    context.wrap_socket(it, server_side=True).close()


class OwnIds(unittest.TestCase):
    def test_a_clock_that_is_set_back(self):
        times, drawn = iter([5, 4, 6]), iter([b"\1" + bytes(9), b"\2" + bytes(9)])
        ids = Ids(lambda: next(times) * 1_000_000, lambda count: next(drawn))
        self.assertEqual([ids.next() for _ in range(3)], [5 << 80 | 1, 5 << 80 | 2, 6 << 80 | 2])


if __name__ == "__main__":
    unittest.main()
