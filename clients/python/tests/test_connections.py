"""Addresses of sockets, servers that are not there or come late, and wrong replies."""
import os
import socket
import struct
import tempfile
import threading
import time
import unittest

import tb_client as tb
from helpers.records import header, register, wrong_replies
from tb_client import Session, Socket


class Connections(unittest.TestCase):
    def test_addresses(self):
        for address in (
            "",
            "a\0b",
            "\ud800",
            ("a..b", 1),
            ("x" * 64, 1),
            (),
            ("localhost",),
            ("localhost", 0),
            ("localhost", 65536),
            ("", 1),
            ("a\0b", 1),
            ("localhost\n", 1),
            (1, 2),
            5,
            None,
            b"path",
            ("localhost", "1"),
        ):
            with self.assertRaises((tb.InvalidType, tb.InvalidValue), msg=repr(address)):
                Socket(address)

    def test_nobody_listens(self):
        with tempfile.TemporaryDirectory() as folder, Socket(
            os.path.join(folder, "none"), timeout=0.2
        ) as it:
            with self.assertRaises(tb.CannotConnect) as fault:
                it.exchange(0, register(1))
            self.assertIn("No such file or directory", str(fault.exception))
            self.assertIsInstance(fault.exception, tb.NotSent)

    def test_a_server_that_comes_late_is_found(self):
        with tempfile.TemporaryDirectory() as folder, socket.socket(
            socket.AF_UNIX, socket.SOCK_STREAM
        ) as place:
            path = os.path.join(folder, "late")

            def serve():
                time.sleep(0.3)
                place.bind(path)
                place.listen()
                it, _ = place.accept()
                with it:
                    it.recv(48, socket.MSG_WAITALL)
                    it.sendall(tb.Reply(1, 1, 0, 2, 0, 1, b"").to_bytes())

            server = threading.Thread(target=serve)
            server.start()
            with Socket(path) as transport:
                self.assertEqual(Session.register(transport, 1).session, 1)
            server.join()

    def answered(self, *answers, timeout=0.5):
        """What an exchange raises if the server replies so and closes."""
        with tempfile.TemporaryDirectory() as folder, socket.socket(
            socket.AF_UNIX, socket.SOCK_STREAM
        ) as place:
            path = os.path.join(folder, "it")
            place.bind(path)
            place.listen()
            transport = Socket(path, timeout=timeout)
            thrown = []

            def ask():
                try:
                    thrown.append(transport.exchange(0, register(1)))
                except tb.ClientError as fault:
                    thrown.append(fault)

            for answer in answers:
                asking = threading.Thread(target=ask)
                asking.start()
                it, _ = place.accept()
                with it:
                    it.recv(48, socket.MSG_WAITALL)
                    if answer is None:
                        asking.join()
                    else:
                        it.sendall(answer)
                asking.join()
            transport.close()
            with self.assertRaises(tb.Closed):
                transport.exchange(0, register(1))
            return thrown

    def test_what_goes_wrong(self):
        whole = tb.Reply(1, 1, 0, 2, 0, 1, b"").to_bytes()
        cut, busy, long, late, good = self.answered(
            whole[:47],
            b"tb_listen: Busy\n",
            whole[:32] + struct.pack("<I", 8191 * 128) + whole[36:],
            None,
            whole,
        )
        self.assertEqual((type(cut), str(cut)), (tb.ReplyLost, "the server closed the connection"))
        self.assertEqual(
            (type(busy), str(busy)), (tb.Busy, "the server closed the connection: Busy")
        )
        self.assertEqual(
            (type(long), str(long)), (tb.BadReply, f"a reply with a body of {8191 * 128} bytes")
        )
        self.assertEqual((type(late), str(late)), (tb.ReplyLost, "no reply within 0.5 seconds"))
        self.assertEqual(good, whole)

    def test_each_fault_of_a_reply(self):
        wrong = wrong_replies()
        for name, got in zip(wrong, self.answered(*wrong.values())):
            self.assertEqual(
                (type(got), str(got)), (tb.BadReply, f"what came is no frame of a reply ({name})")
            )

    def test_a_path_that_looks_like_a_host_and_a_port(self):
        with Socket("localhost:3001", timeout=0.1) as it, self.assertRaises(
            tb.CannotConnect
        ) as fault:
            it.exchange(0, register(1))
        self.assertEqual(
            str(fault.exception),
            "localhost:3001: No such file or directory (a path; a host and a port are "
            "('localhost', 3001))",
        )

    def test_a_wrong_frame_is_not_sent(self):
        with Socket("/nowhere") as it:
            with self.assertRaises(tb.InvalidValue):
                it.exchange(0, header(client=0))
