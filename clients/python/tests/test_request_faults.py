"""Faults of a request's header, as the client names them before it sends the request."""
import unittest

import tb_client as tb
from helpers.records import header


class Frames(unittest.TestCase):
    """Which frames are sent: those at which the server would not end."""

    def test_each_operation(self):
        for operation in range(256):
            wanted = (
                None
                if 129 <= operation <= 132
                else "RegisterNumbers"
                if operation == 2
                else "UnknownOperation"
            )
            self.assertEqual(tb.request_fault(header(operation=operation)), wanted, operation)
        self.assertIsNone(tb.request_fault(header(session=0, number=0, operation=2)))

    def test_each_reserved_byte(self):
        for at in (29, 30, 31, *range(36, 48)):
            for frame in (header(), header(session=0, number=0, operation=2)):
                self.assertEqual(
                    tb.request_fault(frame[:at] + b"\1" + frame[at + 1 :]), "Reserved", at
                )

    def test_each_part_of_a_number(self):
        for at in range(16):
            self.assertIsNone(tb.request_fault(header(client=1 << 8 * at)))
        for at in range(8):
            self.assertEqual(
                tb.request_fault(header(session=1 << 8 * at, number=0, operation=2)),
                "RegisterNumbers",
            )
            self.assertIsNone(tb.request_fault(header(session=1 << 8 * at)))
        for at in range(4):
            self.assertEqual(
                tb.request_fault(header(session=0, number=1 << 8 * at, operation=2)),
                "RegisterNumbers",
            )
            self.assertIsNone(tb.request_fault(header(number=1 << 8 * at)))
        self.assertIsNone(
            tb.request_fault(header(session=0)),
            "session 0 is refused by the server",
        )
        for operation in range(129, 133):
            self.assertEqual(tb.request_fault(header(number=0, operation=operation)), "RequestZero")

    def test_each_length(self):
        for operation, size in ((129, 128), (130, 128), (131, 16), (132, 16)):
            for length, wanted in (
                (0, None),
                (1, "BadLength"),
                (size - 1, "BadLength"),
                (size, None),
                (size + 1, "BadLength"),
                (8190 * size - 1, "BadLength"),
                (8190 * size, None),
                (8190 * size + 1, "BadLength"),
                (8191 * size, "TooMany"),
                (2**32 - size, "TooMany"),
                (2**32 - 1, "BadLength"),
            ):
                self.assertEqual(
                    tb.request_fault(header(operation=operation, length=length)),
                    wanted,
                    (operation, length),
                )
        for length in (1, 16, 128, 2**32 - 1):
            self.assertEqual(
                tb.request_fault(header(session=0, number=0, operation=2, length=length)),
                "BadLength",
                length,
            )

    def test_first_of_several_faults(self):
        zeros = bytes(48)
        self.assertEqual(tb.request_fault(zeros), "ClientZero")
        self.assertEqual(
            tb.request_fault(b"GET / HTTP/1.1\r\nHost: localhost:3001\r\nAccept: */*"[:48]),
            "UnknownOperation",
        )
        self.assertEqual(tb.request_fault(header(operation=0, zeros=b"abc")), "UnknownOperation")
        self.assertEqual(tb.request_fault(header(operation=2, zeros=b"abc", length=1)), "Reserved")
        self.assertEqual(tb.request_fault(header(operation=2, length=1)), "RegisterNumbers")
        self.assertEqual(tb.request_fault(header(number=0, length=1)), "RequestZero")
        self.assertEqual(tb.request_fault(b"before" + header(client=0), 6), "ClientZero")
