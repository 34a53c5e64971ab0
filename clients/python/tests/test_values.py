#!/usr/bin/env python3
"""What a field, an argument or a request may not hold is refused by name, and nothing is sent.

The ranges are those of docs/use/FORMATS.md and docs/use/RULES.md, written here again.
"""
import dataclasses
import decimal
import fractions
import itertools
import json
import math
import operator
import os
import random
import tempfile
import unittest

import tb_client as tb
from tb_client import Account, AccountFlags, Direct, Program, Session, Transfer, TransferFlags

U128, U64, U32, U16 = (2**bits - 1 for bits in (128, 64, 32, 16))
WIDE = dict.fromkeys(("id", "user_data_128"), U128)
BOTH = {
    **WIDE,
    "user_data_64": U64,
    "user_data_32": U32,
    "ledger": U32,
    "code": U16,
    "flags": U16,
    "timestamp": U64,
}
SUMS = ("debits_pending", "debits_posted", "credits_pending", "credits_posted")
ACCOUNT = {**BOTH, **dict.fromkeys(SUMS, U128), "reserved": U32}
TRANSFER = {
    **BOTH,
    **dict.fromkeys(("debit_account_id", "credit_account_id", "amount", "pending_id"), U128),
    "timeout": U32,
}


PROGRAM = "../../crates/tbs/out/tbs"


class LikeInt:
    """As a number of numpy: __int__ and __float__, and no __index__."""

    def __int__(self):
        return 5

    __float__ = __trunc__ = __int__


class LikeIndex:
    """As an integer of numpy: it has __index__."""

    def __index__(self):
        return 5


class Two(LikeIndex):
    """An __index__ that is not one."""

    def __index__(self):
        return "5"


class Odd(int):
    """A subclass of int that says another thing about itself."""

    def __int__(self):
        return 99

    def __index__(self):
        return 99


NO_NUMBERS = [
    10.99,
    10.0,
    math.nan,
    math.inf,
    0.1 + 0.7,
    decimal.Decimal("19.99"),
    decimal.Decimal(10),
    fractions.Fraction(1, 3),
    fractions.Fraction(4),
    "10",
    "",
    b"10",
    b"",
    bytearray(b"\1"),
    None,
    True,
    False,
    1j,
    [1],
    (1,),
    {1},
    {},
    object(),
    int,
    LikeInt(),
    Two(),
    math.pi,
]


def out_of_range(greatest, least=0):
    return [
        least - 1,
        -(2**200),
        greatest + 1,
        greatest * 2 + 3,
        2**128 if greatest < 2**128 else 2**129,
        10**6000,
    ]


class Values(unittest.TestCase):
    def setUp(self):
        self.sent = []
        self.session = Session(Direct(self.exchange), 7, session=1, now=lambda: 10)

    def create(self, kind, **fields):
        create = self.session.create_accounts if kind is Account else self.session.create_transfers
        return create([kind(**fields)])

    def exchange(self, moment, frame):
        self.sent.append(frame)
        return tb.Reply(7, 1, self.session.number + 1, frame[28], 0, 2, b"").to_bytes()

    def refused(self, field, call, *arguments, types=tb.Invalid, **named):
        with self.assertRaises(types) as raised:
            call(*arguments, **named)
        said = str(raised.exception)
        self.assertEqual(raised.exception.field, field)
        self.assertTrue(said.startswith(field + " "), said)
        self.assertLess(len(said), 130, said)
        self.assertIsInstance(raised.exception, (tb.ClientError, tb.NotSent))
        self.assertEqual((self.sent, self.session.pending, self.session.number), ([], None, 0))
        return said

    def test_each_field_of_each_record(self):
        for kind, fields in ((Account, ACCOUNT), (Transfer, TRANSFER)):
            for field, greatest in fields.items():
                for value in NO_NUMBERS:
                    with self.subTest(kind=kind, field=field, value=value):
                        said = self.refused(
                            f"{kind.__name__}.{field}",
                            self.create,
                            kind,
                            **{"id": 1, field: value},
                            types=TypeError,
                        )
                        self.assertIn(type(value).__name__, said)
                for value in out_of_range(greatest):
                    with self.subTest(kind=kind, field=field, bits=value.bit_length()):
                        self.refused(
                            f"{kind.__name__}.{field}",
                            self.create,
                            kind,
                            **{"id": 1, field: value},
                            types=ValueError,
                        )
                for value in (0, 1, greatest):
                    record = kind(**{"id": 1, field: value})
                    self.assertEqual(getattr(record, field), value)
                    self.assertEqual(kind.from_bytes(record.to_bytes()), record)

    def test_batches_at_random(self):
        """A record somewhere in a batch has one field that is wrong: when it is made, or later."""
        chance = random.Random(11)
        for turn in range(2000):
            kind, fields, name = chance.choice(
                ((Account, ACCOUNT, "account"), (Transfer, TRANSFER, "transfer"))
            )
            create = getattr(self.session, f"create_{name}s")
            right = [
                kind(
                    **{
                        field: chance.choice((0, 1, chance.randrange(greatest + 1), greatest))
                        for field, greatest in fields.items()
                    }
                )
                for _ in range(chance.randrange(1, 6 if turn % 20 else 40))
            ]
            field, at = chance.choice(list(fields)), chance.randrange(len(right))
            value = chance.choice(
                [*NO_NUMBERS, *out_of_range(fields[field]), chance.random() * fields[field]]
            )
            self.refused(
                f"{kind.__name__}.{field}",
                lambda: create(
                    [
                        *right[:at],
                        dataclasses.replace(right[at], **{field: value}),
                        *right[at + 1 :],
                    ]
                ),
            )
            kept = getattr(right[at], field)
            setattr(right[at], field, value)
            self.refused(f"{name}s[{at}].{field}", create, right)
            setattr(right[at], field, kept)
            self.assertEqual(create(right), [])
            self.assertEqual(self.sent.pop()[48:], b"".join(it.to_bytes() for it in right))
            self.session.number = 0

    def test_the_fields_are_all_of_them(self):
        for kind, fields in ((Account, ACCOUNT), (Transfer, TRANSFER)):
            self.assertEqual(set(kind.__dataclass_fields__), set(fields))

    def test_what_an_error_says(self):
        def said(call, *arguments, **named):
            with self.assertRaises(tb.Invalid) as raised:
                call(*arguments, **named)
            return str(raised.exception)

        self.assertEqual(
            said(Transfer, 1, amount=10.99), "Transfer.amount must be an int, not float"
        )
        self.assertEqual(said(Transfer, 1, amount=True), "Transfer.amount must be an int, not bool")
        self.assertEqual(
            said(Transfer, 1, amount=-1), "Transfer.amount must be 0 to 2^128 - 1, not -1"
        )
        self.assertEqual(
            said(Account, 1, code=65536), "Account.code must be 0 to 2^16 - 1, not 65536"
        )
        self.assertEqual(
            said(Account, 10**6000),
            "Account.id must be 0 to 2^128 - 1, not a number of 19932 bits",
        )
        self.assertEqual(
            said(Account, 1, flags=TransferFlags.pending),
            "Account.flags must be AccountFlags, not TransferFlags",
        )
        self.assertEqual(said(Session, None, 0), "client must be 1 to 2^128 - 1, not 0")
        self.assertEqual(
            said(self.session.create_transfers, [Transfer(1), Account(2)]),
            "transfers[1] must be a Transfer, not Account",
        )
        self.assertEqual(
            said(self.session.create_transfers, Transfer(1)),
            "transfers must be a list, not Transfer",
        )
        self.assertEqual(
            said(self.session.lookup_accounts, [1, 2.0]), "ids[1] must be an int, not float"
        )

    def test_integers_of_every_kind_are_taken_by_their_index(self):
        for kind, fields in ((Account, ACCOUNT), (Transfer, TRANSFER)):
            for field in fields:
                value = getattr(kind(**{"id": 1, field: LikeIndex()}), field)
                self.assertEqual(value, 5)
                self.assertIsInstance(value, int)
        odd = Transfer(Odd(7), amount=Odd(8))
        self.assertEqual(
            (odd.id, odd.amount, type(odd.amount), odd.to_bytes()[:1]), (7, 8, int, b"\7")
        )

    def test_flags_of_the_other_kind(self):
        self.refused("Account.flags", Account, 1, flags=TransferFlags.pending, types=TypeError)
        self.refused("Transfer.flags", Transfer, 1, flags=AccountFlags.linked, types=TypeError)
        self.refused("Transfer.flags", Transfer, 1, flags=tb.Operation.register, types=TypeError)
        self.assertIs(type(Transfer(1, flags=66).flags), TransferFlags)

    def test_flags_of_the_other_kind_do_not_join(self):
        for left, right in (
            (TransferFlags.linked, AccountFlags.closed),
            (AccountFlags.closed, TransferFlags.linked),
        ):
            for join in (operator.or_, operator.and_, operator.xor):
                self.assertRaises(TypeError, join, left, right)
        both = TransferFlags.linked | TransferFlags.pending
        self.assertEqual(
            (both, type(both), 1 | TransferFlags.pending, TransferFlags.pending | 1),
            (3, TransferFlags, both, both),
        )
        self.assertEqual(
            (both & TransferFlags.pending, both ^ 1, 2 & both, both & ~TransferFlags.linked),
            (2, 2, 2, 2),
        )
        self.assertTrue(
            both & TransferFlags.pending
            and TransferFlags.pending in both
            and not both & TransferFlags.closing_debit
        )

    def test_bytes_of_records(self):
        for kind in (Account, Transfer):
            right = bytes(range(128))
            self.assertEqual(
                (kind.from_bytes(right).to_bytes(), kind.from_bytes(bytearray(right))),
                (right, kind.from_bytes(memoryview(right))),
            )
            for length in (0, 1, 127, 129, 256):
                self.refused(
                    f"{kind.__name__}.from_bytes", kind.from_bytes, bytes(length), types=ValueError
                )
            for value in (None, "x" * 128, [0] * 128, 128):
                self.refused(f"{kind.__name__}.from_bytes", kind.from_bytes, value, types=TypeError)

    def test_views_of_bytes(self):
        one = Account(1, ledger=700, code=10).to_bytes()
        spread = bytes(it for byte in one for it in (byte, 0))
        for view in (
            memoryview(one),
            memoryview(one).cast("I"),
            memoryview(one).cast("B", (2, 64)),
            memoryview(spread)[::2],
        ):
            self.assertEqual(Account.from_bytes(view).to_bytes(), one)
        with self.assertRaisesRegex(tb.InvalidValue, "takes 128 bytes, not 512"):
            Account.from_bytes(memoryview(one * 4).cast("I"))  # 128 items of 4 bytes
        gone = memoryview(one)
        gone.release()
        for read in Account.from_bytes, Transfer.from_bytes, tb.reply_length, tb.request_fault:
            self.assertRaisesRegex(tb.InvalidValue, "is a view that was released", read, gone)

    def test_records_can_be_changed(self):
        record = Transfer()
        record.amount, record.flags = 5, TransferFlags.pending
        record.flags |= TransferFlags.linked
        self.assertEqual(record, Transfer(amount=5, flags=TransferFlags(3)))
        self.assertEqual(Transfer.from_bytes(record.to_bytes()), record)
        record.amount = 1.5
        with self.assertRaisesRegex(tb.InvalidType, "Transfer.amount must be an int, not float"):
            record.to_bytes()

    def test_positions_are_those_of_tigerbeetle(self):
        values = [*range(1, 11), AccountFlags.linked, 11]
        self.assertEqual(
            Account(*values),
            Account(
                id=1,
                debits_pending=2,
                debits_posted=3,
                credits_pending=4,
                credits_posted=5,
                user_data_128=6,
                user_data_64=7,
                user_data_32=8,
                ledger=9,
                code=10,
                flags=AccountFlags.linked,
                timestamp=11,
            ),
        )
        self.assertEqual(
            Transfer(*range(1, 12), TransferFlags.pending, 12),
            Transfer(
                id=1,
                debit_account_id=2,
                credit_account_id=3,
                amount=4,
                pending_id=5,
                user_data_128=6,
                user_data_64=7,
                user_data_32=8,
                timeout=9,
                ledger=10,
                code=11,
                flags=TransferFlags.pending,
                timestamp=12,
            ),
        )

    def test_a_prepared_request_is_as_it_was(self):
        for count in (1, 100):
            records = [Transfer(1, 2, 3, 4, ledger=5, code=6) for _ in range(count)]
            wanted = records[0].to_bytes() * count
            self.session.prepare(tb.Operation.create_transfers, records)
            for it in records:
                it.amount = 99
            records.clear()
            self.assertEqual(self.session.in_doubt.items[0].amount, 4)
            self.session.retry()
            self.assertEqual(self.sent.pop()[48:], wanted)

    def test_one_record_and_many_have_the_same_bytes(self):
        """Batches are packed and read a field at a time."""
        chance = random.Random(12)
        for kind, fields, operation in (
            (Account, ACCOUNT, tb.Operation.create_accounts),
            (Transfer, TRANSFER, tb.Operation.create_transfers),
        ):
            records = [
                kind(
                    **{
                        field: chance.choice((0, 1, chance.randrange(greatest + 1), greatest))
                        for field, greatest in fields.items()
                    }
                )
                for _ in range(200)
            ]
            self.session.prepare(operation, records)
            self.assertEqual(self.session.pending[48:], b"".join(it.to_bytes() for it in records))
            self.assertEqual(list(self.session.in_doubt.items), records)
            self.session.retry()
            self.sent.clear()

    def test_ids_of_lookups(self):
        for call in (self.session.lookup_accounts, self.session.lookup_transfers):
            for value in NO_NUMBERS:
                self.refused("ids[1]", call, [1, value], types=TypeError)
            for value in out_of_range(U128):
                self.refused("ids[1]", call, [1, value], types=ValueError)
            for value in (
                5,
                None,
                "12",
                b"12",
                bytearray(b"12"),
                memoryview(b"12"),
                {1: 2},
                1.5,
                Account(1),
            ):
                self.refused("ids", call, value, types=TypeError)
            self.refused("ids[0]", call, [Account(1)], types=TypeError)
            self.refused("ids", call, [1] * 8191, types=ValueError)

    def test_lists_without_end(self):
        with self.assertRaisesRegex(tb.InvalidValue, "ids must have at most 8190 items"):
            self.session.lookup_accounts(itertools.count(1))
        self.assertIsNone(self.session.in_doubt)
        self.assertEqual(self.sent, [])

    def test_records_of_each_call(self):
        account, transfer = Account(1), Transfer(1)
        for name, call, wrong in (
            ("accounts", self.session.create_accounts, transfer),
            ("transfers", self.session.create_transfers, account),
        ):
            right = account if wrong is transfer else transfer
            for value in (
                wrong,
                1,
                None,
                "x",
                right.to_bytes(),
                type(right),
                {"id": 1},
                *NO_NUMBERS,
            ):
                self.refused(f"{name}[1]", call, [right, value], types=TypeError)
            for value in (right, wrong, None, 1, "x", right.to_bytes(), {1: right}, object()):
                self.refused(name, call, value, types=TypeError)
            self.refused(name, call, [right] * 8191, types=ValueError)

    def test_a_record_that_spells_itself_otherwise(self):
        class Longer(Transfer):
            def to_bytes(self):
                return b"x" * 129

        self.session.create_transfers([Longer(9)])
        self.assertEqual(self.sent[0][48:], Transfer(9).to_bytes())

    def test_operations(self):
        for value in (0, 1, 3, 128, 133, 255, 256, -1):
            self.refused("operation", self.session.prepare, value, types=ValueError)
        for value in NO_NUMBERS:
            self.refused("operation", self.session.prepare, value, types=TypeError)
        self.refused("session", self.session.prepare, tb.Operation.register)
        self.session.session = 0
        self.refused("session", self.session.create_accounts, [])
        self.refused("items", self.session.prepare, tb.Operation.register, [1])

    def test_numbers_of_a_session(self):
        for value in NO_NUMBERS:
            for field in ("client", "session", "number", "attempts"):
                self.refused(
                    field,
                    Session,
                    Direct(self.exchange),
                    **{"client": 7, field: value},
                    types=TypeError,
                )
        for field, least, greatest in (
            ("client", 1, U128),
            ("session", 0, U64),
            ("number", 0, U32),
            ("attempts", 1, U32),
        ):
            for value in out_of_range(greatest, least):
                self.refused(
                    field,
                    Session,
                    Direct(self.exchange),
                    **{"client": 7, field: value},
                    types=ValueError,
                )
        for value in NO_NUMBERS[:22]:
            if value is not None:
                self.refused(
                    "client", Session.register, Direct(self.exchange), value, types=TypeError
                )
        self.refused("client", Session.register, Direct(self.exchange), 0, types=ValueError)
        self.session.client = 0
        self.refused("client", self.session.create_accounts, [Account(1)], types=ValueError)

    def test_the_last_number(self):
        self.session.number = U32
        with self.assertRaises(ValueError) as raised:
            self.session.lookup_accounts([1])
        self.assertEqual(str(raised.exception), "number is 2^32 - 1, the last one: register anew")
        self.assertEqual((self.sent, self.session.pending), ([], None))

    def test_moments(self):
        for value in NO_NUMBERS:
            self.session.now = lambda value=value: value
            self.refused("moment", self.session.lookup_accounts, [1], types=TypeError)
        for value in out_of_range(2**63 - 1):
            self.session.now = lambda value=value: value
            self.refused("moment", self.session.lookup_accounts, [1], types=ValueError)
        for value in (None, 5, "now"):
            self.refused("now", Session, Direct(self.exchange), 7, now=value, types=TypeError)
        for value in ("5", True, 1j, decimal.Decimal(1), b""):
            self.refused(
                "jump_max", Session, Direct(self.exchange), 7, jump_max=value, types=TypeError
            )
        for value in ("5", None, True, 1j, decimal.Decimal(1), b""):
            self.refused("pause", Session, Direct(self.exchange), 7, pause=value, types=TypeError)
        for value in (-1, -0.5, 2**32, 10**6000, math.nan, math.inf):
            self.refused("pause", Session, Direct(self.exchange), 7, pause=value, types=ValueError)
            self.refused(
                "jump_max", Session, Direct(self.exchange), 7, jump_max=value, types=ValueError
            )

    def test_frames(self):
        for field, greatest, least in (
            ("client", U128, 1),
            ("session", U64, 0),
            ("number", U32, 1),
        ):
            for value in [*NO_NUMBERS, *out_of_range(greatest, least)]:
                self.refused(
                    field,
                    tb.request_frame,
                    **{"client": 7, "session": 1, "number": 1, "operation": 129, field: value},
                )
        for field in ("session", "number"):
            self.refused(
                field,
                tb.request_frame,
                **{"client": 7, "session": 0, "number": 0, "operation": 2, field: 1},
            )
        for body in (b"1", b"1" * 127, b"1" * 129, b"1" * (8191 * 128)):
            self.refused("body", tb.request_frame, 7, 1, 1, 129, body, types=ValueError)
        self.refused("body", tb.request_frame, 7, 0, 0, 2, b"1", types=ValueError)
        for body in (None, 1, "x", [b"1"]):
            self.refused("body", tb.request_frame, 7, 1, 1, 129, body, types=TypeError)

    def test_saved(self):
        self.session.prepare(tb.Operation.create_accounts, [Account(1)])
        saved, self.session.pending = self.session.saved, None
        other = tb.request_frame(8, 1, 1, 129)
        for field, value in (
            ("pending", saved["pending"][:-2]),
            ("pending", saved["pending"][:40]),
            ("pending", "zz"),
            ("pending", None),
            ("pending", 5),
            ("pending", other.hex()),
            ("pending", tb.request_frame(7, 2, 1, 129).hex()),
            ("pending", tb.request_frame(7, 1, 2, 129).hex()),
            ("pending", saved["pending"][:59] + "1" + saved["pending"][60:]),
            ("pending", " "),
            ("pending", f" {saved['pending']}\n"),
            ("client", 0),
            ("client", "7"),
            ("client", 7.0),
            ("session", -1),
            ("session", None),
            ("number", 2**32),
            ("number", True),
        ):
            with self.subTest(field=field, value=value):
                self.refused(
                    f"saved['{field}']",
                    Session.resumed,
                    Direct(self.exchange),
                    {**saved, field: value},
                )
        for field in saved:
            self.refused(
                f"saved['{field}']",
                Session.resumed,
                Direct(self.exchange),
                {it: saved[it] for it in saved if it != field},
            )
        for value in (None, [], "x", 5):
            self.refused("saved", Session.resumed, Direct(self.exchange), value, types=TypeError)
        self.assertEqual(Session.resumed(Direct(self.exchange), saved).saved, saved)

    def test_a_saved_request_is_the_next_one_of_its_session(self):
        """A register has no session and no number before it, any other request has a session."""
        register, other = tb.request_frame(7, 0, 0, 2), tb.request_frame(7, 0, 1, 129)
        for session, number, frame in ((0, 5, register), (1, 0, register), (0, 0, other)):
            saved = {"client": 7, "session": session, "number": number, "pending": frame.hex()}
            with self.subTest(saved=saved):
                self.refused("saved['pending']", Session.resumed, Direct(self.exchange), saved)
                self.refused("pending", Session, Direct(self.exchange), 7, session, number, frame)
        saved = {"client": 7, "session": 0, "number": 0, "pending": register.hex().upper()}
        self.assertEqual(Session.resumed(Direct(self.exchange), saved).pending, register)

    def test_a_transport_that_is_none(self):
        for value in (None, "tbs", 5, PROGRAM):
            self.refused("transport", Session, value, 7, types=TypeError)
            self.refused("transport", Session.register, value, types=TypeError)

    def test_pending(self):
        other = tb.request_frame(8, 1, 1, 129)
        for value in (b"", b"x", other, tb.request_frame(7, 1, 2, 129), 5, "x", [other]):
            self.refused("pending", Session, Direct(self.exchange), 7, 1, 0, value)

    def test_paths_that_give_no_text(self):
        class Path:
            def __init__(self, given):
                self.given = given

            def __fspath__(self):
                return self.given

        for call in (
            tb.Socket,
            Program,
            self.session.save,
            lambda path: Session.load(self.session.transport, path),
        ):
            for given in None, 5, ["a"]:
                self.assertRaisesRegex(
                    tb.InvalidType, "must be a path, not Path", call, Path(given)
                )
            for given in b"a", "", "a\0b", "\ud800":
                self.assertRaisesRegex(tb.InvalidValue, "is no path", call, Path(given))

    def test_a_timeout_of_a_socket_that_was_changed(self):
        with tb.Socket("/nobody/listens/here") as it:
            for timeout in "5", None, True, [1]:
                it.timeout = timeout
                self.assertRaisesRegex(
                    tb.InvalidType,
                    "timeout must be a number",
                    it.exchange,
                    10,
                    tb.request_frame(7, 0, 0, 2),
                )
            for timeout in -1, math.nan, math.inf, 2**32:
                it.timeout = timeout
                self.assertRaisesRegex(
                    tb.InvalidValue,
                    "timeout must be",
                    it.exchange,
                    10,
                    tb.request_frame(7, 0, 0, 2),
                )

    def test_a_number_that_was_changed(self):
        for number, kind in (
            ("1", tb.InvalidType),
            (1.5, tb.InvalidType),
            (-1, tb.InvalidValue),
            (2**32, tb.InvalidValue),
        ):
            self.session.number = number
            self.assertRaisesRegex(kind, "number must be", self.session.lookup_accounts, [1])
        self.assertEqual(self.sent, [])

    def test_a_file_that_is_no_session(self):
        with tempfile.TemporaryDirectory() as folder:
            path = os.path.join(folder, "session.json")
            for text in (b"", b"{", b"\xff\xfe", b"[" * 10):
                with open(path, "wb") as file:
                    file.write(text)
                self.refused("saved", Session.load, Direct(self.exchange), path, types=ValueError)
            with open(path, "w", encoding="ascii") as file:
                json.dump([1], file)
            self.refused("saved", Session.load, Direct(self.exchange), path, types=TypeError)

    def test_paths_of_what_is_saved(self):
        for value in (None, 0, 5, True, 1.5, b"session.json", ["x"]):
            self.refused("path", self.session.save, value, types=TypeError)
            self.refused("path", Session.load, Direct(self.exchange), value, types=TypeError)

    def test_arguments_of_a_faulty_transport(self):
        for value in (None, 5, "tbs", [1]):
            self.refused("inner", tb.Faulty, value, types=TypeError)
        for field in ("requests", "replies"):
            for value in (5, None, "12", b"12", {1: 2}, 1.5):
                self.refused(
                    field, tb.Faulty, Direct(self.exchange), **{field: value}, types=TypeError
                )
            for value in NO_NUMBERS:
                self.refused(
                    f"{field}[1]",
                    tb.Faulty,
                    Direct(self.exchange),
                    **{field: [1, value]},
                    types=TypeError,
                )
        self.assertEqual(
            (
                tb.Faulty(Direct(self.exchange), [2, 1], range(3, 5)).requests,
                tb.Faulty(Direct(self.exchange), (), range(3, 5)).replies,
            ),
            ({1, 2}, {3, 4}),
        )

    def test_what_is_no_list_of_results(self):
        for value in (5, True, "exists", b"", self.session.create_transfers, Transfer(1), {}, 1.5):
            self.refused("results", tb.require_ok, value, types=TypeError)
        tb.require_ok(it for it in [Transfer(1)])

    def test_arguments_of_a_program(self):
        path = "/nowhere/tbs"
        for field, greatest in (("clients_max", 64), ("profile", 2)):
            for value in NO_NUMBERS:
                self.refused(field, Program, path, **{field: value}, types=TypeError)
            for value in out_of_range(greatest, 1):
                self.refused(field, Program, path, **{field: value}, types=ValueError)
        for value in ("5", None, True, 1j, b"", decimal.Decimal(1)):
            self.refused("timeout", Program, path, timeout=value, types=TypeError)
        for value in (0, -1, 2**32, 10**6000, math.nan, math.inf):
            self.refused("timeout", Program, path, timeout=value, types=ValueError)
        for value in ("", "a\0b", "\ud800"):
            self.refused("path", Program, value, types=ValueError)
        for value in NO_NUMBERS:
            if value is not None:
                self.refused("script_max", Program, path, script_max=value, types=TypeError)
        for value in (None, 5, 1.5):
            self.refused("path", Program, value, types=TypeError)
        for value in (None, 5, "yes"):
            self.refused("restarts", Program, path, restarts=value, types=TypeError)
        with self.assertRaises(tb.CannotStart) as raised:
            Program(path)
        self.assertEqual(
            str(raised.exception), "/nowhere/tbs does not start: No such file or directory"
        )


if __name__ == "__main__":
    unittest.main()
