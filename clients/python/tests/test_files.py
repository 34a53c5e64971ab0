#!/usr/bin/env python3
"""The file of a session: damaged ones are refused by name, and a save that fails leaves the old
one."""
import contextlib
import errno
import json
import os
import resource
import socket
import stat
import subprocess
import sys
import tempfile
import threading
import unittest
from unittest import mock

import tb_client as tb
from helpers.records import account, reply
from tb_client import Direct, Session

SERVE = Direct(lambda moment, frame: reply(frame))
SAVED = {"client": 7, "session": 1, "number": 0, "pending": ""}


class InAFolder(unittest.TestCase):
    def setUp(self):
        folder = tempfile.TemporaryDirectory()
        self.addCleanup(folder.cleanup)
        self.folder, self.path = folder.name, os.path.join(folder.name, "session.json")

    def write(self, data):
        with open(self.path, "wb") as file:
            file.write(data)

    def refused(self, field, call, *arguments, kind=tb.Invalid):
        with self.assertRaises(kind) as raised:
            call(*arguments)
        self.assertEqual(raised.exception.field, field)
        return str(raised.exception)


class Damaged(InAFolder):
    def load(self):
        return Session.load(SERVE, self.path)

    def test_text_that_is_no_session(self):
        whole = json.dumps(SAVED).encode()
        for data in (
            b"",
            b" \n",
            b"{",
            whole[:-1],
            whole + b"}",
            whole + whole,
            b"session",
            b"\0" * 100,
            b"\xff" * 100,
            b"'" + whole,
            b"\xef\xbb\xbf" + whole,
            whole.decode().encode("utf-16"),
            whole.replace(b"pending", "p\u00e9nding".encode()),
            b"[" * 1000,
            b"[" * 100_000,
            b"[" * 100_000 + b"]" * 100_000,
            b'{"a":' * 100_000,
            b'{"client": ' + b"9" * 5000 + b"}",
            whole.replace(b"7", b"[" * 100_000 + b"]" * 100_000),
            b" " * (1 << 22) + whole,
        ):
            with self.subTest(data=data[:50]):
                self.write(data)
                self.assertRaises(tb.InvalidValue, self.load)
        for data in (b"[]", b"5", b"null", b"true", b'"session"', b"NaN", b"[1, 2]"):
            self.write(data)
            self.refused("saved", self.load, kind=tb.InvalidType)
        self.write(b" \r\n\t" + whole + b"\n")
        self.assertEqual(self.load().saved, SAVED)

    def test_values_of_each_field(self):
        types, values = (
            b"1.0",
            b"0.5",
            b"1e3",
            b"NaN",
            b"Infinity",
            b"-Infinity",
            b"1e400",
            b'"1"',
            b"null",
            b"true",
            b"[1]",
            b"{}",
        ), (b"-1", b"340282366920938463463374607431768211456")
        for field in SAVED:
            for value in (
                types + values
                if field != "pending"
                else (b"1", b"null", b"[]", b'"zz"', b'"0"', b'"00"', b"NaN", b'"\\ud800"')
            ):
                with self.subTest(field=field, value=value):
                    fields = {name: json.dumps(it).encode() for name, it in SAVED.items()} | {
                        field: value
                    }
                    self.write(
                        b"{"
                        + b", ".join(
                            b'"%s": %s' % (name.encode(), it) for name, it in fields.items()
                        )
                        + b"}"
                    )
                    self.refused(
                        f"saved['{field}']",
                        self.load,
                        kind=tb.InvalidType
                        if field != "pending" and value in types
                        else tb.Invalid,
                    )

    def test_fields(self):
        for field in SAVED:
            self.write(
                json.dumps({name: it for name, it in SAVED.items() if name != field}).encode()
            )
            self.assertEqual(
                self.refused(f"saved['{field}']", self.load), f"saved['{field}'] is missing"
            )
            for value in (SAVED[field], 8):
                self.write(
                    json.dumps(SAVED)[:-1].encode()
                    + b', "%s": %s}' % (field.encode(), json.dumps(value).encode())
                )
                self.assertEqual(
                    self.refused("saved", self.load), f"saved has two fields '{field}'"
                )
        self.write(json.dumps({**SAVED, "note": "mine"}).encode())
        self.assertEqual(self.load().saved, SAVED, "another field is passed over")

    def test_what_is_no_file(self):
        os.mkdir(os.path.join(self.folder, "folder"))
        os.mkfifo(os.path.join(self.folder, "pipe"))
        for name in ("folder", "pipe", "/dev/null", "/dev/zero"):
            path = os.path.join(self.folder, name)
            before = stat.S_IFMT(os.stat(path).st_mode)
            for call in (lambda: Session.load(SERVE, path), lambda: Session(SERVE, 7).save(path)):
                self.assertEqual(
                    self.refused("path", call, kind=tb.InvalidValue),
                    "path is no file, but a folder, a pipe or a device",
                )
            self.assertEqual(stat.S_IFMT(os.stat(path).st_mode), before)
        with socket.socket(socket.AF_UNIX) as it:
            it.bind(os.path.join(self.folder, "socket"))
            self.assertRaises(OSError, Session.load, SERVE, os.path.join(self.folder, "socket"))
        self.assertRaises(FileNotFoundError, self.load)
        self.assertEqual(sorted(os.listdir(self.folder)), ["folder", "pipe", "socket"])

    def test_paths(self):
        class Bytes:
            def __fspath__(self):
                return b"session.json"

        for path in ("", "a\0b", "\ud800", Bytes()):
            self.refused("path", Session.load, SERVE, path, kind=tb.InvalidValue)
            self.refused("path", Session(SERVE, 7).save, path, kind=tb.InvalidValue)

    @unittest.skipUnless(os.geteuid() == 0, "needs root, to be another user")
    def test_no_permission(self):
        self.write(json.dumps(SAVED).encode())
        os.chmod(self.folder, 0o755)
        os.chmod(self.path, 0)
        child = os.fork()
        if not child:
            os.setuid(65534)
            told = []
            for call in (self.load, lambda: Session(SERVE, 8).save(self.path)):
                with contextlib.suppress(PermissionError):
                    call()
                    told.append("none")
            os._exit(len(told))
        self.assertEqual(os.waitpid(child, 0)[1], 0)
        os.chmod(self.path, 0o600)
        self.assertEqual((self.load().saved, os.listdir(self.folder)), (SAVED, ["session.json"]))


class Saving(InAFolder):
    def setUp(self):
        super().setUp()
        Session(SERVE, 7, session=1).save(self.path)
        self.later = Session(SERVE, 7, session=1)
        self.later.prepare(tb.Operation.create_accounts, [account(it) for it in range(1, 100)])

    def is_old(self):
        self.assertEqual(
            (Session.load(SERVE, self.path).saved, os.listdir(self.folder)),
            (SAVED, ["session.json"]),
        )
        self.later.save(self.path)  # and the next one that does not fail is kept
        self.assertEqual(Session.load(SERVE, self.path).saved, self.later.saved)
        Session(SERVE, 7, session=1).save(self.path)

    def test_each_call_that_fails(self):
        for name in ("open", "ftruncate", "fsync", "replace"):
            for code in (errno.ENOSPC, errno.EROFS, errno.EIO):
                with mock.patch(
                    f"os.{name}", side_effect=OSError(code, os.strerror(code))
                ), self.assertRaises(OSError) as raised:
                    self.later.save(self.path)
                self.assertEqual(raised.exception.errno, code)
                self.is_old()
        for name in ("fsync", "replace"):
            with mock.patch(f"os.{name}", side_effect=KeyboardInterrupt), self.assertRaises(
                KeyboardInterrupt
            ):
                self.later.save(self.path)
            self.is_old()

    def test_a_disk_that_is_full_amid_the_file(self):
        before = resource.getrlimit(resource.RLIMIT_FSIZE)
        for most in (0, 1, 100, 4096):  # bytes that a file may have
            resource.setrlimit(resource.RLIMIT_FSIZE, (most, before[1]))
            try:
                self.assertRaises(OSError, self.later.save, self.path)
            finally:
                resource.setrlimit(resource.RLIMIT_FSIZE, before)
            self.is_old()

    def test_permissions_stay(self):
        """Who may not read the file may not read the next one either."""
        for mode in (0o600, 0o640):
            os.chmod(self.path, mode)
            self.later.save(self.path)
            self.assertEqual(os.stat(self.path).st_mode & 0o777, mode)

    def test_what_a_crash_left_beside_it(self):
        with open(f"{self.path}.new", "w") as file:
            file.write("the half of a session" * 10_000)
        self.later.save(self.path)
        self.assertEqual(
            (Session.load(SERVE, self.path).saved, os.listdir(self.folder)),
            (self.later.saved, ["session.json"]),
        )

    def test_what_else_stands_beside_it(self):
        beside, mine = f"{self.path}.new", os.path.join(self.folder, "mine")
        for make, remove in (
            (os.mkdir, os.rmdir),
            (os.mkfifo, os.unlink),
            (lambda it: os.symlink(mine, it), os.unlink),
        ):
            make(beside)
            self.assertRaises(OSError, self.later.save, self.path)
            self.assertEqual(Session.load(SERVE, self.path).saved, SAVED)
            self.assertFalse(os.path.exists(mine))
            remove(beside)

    def test_sessions_that_are_saved_to_one_file(self):
        """Threads and processes: the file is one of the sessions, whole, at any time."""
        faults, done = [], threading.Event()

        def work(session):
            try:
                for _ in range(60):
                    session.save(self.path)
            except BaseException as fault:
                faults.append(fault)

        def read():
            try:
                while not done.is_set():
                    self.assertIn(Session.load(SERVE, self.path).saved, (SAVED, self.later.saved))
            except BaseException as fault:
                faults.append(fault)

        script = (
            "import sys\nfrom tb_client import *\nit = Session(Direct(len), 7, session=1)\n"
            "for _ in range(60): it.save(sys.argv[1])"
        )
        other = subprocess.Popen(
            [sys.executable, "-B", "-c", script, self.path],
            cwd=os.path.dirname(os.path.abspath(__file__)),
        )
        threads = [
            threading.Thread(target=work, args=(it,))
            for it in (self.later, Session(SERVE, 7, session=1), self.later)
        ] + [threading.Thread(target=read)]
        for it in threads:
            it.start()
        for it in threads[:-1]:
            it.join()
        self.assertEqual(other.wait(60), 0)
        done.set()
        threads[-1].join()
        self.assertEqual((faults, os.listdir(self.folder)), ([], ["session.json"]))


if __name__ == "__main__":
    unittest.main()
