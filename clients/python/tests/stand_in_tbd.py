#!/usr/bin/env python3
"""A stand-in for `tbd`, for the tests of the listener where that program is not built.

    stand_in_tbd.py run FILE CLIENTS_MAX [PROFILE] [--existing] [--progress] [--drop-torn]
    stand_in_tbd.py dump FILE
    stand_in_tbd.py check FILE

It has tbd's command line, lines and exit statuses. Its ledger knows few rules, and its file has a
dump's bytes and no checksums: nothing of money is to be kept in it. FAIL makes `run` end at its Nth
pair (pairs of clients without a session are not counted): FAIL=NAME:STATUS:N with that fault, and
FAIL=SIGNAL:PLACE:N by that signal (as SIGKILL:read:3) at one of these places:

    read   the pair was read, and nothing was done with it
    half   one byte of its entry is missing in the file
    kept   its entry is in the file, and nothing of its reply was written
    part   one byte of its reply is missing
    told   its reply was written
"""
import fcntl
import os
import signal
import struct
import sys

HEAD = struct.Struct("<8sII")
ENTRY = struct.Struct("<QQ")
REGISTER, ACCOUNTS, TRANSFERS, LOOKUP_ACCOUNTS = 2, 129, 130, 131
EXISTS = {ACCOUNTS: 21, TRANSFERS: 46}
DEBIT_ACCOUNT_NOT_FOUND, CREDIT_ACCOUNT_NOT_FOUND = 21, 22
NO_SESSION = 1
LAST_TIME = 2**63 - 1


class Fault(Exception):
    def __init__(self, line, status):
        super().__init__(line)
        self.line, self.status = line, status


class Ledger:
    """Sessions as docs/use/RULES.md has them, accounts, and transfers that are refused if they
    exist or an account does not."""

    def __init__(self, clients_max):
        self.clients_max = clients_max
        self.commit = self.time = 0
        self.sessions, self.accounts, self.transfers = {}, {}, {}

    def status(self, frame):
        """None if the request is new, 0 if it is a repeat, or the status of its refusal."""
        session, number, operation = struct.unpack_from("<QIB", frame, 16)
        row = self.sessions.get(frame[:16])
        if operation == REGISTER:
            return None if row is None else 0 if row[1] == 0 else 4
        if row is None:
            return 1
        if session != row[0]:
            return 2 if session < row[0] else 3
        if number == row[1]:
            return 0 if row[2] == frame else 5
        return 4 if number < row[1] else None if number == row[1] + 1 else 6

    def next_time(self, moment, frame):
        time = max(
            moment, self.time + max(1, (len(frame) - 48) // 128 if frame[28] in EXISTS else 1)
        )
        if time > LAST_TIME:
            raise Fault("TimeExhausted", 2)
        return time

    def enter(self, time, frame):
        """Executes a new request. Returns its reply."""
        session, number, operation = struct.unpack_from("<QIB", frame, 16)
        self.commit, self.time = self.commit + 1, time
        if operation == REGISTER:
            session = self.commit
            if len(self.sessions) == self.clients_max:
                del self.sessions[min(self.sessions, key=lambda it: self.sessions[it][4])]
        size = 128 if operation in EXISTS else 16
        items = [frame[at : at + size] for at in range(48, len(frame), size)]
        body = (
            self.create(operation, items) if operation in EXISTS else self.look_up(operation, items)
        )
        reply = (
            frame[:16]
            + struct.pack("<QIBB2xIQ4x", session, number, operation, 0, len(body), self.commit)
            + body
        )
        self.sessions[frame[:16]] = session, number, frame, reply, self.commit
        return reply

    def create(self, operation, items):
        rows, results = self.accounts if operation == ACCOUNTS else self.transfers, b""
        for index, it in enumerate(items):
            debit, credit = self.accounts.get(it[16:32]), self.accounts.get(it[32:48])
            result = EXISTS[operation] if it[:16] in rows else 0
            if operation == TRANSFERS and not result:
                result = (
                    DEBIT_ACCOUNT_NOT_FOUND
                    if debit is None
                    else CREDIT_ACCOUNT_NOT_FOUND
                    if credit is None
                    else 0
                )
            if result:
                results += struct.pack("<II", index, result)
                continue
            rows[it[:16]] = bytearray(
                it[:120] + struct.pack("<Q", self.time - len(items) + index + 1)
            )
            if operation == TRANSFERS:
                for row, at in ((debit, 32), (credit, 64)):
                    row[at : at + 16] = (
                        int.from_bytes(row[at : at + 16], "little")
                        + int.from_bytes(it[48:64], "little")
                    ).to_bytes(16, "little")
        return results

    def look_up(self, operation, items):
        rows = self.accounts if operation == LOOKUP_ACCOUNTS else self.transfers
        return b"".join(bytes(rows[it]) for it in items if it in rows)


class Ending:
    """The end that FAIL asks for, if it does."""

    def __init__(self, text):
        self.name, self.place, number = text.split(":") if text else ("", "", 0)
        self.number = int(number)

    def is_at(self, count, place):
        return count == self.number and place == ("read" if self.place.isdigit() else self.place)

    def take(self):
        if self.place.isdigit():
            raise Fault(self.name, int(self.place))
        os.kill(os.getpid(), signal.Signals[self.name])


def unopened(path, error):
    """The fault of a file that is not opened."""
    if isinstance(error, FileNotFoundError):
        return Fault(f"Device: cannot find {path}; look at its name and at its folder", 1)
    if isinstance(error, PermissionError):
        return Fault(f"Device: no permission to open {path}", 1)
    return Fault(f"Device: cannot open {path}; look at its disk and at its folder", 1)


def locked(path):
    """A file that no other process serves, made if it is not there, and its bytes."""
    try:
        it = os.open(path, os.O_RDWR | os.O_CREAT | os.O_APPEND, 0o600)
    except OSError as error:
        raise unopened(path, error) from None
    try:
        fcntl.flock(it, fcntl.LOCK_EX | fcntl.LOCK_NB)
    except OSError:
        raise Fault(f"Locked: {path} is open in another program; end that one first", 4) from None
    return it, looked_at(path)


def looked_at(path):
    """The bytes of a file, which another process may serve."""
    try:
        with open(path, "rb") as file:
            return file.read()
    except OSError as error:
        raise unopened(path, error) from None


def read(data):
    """What a file stands for: its profile, its ledger, and the end of its last whole entry."""
    if len(data) < HEAD.size or not data.startswith(b"TBSDUMP1"):
        raise Fault("NotAJournal", 5)
    _, profile, clients_max = HEAD.unpack_from(data)
    ledger, at = Ledger(clients_max), HEAD.size
    while len(data) - at >= 64:
        (commit, time), frame = (
            ENTRY.unpack_from(data, at),
            data[at + 16 : at + 64 + int.from_bytes(data[at + 48 : at + 52], "little")],
        )
        if len(frame) < 48 + int.from_bytes(frame[32:36], "little"):
            break
        if commit != ledger.commit + 1 or ledger.status(frame) is not None:
            raise Fault(f"Damaged: record {ledger.commit + 1}, at byte {at}", 6)
        ledger.enter(time, frame)
        at += 16 + len(frame)
    return profile, ledger, at


def write(file, data):
    while data:
        data = data[os.write(file, data) :]


def begin(path, clients_max, profile):
    """The file, with its torn end cut off, and its ledger."""
    file, data = locked(path)
    is_new = not data
    if len(data) < HEAD.size:
        if data != HEAD.pack(b"TBSDUMP1", profile, clients_max)[: len(data)]:
            raise Fault("NotAJournal", 5)
        os.ftruncate(file, 0)
        write(file, HEAD.pack(b"TBSDUMP1", profile, clients_max))
        data = HEAD.pack(b"TBSDUMP1", profile, clients_max)
    kept, ledger, end = read(data)
    if (kept, ledger.clients_max) != (profile, clients_max):
        made = f"CLIENTS_MAX {ledger.clients_max} and PROFILE {kept}"
        asked = f"CLIENTS_MAX {clients_max} and PROFILE {profile}"
        raise Fault(f"OtherRules: {path} was made with {made}, not with {asked}", 7)
    os.ftruncate(file, end)
    os.fsync(file)
    if is_new:
        write(2, f"tbd: made {path}\n".encode())
    return file, ledger


def pairs():
    """The moments and frames of standard input, each with whether the next one is buffered."""
    data = b""
    while True:
        while len(data) >= 56 and len(data) >= (size := 56 + int.from_bytes(data[40:44], "little")):
            pair, data = data[:size], data[size:]
            yield int.from_bytes(pair[:8], "little"), pair[8:], len(data) >= 56 and len(
                data
            ) >= 56 + int.from_bytes(data[40:44], "little")
        more = os.read(0, 1 << 20)
        if not more:
            if data:
                raise Fault("Short", 2)
            return
        data += more


def serve(file, ledger, ending):
    """Entries go to the file first, then their replies out."""
    entries = replies = b""
    count = 0
    for moment, frame, is_more in pairs():
        count += ledger.status(frame) != NO_SESSION
        if ending.is_at(count, "read"):
            ending.take()
        if not any(frame[:16]):
            raise Fault("ClientZero", 2)
        status = ledger.status(frame)
        if status is None:
            time = ledger.next_time(moment, frame)
            replies += ledger.enter(time, frame)
            entries += ENTRY.pack(ledger.commit, time) + frame
        elif status == 0:
            replies += ledger.sessions[frame[:16]][3]
        else:
            session, number, operation = struct.unpack_from("<QIB", frame, 16)
            replies += frame[:16] + struct.pack(
                "<QIBB2xIQ4x", session, number, operation, status, 0, 0
            )
        if not is_more or count == ending.number:
            commit(
                file,
                entries,
                replies,
                lambda place, count=count: ending.is_at(count, place) and ending.take(),
            )
            entries = replies = b""


def commit(file, entries, replies, ends_at):
    """Writes entries to the file, syncs them, and writes their replies. `ends_at` ends the process
    if it is to end at a place."""
    write(file, entries[:-1])
    ends_at("half")
    write(file, entries[-1:])
    write_again(file, entries[-4:])
    os.fdatasync(file)
    ends_at("kept")
    write(1, replies[:-1])
    ends_at("part")
    write(1, replies[-1:])
    ends_at("told")


def write_again(file, last):
    """Writes the last bytes again: a commit of tbd writes four more than the file grows by."""
    if last:
        with open(f"/proc/self/fd/{file}", "r+b", buffering=0) as it:
            os.pwrite(it.fileno(), last, os.fstat(file).st_size - len(last))


def tell(word, data):
    """The dump of a file, or what it stands for. One whose head was torn when it was made stands
    for nothing."""
    if len(data) < HEAD.size and data.startswith(b"TBSDUMP1"):
        write(
            1,
            b""
            if word == "dump"
            else f"records 0\nentries 0\nlast time 0\n{behind(len(data))}".encode(),
        )
        return
    profile, ledger, end = read(data)
    lines = (
        ("records", 1 + ledger.commit),
        ("entries", ledger.commit),
        ("profile", profile),
        ("clients_max", ledger.clients_max),
        ("last time", ledger.time),
    )
    told = "".join(f"{name} {number}\n" for name, number in lines) + behind(len(data) - end)
    write(1, data[:end] if word == "dump" else told.encode())


def behind(count):
    """The line on the bytes after the last whole entry."""
    return f"bytes after the records {count}{', not committed yet or torn' if count else ''}\n"


def run(path, clients_max, profile, options):
    file, ledger = begin(path, clients_max, profile)
    if "--progress" in options:
        write(2, f"tbd: ready: commit {ledger.commit}, time {ledger.time}\n".encode())
    serve(file, ledger, Ending(os.environ.get("FAIL")))


def main(words):
    options = [it for it in words[3:] if it in ("--progress", "--existing", "--drop-torn")]
    words = words[: len(words) - len(options)]
    if "--existing" in options and not os.path.exists(words[1]):
        raise Fault(f"Device: cannot find {words[1]}; look at its name and at its folder", 1)
    if len(words) > 1 and (words[1].isdigit() or words[1].startswith("-")):
        line = f"Usage: {words[0]} {words[1]}: FILE is a number; write ./FILE"
        raise Fault(line, 2)
    if (
        len(words) in (3, 4)
        and words[0] == "run"
        and all(it.isdigit() for it in words[2:])
        and 1 <= int(words[2]) <= 64
    ):
        run(words[1], int(words[2]), int(words[3]) if len(words) == 4 else 1, options)
    elif len(words) == 2 and words[0] in ("dump", "check"):
        tell(words[0], looked_at(words[1]))
    else:
        raise Fault("Usage", 2)


if __name__ == "__main__":
    try:
        main(sys.argv[1:])
    except Fault as fault:
        write(2, f"tbd: {fault.line}\n".encode())
        sys.exit(fault.status)
    except OSError:
        write(2, b"tbd: Device: standard output\n")
        sys.exit(1)
