"""Each allocation, each read and each write of the built programs refused in turn, once each, and
what they reply then.

`tb_test_refusals` serves a script by each call that may run out of memory, and makes a refused call
again; `tbs run`, `dump` and `replay` end at the first refusal. What is right comes from the frames
of this file, from examples/first.replies, and from `tbs` when nothing is refused. All memory has to
be given back after each run, whatever was refused. A loop that refuses nothing shows nothing: each
case counts its refusals and has a least number of them. With `--every N` the first call is refused,
and each N-th after it. refuse.c, which the programs are run over, needs cc and Linux.
"""

import collections

import frames
import pytest
from frames import account, ids, transfer

from ..conftest import found
from .refusing import Refuser, plain

PROGRAM, AGAIN, KEEPER = map(found, ("tbs", "tb_test_refusals", "tbd"))
NO_MEMORY = "tbs: NoMemory"  # the line of a form that ends at its fault
pytestmark = pytest.mark.slow(
    reason="refuses each allocation and fails each call of whole runs", seconds=20
)


def no_reason(whys, counted):
    """Passes if there is no reason why not; what was counted is shown otherwise."""
    print(counted)
    assert not whys, "; ".join(whys[:3])


class Script:
    """Pairs of a moment and a frame, and the offset of each."""

    def __init__(self, moment=10):
        self.moment, self.number, self.pairs = moment, 0, []

    def pair(self, client, session, number, operation, body=b""):
        self.pairs.append(frames.pair(self.moment, client, session, number, operation, body))

    def next(self, operation, *items):
        """The next request of client 7 in session 1."""
        self.number += 1
        self.pair(7, 1, self.number, operation, b"".join(items))

    def again(self, back=1):
        """One of the last pairs once more."""
        self.pairs.append(self.pairs[-back])

    @property
    def bytes(self):
        return b"".join(self.pairs)


ACCOUNTS, TRANSFERS, LOOK_ACCOUNTS, LOOK_TRANSFERS = 129, 130, 131, 132
LINKED, PENDING, POST, VOID, CLOSING = 1, 2, 4, 8, 64


def resolving(id, pending_id, flags):
    """A post of the whole amount, or a void."""
    amount = frames.AMOUNT_MAX if flags & POST else 0
    return transfer(id, 0, 0, amount, pending_id=pending_id, flags=flags)


def rows():
    """From the first register to the transfer, and one of each refusal."""
    script = Script()
    script.pair(7, 0, 0, 2)
    script.again()
    script.next(ACCOUNTS, account(1), account(2))
    script.next(LOOK_ACCOUNTS, ids(2, 9, 1))
    script.next(TRANSFERS, transfer(11, 1, 2, 100))
    script.again()
    script.again(3)
    script.pair(7, 1, 3, TRANSFERS, transfer(11, 1, 2, 101))
    script.pair(7, 1, 5, LOOK_ACCOUNTS)
    script.pair(7, 2, 4, LOOK_ACCOUNTS)
    script.pair(9, 1, 1, LOOK_ACCOUNTS)
    return script


def chains():
    """The broken chain, a chain that breaks after its post, and what is pending, posted, voided
    and closed."""
    script = Script()
    script.pair(7, 0, 0, 2)
    script.next(ACCOUNTS, account(1), account(2))
    script.next(
        TRANSFERS,
        transfer(50, 1, 2, 1, flags=LINKED),
        transfer(51, 99, 2, 1, flags=LINKED),
        transfer(52, 1, 2, 1),
    )
    script.next(TRANSFERS, transfer(64, 1, 2, 40, flags=PENDING))
    script.next(TRANSFERS, resolving(65, 64, POST | LINKED), transfer(66, 99, 2, 1))
    script.next(TRANSFERS, resolving(65, 64, POST))
    script.next(TRANSFERS, transfer(67, 1, 2, 7, flags=PENDING), resolving(68, 67, VOID))
    script.next(TRANSFERS, transfer(40, 1, 2, 0, flags=PENDING | CLOSING), transfer(41, 1, 2, 1))
    script.next(
        TRANSFERS,
        *(
            transfer(100 + k, 1 + k % 2, 2 - k % 2, 5, flags=PENDING, timeout=k % 3)
            for k in range(20)
        ),
    )
    script.moment = 2 * 10**9
    script.next(LOOK_TRANSFERS, ids(50, 51, 52, 64, 65, 66, 67, 68, 40, 41, 100, 119))
    script.next(LOOK_ACCOUNTS, ids(1, 2))
    script.again()
    return script


def evictions():
    """Three clients by turns in two places."""
    script = Script()
    for client, session in (7, 1), (8, 3), (9, 5), (7, 7):
        script.pair(client, 0, 0, 2)
        script.pair(client, session, 1, ACCOUNTS, account(client) + account(100 + session))
    script.pair(8, 3, 2, LOOK_ACCOUNTS, ids(7, 8))
    return script


@pytest.fixture(scope="module")
def refuser(program, request, tmp_path_factory):
    for name in ("tbs", "tb_test_refusals", "tbd"):
        program(name)
    return Refuser(tmp_path_factory.mktemp("refused"), request.config.getoption("--every"))


def right(words, script):
    """What `tbs` replies when nothing is refused."""
    ran = plain(PROGRAM, words, script)
    if ran.status:
        pytest.fail(f"tbs {words}: {ran.lines}")
    return ran.output


def shown(counts):
    return ", ".join(f"{count} {name}" for name, count in sorted(counts.items()))


# What is refused of a program's own, if no call says so: a block that would have become smaller
OWN = "SetUp", "copy NoMemory", "no call", "no reply"


def each_growth(refuser, program, words, script, judge, least, wanted):
    """Each allocation refused in turn while a program serves a script: what `judge` says of each
    run, all memory given back, and at least this many refusals of calls, each of the wanted kinds
    among them.
    """
    counts, whys = collections.Counter(), []
    for at, ran in refuser.in_turn(program, words, script):
        why = judge(ran, at)
        if ran.blocks:
            why = why or f"{ran.blocks} blocks were not given back"
        if why:
            whys.append(f"allocation {at}: {why}")
        if ran.refused:
            counts[refusal_of(ran)] += 1
    calls = sum(count for it, count in counts.items() if it not in OWN)
    missing = [it for it in wanted if not counts[it]]
    if not counts or refuser.every == 1 and (calls < least or missing):
        whys.append(f"only {calls} refusals of calls, none of {missing}")
    no_reason(whys, f"{sum(counts.values())} allocations refused: {shown(counts)}")


def refusal_of(ran):
    """Which call a run was refused at. What `tbs` is refused before its first byte of output is
    its words, its buffers, its machine or its first pair."""
    if ran.lines == [NO_MEMORY]:
        return NO_MEMORY if ran.output else "no reply"
    for line in ran.lines:
        if line == "SetUp" or line.endswith(
            ("NoMemory", "NoPlace", "NoCopy", "NoThread", "before", "after", "Unpublished")
        ):
            return "enter NoMemory" if line.startswith("refused") else line
        if line.startswith(("stopped", "run")):
            return "run NoMemory"
    return "no call"


def set_up(ran):
    return ran.refused and (ran.status, ran.lines[-1:], ran.output) == (3, ["SetUp"], b"")


def answers(wanted):
    """The whole right answer, whatever was refused once."""

    def judge(ran, _):
        if set_up(ran) or (ran.status, ran.output) == (0, wanted):
            return ""
        return f"status {ran.status}, {ran.lines}, {len(ran.output)} bytes of {len(wanted)}"

    return judge


def calls_answer(replies, history):
    """As `answers`, or a server that ended because memory ran out, and a prefix of both."""

    def judge(ran, _):
        if set_up(ran) or (ran.status, ran.output) == (0, replies + history):
            return ""
        if ran.status == 4 and "run NoMemory" in ran.lines:
            for at in range(0, len(replies) + 1):
                if (
                    ran.output[:at] == replies[:at]
                    and ran.output[at : at + 8] == history[:8]
                    and history.startswith(ran.output[at:])
                ):
                    return ""
        return f"status {ran.status}, {ran.lines}"

    return judge


def offers_stand(pairs, clients):
    """The history is that of the requests that were taken, without those at the places that were
    refused."""

    def judge(ran, _):
        if set_up(ran):
            return ""
        if ran.status:
            return f"status {ran.status}, {ran.lines}"
        refused = {int(it.split()[1]) for it in ran.lines if it.startswith("refused")}
        end = next((it.split() for it in ran.lines if it.startswith(("closed", "stopped"))), None)
        taken = int(end[1])
        if end[0] == "closed" and taken != len(pairs):
            return f"only {taken} places"
        left = b"".join(it for place, it in enumerate(pairs[:taken], 1) if place not in refused)
        if ran.output != right(["dump", clients], left):
            return f"another history, {ran.lines}"
        return ""

    return judge


def ends(pairs, first=0):
    """The end of each pair, or of each entry of a dump."""
    at, all_ends = first, []
    for pair in pairs:
        at += len(pair)
        all_ends.append(at)
    return all_ends


class Faults:
    """A run that ends at its fault, NoMemory, and the output is what belongs to the pairs before
    the refused allocation. A run over fewer pairs says how many allocations belong to them. `seen`
    has the numbers of pairs before a refusal."""

    def __init__(self, refuser, words, pairs, head):
        parts = [head + b"".join(pairs[:count]) for count in range(len(pairs) + 1)]
        self.whole = [refuser.run(PROGRAM, words, it, "growth", 0) for it in parts]
        self.seen = set()

    def __call__(self, ran, at):
        if (ran.status, ran.lines, ran.output) == (0, [], self.whole[-1].output):
            return ""
        if not ran.refused or (ran.status, ran.lines) != (1, [NO_MEMORY]):
            return f"status {ran.status}, {ran.lines}"
        before = sum(it.asked < at for it in self.whole) - 1
        wanted = self.whole[before].output if before >= 0 else b""
        if ran.output != wanted:
            return f"{len(ran.output)} bytes, not the {len(wanted)} of {before} pairs"
        self.seen.add(before)
        return ""

    def wanted(self):
        """How many pairs are before each one that memory is allocated for; -1 is before all."""
        asked = [-1] + [it.asked for it in self.whole]
        return {k - 1 for k, (some, more) in enumerate(zip(asked, asked[1:])) if some < more}


def dumped(script, clients):
    """The head of a script's dump, and its entries."""
    dump = right(["dump", clients], script)
    entries = list(frames.split(dump[16:], 16))
    return dump[:16], entries


def beginnings(words, pairs, head=b""):
    """What `tbs` replies to no pair, to the first, to the first two, and so on."""
    return [right(words, head + b"".join(pairs[:count])) for count in range(len(pairs) + 1)]


SCRIPTS = {"rows": rows, "chains": chains, "evictions": evictions}
CLIENTS = 2
# Each call of the program: how many refusals its runs have at least, and their kinds.
CALLS = {
    "apply": (4, ["apply NoMemory"]),
    "take": (20, ["open NoMemory", "take NoMemory", "take Unpublished after"]),
    "offer": (
        30,
        [
            "open NoMemory",
            "service NoMemory",
            "enter NoMemory",
            "run NoMemory",
            "offered_by NoMemory",
        ],
    ),
    "call": (30, ["enter NoMemory", "join NoThread"]),
}


def judge_of(call, script):
    replies, history = (right([it, CLIENTS], script.bytes) for it in ("run", "dump"))
    if call == "offer":
        return offers_stand(script.pairs, CLIENTS)
    if call == "call":
        return calls_answer(replies, history)
    return answers(replies if call == "apply" else replies + history)


GROWTHS = [(call, name) for call in CALLS for name in SCRIPTS if (call, name) != ("call", "chains")]


@pytest.mark.parametrize("call, name", GROWTHS)
def test_growth(refuser, call, name):
    script, (least, wanted) = SCRIPTS[name](), CALLS[call]
    if call == "take" and name != "evictions":
        wanted = [*wanted, "answer NoMemory"]
    judge = judge_of(call, script)
    each_growth(refuser, AGAIN, [call, CLIENTS], script.bytes, judge, least, wanted)


def test_storm(refuser):
    """A storm with each allocation refused in turn: its four lines, or NoMemory, or a client that
    gave up, and all memory given back."""
    words = ["storm", 2, 3]
    wanted, counts, whys = plain(PROGRAM, words, b"").output, collections.Counter(), []
    rights = {
        (0, wanted, ()): "made up for",
        (1, b"", (NO_MEMORY,)): "NoMemory",
        (3, b"", ("tbs: GaveUp",)): "GaveUp",
    }
    for at, ran in refuser.in_turn(PROGRAM, words, b""):
        how = rights.get((ran.status, ran.output, tuple(ran.lines)))
        if not how or ran.blocks:
            whys.append(
                f"allocation {at}: status {ran.status}, {ran.output}, {ran.lines}, {ran.blocks} "
                "blocks left"
            )
        counts[how or "wrong"] += ran.refused
    if sum(counts.values()) < refuser.least(400):
        whys.append("too few allocations were refused")
    no_reason(whys, f"{sum(counts.values())} allocations refused: {shown(counts)}")


SERVED = {
    "run": (["run", CLIENTS], 8),
    "dump": (["dump", CLIENTS, 2], 8),
    "replay": (["replay"], 4),
}


@pytest.mark.parametrize("name", SCRIPTS)
@pytest.mark.parametrize("form", SERVED)
def test_growth_of_a_form(refuser, form, name):
    """`tbs run`, `dump` with a mark, and `replay`."""
    script, (words, least), first = SCRIPTS[name](), SERVED[form], b""
    pairs = script.pairs
    if form == "replay":
        first, pairs = dumped(script.bytes, CLIENTS)
    judge = Faults(refuser, words, pairs, first)
    each_growth(refuser, PROGRAM, words, first + b"".join(pairs), judge, least, [NO_MEMORY])
    assert refuser.every > 1 or judge.seen == judge.wanted(), f"{words}: {judge.seen}"


MOST = 40


def each_read(refuser, words, script, written, starts):
    """Each read fails in turn, of 40 bytes at the most: Device, and the output is that of all
    pairs read in full."""
    whys, count = [], 0
    for at, ran in refuser.in_turn(PROGRAM, words, script, "read", read=MOST):
        if not ran.refused:
            whys += [] if (ran.status, ran.output) == (0, written[-1]) else ["nothing was refused"]
            continue
        read, count = MOST * (at - 1), count + 1
        whole = sum(it <= read for it in starts) - 1
        wanted = written[whole] if whole >= 0 else b""
        if (ran.status, ran.output, ran.lines, ran.blocks) != (1, wanted, ["tbs: Device"], 0):
            whys.append(
                f"read {at}: status {ran.status}, {len(ran.output)} bytes for {len(wanted)}, "
                f"{ran.lines}, {ran.blocks} blocks left"
            )
    if count < refuser.least(len(script) // MOST):
        whys.append(f"only {count} reads were refused")
    no_reason(whys, f"{count} reads refused")


def each_write(refuser, words, script, kind, wanted, **most):
    """Each write fails in turn, or takes nothing, once: replies that are passed on before a read,
    and are not taken then, are offered again, and nothing is lost; otherwise it is Device, and the
    output is a prefix of the right one."""
    whys, count, again = [], 0, 0
    for at, ran in refuser.in_turn(PROGRAM, words, script, kind, write=MOST, **most):
        count += ran.refused
        if (ran.status, ran.output, ran.lines, ran.blocks) == (0, wanted, [], 0):
            again += ran.refused
            continue
        whys += stopped_wrongly(f"{kind} {at}", ran, wanted)
    if count < refuser.least(len(wanted) // MOST):
        whys.append(f"only {count} writes were refused")
    no_reason(whys, f"{count} writes refused, {again} of them offered again")


def writes_stop(refuser, words, script, kind, wanted, **most):
    """From the first write on, from the second, and so on, all fail or take nothing: Device, and
    the output is a prefix of the right one."""
    whys, count = [], 0
    for at, ran in refuser.in_turn(PROGRAM, words, script, kind, write=MOST, on=1, **most):
        if ran.refused:
            count += 1
            whys += stopped_wrongly(f"{kind} {at} and on", ran, wanted)
        elif (ran.status, ran.output, ran.lines, ran.blocks) != (0, wanted, [], 0):
            whys.append(f"status {ran.status} with no write refused")
    if count < refuser.least(len(wanted) // MOST):
        whys.append(f"only {count} runs met a refusal")
    no_reason(whys, f"{count} runs that stopped")


def stopped_wrongly(name, ran, wanted):
    """Why a run whose output was refused did not stop as it must, if so."""
    stopped = (ran.status, ran.lines, ran.blocks) == (1, ["tbs: Device"], 0) and ran.refused
    if stopped and wanted.startswith(ran.output) and len(ran.output) < len(wanted):
        return []
    return [
        f"{name}: status {ran.status}, {len(ran.output)} bytes, {ran.lines}, {ran.blocks} blocks "
        "left"
    ]


def kept_wrongly(ran, file, script, written, histories):
    """Why a `run` over a new file is wrong whose memory was refused once, if so: it ends well or
    says NoMemory, no reply is without its entry, and a later run comes to the whole history."""
    made, wants = f"tbd: made {file}", "tbd: NoMemory"
    refused = ran.status == 1 and ran.lines in ([wants], [made, wants])
    if not refused and (ran.status, ran.output, ran.lines) != (0, written[-1], [made]):
        return f"status {ran.status}, {ran.lines}"
    if ran.output not in written:
        return f"{len(ran.output)} bytes, which are no replies"
    left = plain(KEEPER, ["dump", file], b"").output
    if not histories[-1].startswith(left):
        return f"{len(left)} bytes of a history of {len(histories[-1])}"
    if ran.output and not left.startswith(histories[written.index(ran.output)]):
        return f"replies without their entries, {len(left)} bytes of a history"
    again = plain(KEEPER, ["run", file, 2], script)
    left = plain(KEEPER, ["dump", file], b"")
    if (again.status, left.status, left.output) != (0, 0, histories[-1]):
        return f"status {again.status} of a later run, {again.lines}"
    return f"{ran.blocks} blocks left" if ran.blocks else ""


def read_wrongly(ran, wanted):
    """Why a form that reads a file is wrong whose memory was refused once, if so."""
    if (ran.status, ran.lines, ran.output) == (0, [], wanted):
        return f"{ran.blocks} blocks left" if ran.blocks else ""
    if (ran.status, ran.lines) == (1, ["tbd: NoMemory"]) and wanted.startswith(ran.output):
        return f"{ran.blocks} blocks left" if ran.blocks else ""
    return f"status {ran.status}, {ran.lines}, {len(ran.output)} bytes of {len(wanted)}"


def each_growth_of_tbd(refuser, words, script, judge, new, least):
    """Each allocation of a form of `tbd` refused in turn, the file that it makes away before."""
    counts, whys = collections.Counter(), []
    for at, ran in refuser.in_turn(KEEPER, words, script):
        why = judge(ran)
        whys += [f"allocation {at}: {why}"] if why else []
        counts["NoMemory" if ran.status else "made up for"] += ran.refused
        new.unlink(missing_ok=True)
    if not sum(counts.values()) or refuser.every == 1 and counts["NoMemory"] < least:
        whys.append(f"only {counts['NoMemory']} refusals were reported")
    no_reason(whys, f"allocations refused: {shown(counts)}")


def test_a_ledger_that_is_served(refuser, tmp_path):
    """`tbd run` over a new file, if memory is refused."""
    pairs, new = rows().pairs, tmp_path / "new.tbk"
    written, histories = beginnings(["run", 2], pairs), beginnings(["dump", 2], pairs)
    script = b"".join(pairs)

    def judge(ran):
        return kept_wrongly(ran, new, script, written, histories)

    each_growth_of_tbd(refuser, ["run", new, 2], script, judge, new, 20)


@pytest.mark.parametrize("form", ["check", "dump", "salvage", "backup"])
def test_a_ledger_that_is_read(refuser, tmp_path, form):
    """A form that reads a file, if memory is refused; the file stays as it was."""
    file, new = tmp_path / "kept.tbk", tmp_path / "new.tbk"
    plain(KEEPER, ["run", file, 2], b"".join(rows().pairs))
    before = file.read_bytes()
    words = [form, file, new] if form in ("salvage", "backup") else [form, file]
    wanted = plain(KEEPER, words, b"").output
    new.unlink(missing_ok=True)
    each_growth_of_tbd(refuser, words, b"", lambda ran: read_wrongly(ran, wanted), new, 10)
    assert file.read_bytes() == before


FORMS = {
    "run": ["run", 2],
    "run-profile-2": ["run", 2, 2],
    "dump": ["dump", 2],
    "dump-with-a-mark": ["dump", 2, 2],
    "replay": ["replay"],
}


def source_of(form):
    """What a form reads, what it writes after each pair or entry, and where those end."""
    script, words = rows(), FORMS[form]
    if form != "replay":
        return script.bytes, beginnings(words, script.pairs), [0] + ends(script.pairs)
    head, entries = dumped(script.bytes, 2)
    written = beginnings(words, entries, head)
    return head + b"".join(entries), written, [16] + ends(entries, 16)


@pytest.mark.parametrize("form", FORMS)
def test_each_read_fails(refuser, form):
    each_read(refuser, FORMS[form], *source_of(form))


OUTPUTS = pytest.mark.parametrize("kind", ["write", "stall"], ids=["fails", "takes-nothing"])
INPUTS = pytest.mark.parametrize("most", [{}, {"read": MOST}], ids=["at-once", "in-a-conversation"])


@INPUTS
@OUTPUTS
@pytest.mark.parametrize("form", FORMS)
def test_each_write(refuser, form, kind, most):
    source, written, _ = source_of(form)
    each_write(refuser, FORMS[form], source, kind, written[-1], **most)


@INPUTS
@OUTPUTS
@pytest.mark.parametrize("form", FORMS)
def test_each_write_from_one_on(refuser, form, kind, most):
    source, written, _ = source_of(form)
    writes_stop(refuser, FORMS[form], source, kind, written[-1], **most)
