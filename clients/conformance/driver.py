"""Runs a scenario: calls go to the runner, the kit plays the server meanwhile, and what comes back
is compared."""
import contextlib
import json
import os
import re
import tempfile
import threading
import time

from certificates import server_context
from relay import Lying, Relay
from runner import Ended
from server import PATIENCE, Connections, Failed, Server

CALL = 60.0  # seconds that the client may be idle in a call that has a short limit
LAST_WORD = 5.0  # seconds that a call may go on when the scenario has failed
HASTE = 5.0  # seconds: a client's limit below that is one that its scenario means to be reached
TIMES = ("timeout", "within", "pause", "at_least", "at_most", "not_before", "wait")


class Skipped(Exception):
    """The client has no such feature."""


def slower(value, factor):
    """The same steps with all times longer by a factor."""
    if isinstance(value, dict):
        return {
            key: it * factor if key in TIMES and is_time(it) else slower(it, factor)
            for key, it in value.items()
        }
    return [slower(it, factor) for it in value] if isinstance(value, list) else value


def is_time(value):
    return isinstance(value, (int, float)) and not isinstance(value, bool)


def is_timed(value):
    """Whether some steps have a limit that a right client may miss on a computer that is busy."""
    if isinstance(value, dict):
        limits = [value.get(it) for it in ("timeout", "within")]
        is_short = any(is_time(it) and 0 < it < HASTE for it in limits)
        return is_short or "at_most" in value or any(map(is_timed, value.values()))
    return isinstance(value, list) and any(map(is_timed, value))


class Run:
    """One scenario with one runner, with times that are `factor` times as long."""

    def __init__(self, scenario, begins, runner, features, over, certificates, listening=None):
        """With `listening`, which makes a listener in a folder, in front of that."""
        self.scenario, self.runner, self.listening = scenario, runner, listening
        self.all_steps = [
            *(step for name in scenario.get("begin", ()) for step in begins[name]),
            *scenario["steps"],
        ]
        self.features, self.over, self.certificates = features, over, certificates

    @property
    def is_timed(self):
        return is_timed(self.all_steps)

    def run(self, factor=1):
        self.unrepresentable, self.was_killed, self.greatest_id = 0, False, 0
        for feature in self.scenario.get("needs", ()):
            if feature not in self.features:
                raise Skipped(feature)
        with tempfile.TemporaryDirectory(prefix="kit") as folder:
            self.folder = folder
            over = self.scenario.get("over", self.over)
            kinds = self.scenario.get("servers", {"a": {}})
            servers = {
                name: Server(name, folder, over, server_context(self.certificates, kind.get("tls")))
                for name, kind in kinds.items()
            }
            for name in kinds:
                if kinds[name].get("listens") is False:
                    servers[name].unlisten()
            try:
                with self.connected(servers) as self.connections:
                    self.connections.ignored = self.scenario.get("ignored", ())
                    self.steps(slower(self.all_steps, factor))
            finally:
                for server in servers.values():
                    server.close()
        return self.unrepresentable

    @contextlib.contextmanager
    def connected(self, servers):
        """The connections that the kit's servers will have."""
        given = servers, self.scenario.get("frames", {}), self.kill, self.runner.waited
        with contextlib.ExitStack() as held:
            if self.listening is None:
                connections = Connections(*given)
            else:
                folder = held.enter_context(tempfile.TemporaryDirectory(prefix="kit"))
                listener = self.listening(folder)
                held.callback(listener.kill)
                listener.start()
                actions = [it for step in self.all_steps for it in step.get("server", ())]
                connections = Relay(listener.path, actions, *given)
            held.callback(connections.close)
            yield connections

    def steps(self, steps):
        for place, step in enumerate(steps, 1):
            try:
                self.step(step)
                self.connections.nothing_left()
            except Failed as why:
                what = step.get("call", {}).get("do") or step.get("file") or "server"
                raise Failed(f"step {place} ({what}): {why}") from None

    def step(self, step):
        if "call" in step:
            self.call(step)
        elif "file" in step:
            self.file(step)
        elif step.get("kill"):
            self.runner.start()
        elif "others" in step:
            self.connections.others(step["others"])
        else:
            self.connections.run(step["server"])

    # Calls

    def call(self, step):
        fault, is_answered = [], threading.Event()

        def serve():
            try:
                self.connections.run(step.get("server", ()))
            except (Failed, Lying) as why:
                fault.append(why)
            except (OSError, KeyError, ValueError) as why:
                fault.append(Failed(f"{type(why).__name__}: {why}"))
            if fault:
                self.connections.close()  # so that the call ends
                if not is_answered.wait(LAST_WORD):
                    self.runner.strike()

        server, began = threading.Thread(target=serve), time.monotonic()
        self.connections.begin_call(step["call"])
        self.runner.send(self.filled(step["call"]))
        server.start()
        answer = None
        try:
            answer = self.runner.answer(CALL if self.is_timed else PATIENCE, server.is_alive)
        except Ended as why:
            if not self.was_killed:
                fault.append(Failed(why))
        is_answered.set()
        took = time.monotonic() - began
        server.join()
        if fault and isinstance(fault[0], Lying):
            raise fault[0]
        if fault:
            more = f"; the runner answers {short(answer)}" if answer else ""
            raise Failed(f"{fault[0]}{more}")
        if self.was_killed:
            self.was_killed = False
            self.runner.start()
            return
        wants = step.get("wants", {"ok": None})
        self.test(self.connections.wanted(step["call"], wants), answer)
        least, most = step.get("at_least", 0), step.get("at_most", took)
        if not least <= took <= most:
            raise Failed(f"the call took {took:.3f} s: {least:g} to {most:g} are wanted")

    def kill(self):
        """Kills the runner within a call."""
        self.was_killed = True
        self.runner.strike()

    def filled(self, value):
        """A call with its places: paths in the scenario's folder, addresses of its servers,
        certificates."""
        if isinstance(value, dict):
            if set(value) == {"address"}:
                return self.connections.servers[value["address"]].address
            if set(value) == {"certificate"}:
                return self.certificates[value["certificate"]]
            return {key: self.filled(it) for key, it in value.items()}
        if isinstance(value, list):
            return [self.filled(it) for it in value]
        if isinstance(value, str) and value.startswith("$DIR"):
            return self.folder + value[4:]
        return value

    # What is wanted

    def test(self, wants, answer):
        if "unrepresentable" in answer:
            if not wants.get("typed"):
                raise Failed(f"the runner answers {short(answer)}")
            self.unrepresentable += 1
        elif "either" in wants:
            if not any(self.is_wanted(it, answer) for it in wants["either"]):
                raise Failed(
                    f"the runner answers {short(answer)}, not one of {short(wants['either'])}"
                )
        elif not self.is_wanted(wants, answer):
            raise Failed(f"the runner answers {short(answer)}, not {short(wants)}")

    def is_wanted(self, wants, answer):
        if "error" in wants:
            return is_error(wants, answer.get("error"))
        if "ids" in wants:
            return self.are_later(wants["ids"], answer.get("ok"))
        if "answers" in wants:
            return self.are_wanted(wants["answers"], answer.get("ok"))
        return set(answer) == {"ok"} and matches(wants["ok"], answer["ok"])

    def are_later(self, wants, got):
        """Whether these are ids, and if `after` says so, above all earlier ones of the run."""
        if not are_ids(wants, got):
            return False
        numbers = [int(it) for it in got]
        before, self.greatest_id = self.greatest_id, max([self.greatest_id, *numbers])
        return not wants.get("after") or min(numbers) > before

    def are_wanted(self, wants, answers):
        """Whether each of some answers is one that is wanted, in any order."""
        if not isinstance(answers, list) or len(answers) != len(wants):
            return False
        left = list(answers)
        for it in wants:
            found = next((at for at, got in enumerate(left) if self.is_wanted(it, got)), None)
            if found is None:
                return False
            del left[found]
        return True

    # Files

    def file(self, step):
        path = os.path.join(self.folder, step["file"])
        if "write" in step:
            write(path, step["write"])
        if "spaces" in step:
            write(path, " " * step["spaces"])
        if "cut" in step:
            with open(path, "r+b") as it:
                it.truncate(
                    max(os.path.getsize(path) + step["cut"], 0) if step["cut"] < 0 else step["cut"]
                )
        if "replace" in step:
            text = read(path)
            found = re.sub(step["replace"][0], step["replace"][1], text, count=1)
            if found == text:
                raise Failed(f"the file has no {step['replace'][0]}: {text[:200]}")
            write(path, found)
        if step.get("unlink"):
            os.unlink(path)
        if "folder" in step:
            os.mkdir(path)
        if "pipe" in step:
            os.mkfifo(path)
        if "link" in step:
            os.link(path, os.path.join(self.folder, step["link"]))
        if "symlink" in step:
            os.symlink(step["symlink"], path)
        if "chmod" in step:
            os.chmod(path, int(step["chmod"], 8))
        if "copy" in step:
            write(os.path.join(self.folder, step["copy"]), read(path))
        if "is" in step:
            self.is_file(path, step["is"])
        if "mode" in step:
            found = f"{os.stat(path).st_mode & 0o777:o}"
            if found != step["mode"]:
                raise Failed(f"the file has the permissions {found}, not {step['mode']}")
        if step.get("alone"):
            beside = sorted(os.listdir(self.folder))
            kept = [it for it in beside if not it.endswith(".sock")]
            if kept != [step["file"]]:
                raise Failed(f"next to the file are {kept}")

    @staticmethod
    def is_file(path, wanted):
        try:
            found = json.loads(read(path))
        except (OSError, ValueError) as error:
            raise Failed(f"the file is no JSON: {error}") from None
        if found != wanted:
            raise Failed(f"the file has {short(found)}, not {short(wanted)}")


def matches(wanted, got):
    """Whether two values are the same. A wanted {"any": true} is anything."""
    if wanted == {"any": True}:
        return True
    if isinstance(wanted, dict) and isinstance(got, list):
        return set(wanted) == {"count", "first"} and rises(wanted, got)
    if isinstance(wanted, dict) and isinstance(got, dict):
        return wanted.keys() == got.keys() and all(
            matches(it, got[key]) for key, it in wanted.items()
        )
    if isinstance(wanted, list) and isinstance(got, list):
        return len(wanted) == len(got) and all(map(matches, wanted, got))
    return type(wanted) is type(got) and wanted == got


def rises(wanted, got):
    """Whether these are this many records, each as the first one, with ids that rise by one."""
    first = wanted["first"]
    start = int(first["id"])
    return len(got) == wanted["count"] and all(
        it == {**first, "id": str(start + at)} for at, it in enumerate(got)
    )


ALIASES = {"Invalid": ("InvalidValue", "InvalidType")}


def is_error(wants, got):
    if not isinstance(got, dict):
        return False
    names = wants["error"] if isinstance(wants["error"], list) else [wants["error"]]
    if got.get("name") not in {it for name in names for it in ALIASES.get(name, (name,))}:
        return False
    if "field" in wants and not re.search(rf"\b{wants['field']}\b", str(got.get("field"))):
        return False
    for key in ("sent", "told", "results"):
        if key in wants and got.get(key) != wants[key]:
            return False
    return True


def are_ids(wants, got):
    """Whether these are this many ids: all different, each of about now, and rising if they were
    made by one thread."""
    if (
        not isinstance(got, list)
        or len(got) != wants["count"]
        or not all(re.fullmatch(r"[1-9]\d*", it) for it in got)
    ):
        return False
    numbers, now = [int(it) for it in got], time.time_ns() // 1_000_000
    if len(set(numbers)) != len(numbers) or not all(
        abs((it >> 80) - now) < 60_000 for it in numbers
    ):
        return False
    return not wants.get("rise") or numbers == sorted(numbers)


def short(value):
    text = json.dumps(value)
    return text if len(text) < 400 else f"{text[:400]}.."


def read(path):
    with open(path, encoding="utf-8") as it:
        return it.read()


def write(path, text):
    with contextlib.suppress(FileNotFoundError):
        os.unlink(path)
    with open(path, "w", encoding="utf-8") as it:
        it.write(text)
