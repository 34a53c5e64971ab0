#!/usr/bin/env python3
"""The runner of this client for the conformance kit: a JSON line in, a JSON line out.

    clients/conformance/kit.py -- python3 -B clients/python/conformance_runner.py
"""
from __future__ import annotations

import asyncio
import concurrent.futures
import contextlib
import functools
import json
import os
import platform
import ssl
import sys
import threading
from typing import TYPE_CHECKING, Any, Callable, Dict, Iterator, List, Optional, Tuple

sys.path.insert(0, os.path.join(os.path.dirname(os.path.abspath(__file__)), "src"))

import tb_client as tb  # noqa: E402
from tb_client.frames import header_of  # noqa: E402
from tb_client.ids import MILLISECOND, Ids  # noqa: E402

FEATURES = ["unix", "tcp", "addresses", "tls", "parallel", "shared"]
OPTIONS = ("attempts", "pause")


class Unsupported(Exception):
    """The kit asks for what this runner does not know."""


# Values


def value_of(given: Any) -> Any:
    """What a JSON value stands for: a text is an integer, and other kinds are marked."""
    if isinstance(given, str):
        return int(given)
    if isinstance(given, dict):
        ((kind, inside),) = given.items()
        return {"float": float, "text": str, "bool": bool}[kind](inside)
    return given


def flags_of(kind: Any, given: Any) -> Any:
    if not isinstance(given, list):
        return value_of(given)
    flags = kind(0)
    for name in given:
        flags |= kind[name]
    return flags


def record_of(kind: Any, given: Dict[str, Any]) -> Any:
    flags = tb.AccountFlags if kind is tb.Account else tb.TransferFlags
    fields = {
        name: flags_of(flags, it) if name == "flags" else value_of(it)
        for name, it in given.items()
        if name != "kind"
    }
    return kind(**fields)


def item_of(operation: str, given: Any) -> Any:
    if not isinstance(given, dict) or not {"kind", "id"} & given.keys():
        return value_of(given)
    kinds = {"account": tb.Account, "transfer": tb.Transfer}
    kind = kinds[given.get("kind", "account" if operation == "create_accounts" else "transfer")]
    return record_of(kind, given)


def items_of(operation: str, given: Any) -> Any:
    if isinstance(given, list):
        return [item_of(operation, it) for it in given]
    if isinstance(given, dict) and "count" in given:
        first = given["first"]
        if not isinstance(first, dict):
            return [int(first) + at for at in range(given["count"])]
        start = int(first["id"])
        return [
            item_of(operation, {**first, "id": str(start + at)}) for at in range(given["count"])
        ]
    return value_of(given)


def operation_of(given: Any) -> Any:
    named = isinstance(given, str) and given in tb.Operation.__members__
    return tb.Operation[given] if named else value_of(given)


def shown_flags(flags: Any) -> Any:
    names = [it.name for it in type(flags) if it & flags]
    return names if sum(type(flags)[it] for it in names) == int(flags) else str(int(flags))


def shown_record(record: Any) -> Dict[str, Any]:
    fields = {name: str(int(it)) for name, it in vars(record).items() if name != "flags"}
    return {**fields, "flags": shown_flags(record.flags)}


def shown_item(item: Any) -> Any:
    return str(item) if isinstance(item, int) else shown_record(item)


def shown_results(results: Any) -> List[Dict[str, Any]]:
    return [{"index": it.index, "result": it.result.name} for it in results]


def shown_saved(session: tb.Session) -> Dict[str, str]:
    return {name: str(it) for name, it in session.saved.items()}


def error_of(error: Exception) -> Dict[str, Any]:
    if isinstance(error, tb.ClientError):
        found: Dict[str, Any] = {
            "name": type(error).__name__,
            "sent": not isinstance(error, tb.NotSent),
        }
        if isinstance(error, tb.Invalid):
            found["field"] = error.field
        if isinstance(error, tb.ReplyLost):
            found["told"] = error.told
        if isinstance(error, tb.EventsFailed):
            found["results"] = shown_results(error.results)
        return found
    if isinstance(error, OSError):
        return {"name": "File", "sent": False}
    raise error


# Calls


class KeepingSocket(tb.Socket):
    """Keeps the operation that each thread sent last: `retry` sends what is in doubt at its
    turn."""

    last = threading.local()

    def exchange(self, moment: int, frame: bytes) -> bytes:
        self.last.operation = header_of(frame).operation
        return super().exchange(moment, frame)


def change(items: List[Any]) -> None:
    """Changes a caller's items after a call."""
    for it in items:
        with contextlib.suppress(AttributeError):
            it.id = 0
    items[:] = [0] * len(items)


class Ended(Exception):
    """The answer of a call that was begun is that of `end`."""

    def __init__(self, answer: Dict[str, Any]) -> None:
        super().__init__("ended")
        self.answer = answer


if TYPE_CHECKING:
    Begun = concurrent.futures.Future[Any]
LEFT = (asyncio.CancelledError, asyncio.TimeoutError, concurrent.futures.CancelledError)


class Runner:
    loop = asyncio.new_event_loop()  # of the clients that callers share

    def __init__(self) -> None:
        self.transports: Dict[str, tb.Socket] = {}
        self.sessions: Dict[str, tb.Session] = {}
        self.shared: Dict[str, tb.ClientAsync] = {}
        self.begun: Dict[str, Tuple[Dict[str, Any], Begun]] = {}

    def answer(self, line: Dict[str, Any]) -> Dict[str, Any]:
        call: Optional[Callable[[Dict[str, Any]], Any]] = getattr(
            self, f"do_{line.get('do')}", None
        )
        if call is None:
            return {"unsupported": f"no call {line.get('do')}"}
        try:
            return {"ok": call(line)}
        except Unsupported as why:
            return {"unsupported": str(why)}
        except Ended as why:
            return why.answer
        except LEFT:
            return {"error": {"name": "Cancelled"}}
        except (tb.ClientError, OSError) as error:
            return {"error": error_of(error)}

    def session(self, line: Dict[str, Any]) -> tb.Session:
        try:
            return self.sessions[line["session"]]
        except KeyError:
            raise Unsupported(f"no session {line.get('session')}") from None

    def options(self, line: Dict[str, Any]) -> Dict[str, Any]:
        return {name: number_of(line[name]) for name in OPTIONS if name in line}

    def do_hello(self, _: Dict[str, Any]) -> Any:
        language = f"Python {platform.python_version()}"
        return {"protocol": 1, "client": "tb_client", "language": language, "features": FEATURES}

    def do_reset(self, _: Dict[str, Any]) -> None:
        for it in self.transports.values():
            it.close()
        for _, call in self.begun.values():
            call.cancel()
        for client in self.shared.values():
            asyncio.run_coroutine_threadsafe(client.close(), self.loop)
        self.__init__()  # type: ignore[misc]

    def do_connect(self, line: Dict[str, Any]) -> None:
        addresses: List[Any] = [
            it["unix"] if "unix" in it else (it["host"], it["port"]) for it in line["addresses"]
        ]
        given: Dict[str, Any] = {"timeout": number_of(line["timeout"])} if "timeout" in line else {}
        if "tls" in line:
            given["tls"] = context_of(line["tls"])
        place = addresses[0] if len(addresses) == 1 else addresses
        self.transports[line["transport"]] = KeepingSocket(place, **given)

    def do_share(self, line: Dict[str, Any]) -> None:
        addresses: List[Any] = [
            it["unix"] if "unix" in it else (it["host"], it["port"]) for it in line["addresses"]
        ]
        given: Dict[str, Any] = {"sessions": line["sessions"]} if "sessions" in line else {}
        tls = context_of(line["tls"]) if "tls" in line else None
        limit = line.get("timeout", 5.0)
        self.shared[line["shared"]] = tb.ClientAsync(
            0, addresses, connect=lambda: tb.Socket(addresses, timeout=limit, tls=tls), **given
        )

    def asking(self, line: Dict[str, Any]) -> Begun:
        """A call of a shared client, which goes on in the loop."""
        client, operation = self.client(line), line["operation"]
        call = getattr(client, operation)(items_of(operation, line.get("items", [])))
        return asyncio.run_coroutine_threadsafe(
            asyncio.wait_for(call, line.get("within")), self.loop
        )

    def client(self, line: Dict[str, Any]) -> tb.ClientAsync:
        try:
            return self.shared[line["shared"]]
        except KeyError:
            raise Unsupported(f"no shared client {line.get('shared')}") from None

    def do_begin(self, line: Dict[str, Any]) -> None:
        self.begun[line["call"]] = line, self.asking(line)

    def do_end(self, line: Dict[str, Any]) -> None:
        asked, call = self.begun[line["call"]]
        raise Ended(self.answer({**asked, "do": "ask", "begun": call}))

    def do_leave(self, line: Dict[str, Any]) -> None:
        self.begun[line["call"]][1].cancel()

    def do_open(self, line: Dict[str, Any]) -> Any:
        client = value_of(line["client"]) if "client" in line else tb.id()
        session = tb.Session(self.transports[line["transport"]], client, **self.options(line))
        self.sessions[line["session"]] = session
        return {"client": str(session.client)}

    def do_register(self, line: Dict[str, Any]) -> Any:
        given = {"client": value_of(line["client"])} if "client" in line else {}
        session = tb.Session.register(
            self.transports[line["transport"]], **given, **self.options(line)
        )
        self.sessions[line["session"]] = session
        return {"client": str(session.client), "session": str(session.session)}

    def do_load(self, line: Dict[str, Any]) -> Any:
        session = tb.Session.load(
            self.transports[line["transport"]], line["path"], **self.options(line)
        )
        self.sessions[line["session"]] = session
        return shown_saved(session)

    def do_resume(self, line: Dict[str, Any]) -> Any:
        saved = {
            name: it if name == "pending" and isinstance(it, str) else value_of(it)
            for name, it in line["saved"].items()
        }
        session = tb.Session.resumed(
            self.transports[line["transport"]], saved, **self.options(line)
        )
        self.sessions[line["session"]] = session
        return shown_saved(session)

    def do_prepare(self, line: Dict[str, Any]) -> None:
        operation = line["operation"]
        items = items_of(operation, line.get("items", []))
        self.session(line).prepare(operation_of(operation), items)
        if line.get("changes"):
            change(items)

    def do_retry(self, line: Dict[str, Any]) -> Any:
        session = self.session(line)
        said = session.retry()
        return self.said(session, said, line, KeepingSocket.last.operation.name)

    def do_ask(self, line: Dict[str, Any]) -> Any:
        if "shared" in line:
            call = line["begun"] if "begun" in line else self.asking(line)
            return self.said(None, call.result(), line, line["operation"])
        session, operation = self.session(line), line["operation"]
        items = items_of(operation, line.get("items", []))
        if operation in (
            "create_accounts",
            "create_transfers",
            "lookup_accounts",
            "lookup_transfers",
        ):
            return self.said(session, getattr(session, operation)(items), line, operation)
        session.prepare(operation_of(operation), items)
        return self.said(session, session.retry(), line, "register")

    @staticmethod
    def said(session: Optional[tb.Session], said: Any, line: Dict[str, Any], operation: str) -> Any:
        if line.get("require_ok"):
            tb.require_ok(said)
        if said is None and session is not None:
            return {"session": str(session.session)}
        if operation.startswith("create"):
            return {"results": shown_results(said)}
        return {"records": [shown_record(it) for it in said]}

    def do_saved(self, line: Dict[str, Any]) -> Any:
        return shown_saved(self.session(line))

    def do_save(self, line: Dict[str, Any]) -> None:
        self.session(line).save(line["path"])

    def do_in_doubt(self, line: Dict[str, Any]) -> Any:
        asked = self.session(line).in_doubt
        if asked is None:
            return None
        numbers = {
            "client": str(asked.client),
            "session": str(asked.session),
            "number": str(asked.number),
        }
        return {
            **numbers,
            "operation": asked.operation.name,
            "items": [shown_item(it) for it in asked.items],
        }

    def do_close(self, line: Dict[str, Any]) -> None:
        if "shared" in line:
            asyncio.run_coroutine_threadsafe(self.client(line).close(), self.loop).result()
            return
        (self.session(line) if "session" in line else self.transports[line["transport"]]).close()

    def do_drop(self, line: Dict[str, Any]) -> None:
        del self.sessions[line["session"]]

    def do_ids(self, line: Dict[str, Any]) -> Any:
        if "times" in line:
            times: Iterator[int] = iter(line["times"])
            drawn: Iterator[str] = iter(line["random"])
            ids = Ids(lambda: next(times) * MILLISECOND, lambda _: bytes.fromhex(next(drawn)))
            return [str(ids.next()) for _ in line["times"]]
        threads = line.get("threads", 1)
        count = line.get("count", 1) // threads
        each = self.together([lambda: [tb.id() for _ in range(count)]] * threads)
        return [str(it) for made in each for it in made]

    def do_parallel(self, line: Dict[str, Any]) -> Any:
        return self.together([functools.partial(self.answer, it) for it in line["calls"]])

    @staticmethod
    def together(calls: List[Callable[[], Any]]) -> List[Any]:
        found: List[Any] = [None] * len(calls)

        def one(at: int) -> None:
            found[at] = calls[at]()

        threads = [threading.Thread(target=one, args=(at,)) for at in range(len(calls))]
        for it in threads:
            it.start()
        for it in threads:
            it.join()
        return found


def number_of(given: Any) -> Any:
    """An option: JSON's number as it is, or a marked value."""
    return value_of(given) if isinstance(given, (dict, str)) else given


def context_of(given: Dict[str, Any]) -> ssl.SSLContext:
    context = ssl.create_default_context(cafile=given["ca"])
    if "cert" in given:
        context.load_cert_chain(given["cert"], given.get("key"))
    return context


def main() -> int:
    runner = Runner()
    threading.Thread(target=Runner.loop.run_forever, daemon=True).start()
    for line in sys.stdin:
        print(json.dumps(runner.answer(json.loads(line))), flush=True)
    return 0


if __name__ == "__main__":
    sys.exit(main())
