"""The pages, by Flask and waitress: which computer may read them, and how many at once."""

from __future__ import annotations

import errno
import logging
import os
import re
import socket
import sqlite3
from typing import Any, Callable

from flask import Flask, Response, abort, g, render_template, request
from telovamish.words import TRANSFER_FLAGS
from werkzeug.exceptions import HTTPException

from ..errors import Failed, Stop
from ..filters import OPERATIONS
from ..loading import is_postgresql
from ..names import Names
from ..numbers import flag_names
from ..output import say
from . import charts, texts
from .asked import asked_number, carried, check_fields
from .downloads import table_csv
from .queries import ROWS, Tables
from .site import Site
from .views import PAGES, Page, answer, json_fault

HOST = "127.0.0.1"
HERE = re.compile(r"(?:localhost|127\.0\.0\.1|\[::1\])(?::[0-9]{1,5})?")
HEADERS = {
    "Content-Security-Policy": "default-src 'none'; style-src 'self'; img-src data:;"
    " form-action 'self'; base-uri 'none'; frame-ancestors 'none'",
    "X-Content-Type-Options": "nosniff",
    "Referrer-Policy": "same-origin",
    "Cache-Control": "no-store",
}
THREADS, CONNECTIONS = 4, 64  # at most
PATIENCE = 60  # seconds that a browser has to send its request, and to take each part of a reply


def make_app(site: Site) -> Flask:
    """The application over a database of tables."""
    app = Flask(__name__)
    app.jinja_env.trim_blocks = app.jinja_env.lstrip_blocks = True
    app.jinja_env.filters.update(
        number=texts.shown_number,
        amount=texts.plain_amount,
        balance=texts.shown_balance,
        id=texts.shown_id,
        kind=texts.shown_kind,
        time=texts.shown_time,
        count=charts.grouped,
        flags=texts.flag_words,
    )
    app.jinja_env.globals.update(
        available=texts.available,
        transfer_flags=lambda bits: flag_names(bits, TRANSFER_FLAGS),
        carried=carried,
        rows_max=ROWS,
        state_of=texts.state_of,
        name_of=lambda kind, number: texts.names().name(kind, number),
    )
    for address, page in PAGES.items():
        name, shown = page.show.__name__, _checked(address, page)
        app.add_url_rule(address, name, _of_site(shown, site), methods=["GET"])
    app.add_url_rule("/csv/<name>.csv", "table_csv", _of_site(table_csv, site), methods=["GET"])
    for operation in OPERATIONS:
        app.add_url_rule(
            f"/{operation}",
            operation,
            _of_site(answer, site),
            defaults={"operation": operation},
            methods=["GET"],
        )
    _guard(app)
    app.register_error_handler(HTTPException, _http_fault)
    app.register_error_handler(Stop, _stop)
    app.register_error_handler(sqlite3.Error, _stop)
    return app


def _guard(app: Flask) -> None:
    """What is done around each request."""

    @app.before_request
    def only_here() -> None:
        if not HERE.fullmatch(request.environ.get("HTTP_HOST", "")):
            abort(403, "These pages are for this computer alone.")

    @app.after_request
    def guarded(response: Response) -> Response:
        response.headers.update(HEADERS)
        return response

    @app.teardown_appcontext
    def closed(_: Any) -> None:
        tables = g.pop("tables", None)
        if tables is not None:
            tables.close()


def _checked(address: str, page: Page) -> Callable[..., Any]:
    """A page that refuses the fields that its address does not have."""

    def shown(site: Site, **words: Any) -> Any:
        check_fields(address, page.fields)
        return page.show(site, **words)

    return shown


def _of_site(page: Callable[..., Any], site: Site) -> Callable[..., Any]:
    def shown(**words: Any) -> Any:
        commit = asked_number("commit")
        if commit is not None:
            site.wait_for(commit)
        g.names = site.names()
        reply = page(site, **words)
        if "tables" in g:
            g.tables.check_still()
        return reply

    return shown


def _fault(name: str, fault: str, status: int) -> Any:
    if request.path.lstrip("/") in OPERATIONS:
        return json_fault(status, fault)
    g.setdefault("names", Names())
    return render_template("fault.html", name=name, fault=fault), status


def _http_fault(error: HTTPException) -> Any:
    return _fault(error.name, error.description or "", error.code or 500)


def _stop(error: Exception) -> Any:
    return _fault("The tables", texts.shown_name(str(error)), 500)


def listen(port: int) -> socket.socket:
    """A socket that listens."""
    try:
        return socket.create_server((HOST, port))
    except OSError as error:
        if error.errno != errno.EADDRINUSE:
            raise Failed(f"port {port} of {HOST}: {os.strerror(error.errno or 0)}") from None
        raise Failed(f"port {port} of {HOST} is taken: choose another one by --port") from None


def make_server(site: Site, listening: socket.socket) -> Any:
    """A server with a bound of threads and of connections. It closes those that neither send nor
    read. A reply that is not taken waits in a file, and keeps neither a thread nor the tables."""
    try:
        from waitress.server import create_server
    except ImportError as error:
        said = f"waitress is not installed (Debian: python3-waitress): {error}"
        raise Failed(said) from None

    logging.getLogger("waitress.queue").setLevel(logging.ERROR)  # a queue is no fault here
    return create_server(
        make_app(site),
        sockets=[listening],
        threads=THREADS,
        connection_limit=CONNECTIONS,
        channel_timeout=PATIENCE,
        cleanup_interval=max(1, PATIENCE // 4),
        clear_untrusted_proxy_headers=True,
        outbuf_high_watermark=1 << 40,
        ident=None,
    )


def serve_pages(path: str, port: int, site: Site) -> int:
    """Serves until a signal raises KeyboardInterrupt."""
    Tables(path).close()
    listening = listen(port)
    port = listening.getsockname()[1]
    server = make_server(site, listening)
    name = path.partition("?")[0].rpartition("@")[2] if is_postgresql(path) else path
    say(f"http://{HOST}:{port}/ shows {name}; Ctrl-C ends it")
    server.run()
    return 0
