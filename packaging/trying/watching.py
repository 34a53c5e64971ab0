"""Prometheus reads the real page of metrics, and each query of rules and dashboard runs over it."""

import json
import re
import shutil
import subprocess
import urllib.parse
import urllib.request
from pathlib import Path
from typing import Any

from shipping.running import Failed, run
from shipping.table import ROOT

from .installed import check, free_port
from .root import Root
from .serving import PAGE, Listener, waited

WATCH = ROOT / "packaging" / "watch"
# What a replica has beyond a listener: no page of a listener has them.
REPLICA = {"tb_log_ahead_seconds", "tb_rotten_entries_total"}
METRIC = re.compile(r"\btb_[a-z0-9_]+")
CONFIG = """global: {{scrape_interval: 1s, evaluation_interval: 1s}}
rule_files: [{rules}]
scrape_configs: [{{job_name: ledger, static_configs: [{{targets: ["127.0.0.1:{port}"]}}]}}]
"""


def queries() -> list[str]:
    """Those of the dashboard and of the rules."""
    panels = json.loads((WATCH / "telovamish.dashboard.json").read_text())["panels"]
    found = [target["expr"] for it in panels for target in it["targets"]]
    rules = (WATCH / "telovamish.rules.yml").read_text()
    return found + re.findall(r"^ +expr: (.*)$", rules, re.M)


def asked(port: int, path: str, **given: str) -> Any:
    url = f"http://127.0.0.1:{port}/api/v1/{path}?{urllib.parse.urlencode(given)}"
    with urllib.request.urlopen(url, timeout=10) as reply:
        return json.load(reply)["data"]


def is_up(port: int) -> bool:
    try:
        found = asked(port, "query", query="up == 1")["result"]
        rules = asked(port, "query", query="count(tb_ready)")["result"]
    except OSError:
        return False
    return bool(found and rules)


def known(page: str) -> set[str]:
    """The metrics of the listener's page, with those that only a replica has."""
    return set(METRIC.findall(page)) | REPLICA


def queried(port: int, page: str) -> str:
    """Each query is valid; those of gauges have a value; each metric is one of the page's."""
    listed = queries()
    for it in listed:
        names = set(METRIC.findall(it))
        check(names <= known(page), f"{it}: not on the page: {names - known(page)}")
        result = asked(port, "query", query=it)["result"]
        if it in ("tb_ready", "tb_connections", "tb_ledger_bytes", "tb_clock_lag_seconds"):
            check(result, f"{it} has no value")
    faults = [
        it
        for group in asked(port, "rules")["groups"]
        for it in group["rules"]
        if it["health"] == "err"
    ]
    check(not faults, faults)
    return f"{len(listed)} queries"


def explained() -> None:
    """OPERATING.md names each alert and each metric of a rule."""
    text, rules = PAGE.read_text(), (WATCH / "telovamish.rules.yml").read_text()
    names = set(re.findall(r"alert: (\w+)", rules))
    missing = {it for it in names if it not in text}
    check(not missing, f"not in {PAGE.name}: {missing}")


def watched(root: Root, room: Path) -> str:
    """A listener with metrics in the root, Prometheus outside it."""
    if not shutil.which("prometheus"):
        raise Failed("prometheus is not installed")
    run(["promtool", "check", "rules", WATCH / "telovamish.rules.yml"])
    explained()
    metrics, port = free_port(), free_port()
    folder = room / "prometheus"
    folder.mkdir()
    rules = WATCH / "telovamish.rules.yml"
    (folder / "config.yml").write_text(CONFIG.format(rules=rules, port=metrics))
    served = Listener(root, "--metrics", f"127.0.0.1:{metrics}")
    words = [
        "prometheus",
        f"--config.file={folder}/config.yml",
        f"--storage.tsdb.path={folder}/data",
    ]
    process = subprocess.Popen(
        [*words, f"--web.listen-address=127.0.0.1:{port}"], stderr=subprocess.DEVNULL
    )
    try:
        line = "telovamish run --connect {} --command".format(served.port)
        root.run(*line.split(), "lookup_accounts id=2;")
        waited("Prometheus reads the page", lambda: is_up(port), 120)
        with urllib.request.urlopen(f"http://127.0.0.1:{metrics}/", timeout=10) as reply:
            page = reply.read().decode()
        return queried(port, page)
    finally:
        process.terminate()
        process.wait(30)
        served.stop()
