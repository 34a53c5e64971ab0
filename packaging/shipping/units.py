"""systemd's units of the packages, with their paths and configuration."""

import re
from pathlib import Path

from .table import ROOT

FOLDER = ROOT / "server" / "systemd"
# What a unit has for a copy by hand, and what the package has.
COMMON = (
    (r"^# .*Copy it to /etc/systemd/system.*$", "# See /etc/telovamish."),
    (r"file:/opt/ledger/docs", "file:/usr/share/doc/telovamish/docs"),
    (r"^User=ledger$", "User=telovamish"),
    (r"^Group=ledger$", "Group=telovamish"),
    (r"^SocketUser=ledger$", "SocketUser=telovamish"),
    (r"^StateDirectory=ledger$", "StateDirectory=telovamish\nStateDirectoryMode=0700"),
    (r"^RuntimeDirectory=ledger$", "RuntimeDirectory=telovamish"),
    (r"/opt/ledger/bin/", "/usr/bin/"),
    (r"/run/ledger\.sock", "/run/telovamish.sock"),
    (r"/run/ledger/", "/run/telovamish/"),
)
LISTEN = (
    (
        r"^# the ledger's file is made once, by hand: .*$",
        "# the ledger's file is made once, by hand: see /etc/telovamish/tb-listen.conf",
    ),
    (r" -- (/usr/bin/tbd run) /var/lib/ledger/\S+ \d+", r" $OPTIONS -- \1 ${LEDGER} $PLACES"),
    (r"^ExecStart=", "EnvironmentFile=/etc/telovamish/tb-listen.conf\nExecStart="),
)
REPLICA = (
    (
        r"/usr/bin/tb-replica .*?--status",
        "/usr/bin/tb-replica \\\\\n    $LOG_OPTIONS --copy /var/lib/telovamish $OPTIONS \\\\\n"
        "    --status",
    ),
    (r" -- (/usr/bin/tbd follow) \d+", r" -- \1 $PLACES"),
    (r"^ExecStart=", "EnvironmentFile=/etc/telovamish/tb-replica.conf\nExecStart="),
)
REPLACED = {
    "tb-listen.service": COMMON + LISTEN,
    "tb-listen-activated.service": COMMON + LISTEN,
    "tb-listen-activated.socket": COMMON,
    "tb-replica.service": COMMON + REPLICA,
}


def source(name: str) -> Path:
    """The file of a unit."""
    return FOLDER / name


def packaged(name: str) -> str:
    """A unit of the package. Raises ValueError if a path of a copy by hand is left in it."""
    text = source(name).read_text()
    for pattern, replacement in REPLACED[name]:
        text = re.sub(pattern, replacement, text, flags=re.M | re.S if ".*?" in pattern else re.M)
    left = re.findall(r"/opt/\S*|/var/lib/ledger\S*|/etc/ledger\S*|python3 -m \S+", text)
    if left:
        raise ValueError(f"{name}: not replaced: {' '.join(left)}")
    return text


def write(folder: Path) -> None:
    """Writes all units. One that has no row here is an error."""
    folder.mkdir(parents=True, exist_ok=True)
    for path in sorted(FOLDER.iterdir()):
        (folder / path.name).write_text(packaged(path.name))
