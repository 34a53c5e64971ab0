"""A trial of the image: by crun if the kernel allows it, otherwise in a root made of its layers."""

import json
import shutil
import signal
import subprocess
import tempfile
from collections.abc import Sequence
from pathlib import Path

from shipping import image
from shipping.running import Failed, run
from shipping.table import ROOT

from .installed import check
from .serving import waited

NAME = "telovamish-trial"
CRUN = ["crun", "--cgroup-manager=disabled"]
UNIFIED = Path("/sys/fs/cgroup/unified")
LEDGER = f"/{image.STATE}/ledger.tbk"
CLIENT = """
import sys
import tb_client as tb
with tb.ClientSync(cluster_id=0, replica_addresses=sys.argv[1]) as client:
    accounts = [tb.Account(id=it, ledger=1, code=1) for it in (1, 2)]
    assert not client.create_accounts(accounts)
    sale = dict(debit_account_id=1, credit_account_id=2, amount=1, ledger=1, code=1)
    assert not client.create_transfers([tb.Transfer(id=tb.id(), **sale) for _ in range(100)])
    print(client.lookup_accounts([2])[0].credits_posted)
"""


def with_one_kind_of_cgroups() -> None:
    """Has crun run on a system that mounts both kinds of cgroups. This process has a mount
    namespace of its own."""
    if UNIFIED.is_mount():
        run(["umount", str(UNIFIED)])


class Image:
    """An image that was unpacked, and runs."""

    def __init__(self, path: Path, room: Path) -> None:
        self.bundle, self.root = room, room / "rootfs"
        self.config = image.unpacked(path, self.root)["config"]
        for it in (room, *room.parents):
            if Path(tempfile.gettempdir()) in it.parents:
                it.chmod(0o755)  # the image's user has to reach the sockets
        self.by_crun = shutil.which("crun") is not None
        self.by_crun = self.by_crun and self.ran("/usr/bin/tb-listen", "--version").returncode == 0

    def words(self, given: Sequence[str]) -> list[str]:
        """A command line that runs words of the image, as its user."""
        if not self.by_crun:
            who = f"--userspec={image.USER}:{image.USER}"
            return ["/usr/sbin/chroot", who, str(self.root), *given]
        run(["rm", "-f", self.bundle / "config.json"])
        run([*CRUN, "spec"], cwd=self.bundle)
        spec = json.loads((self.bundle / "config.json").read_text())
        spec["process"] |= {"args": list(given), "env": self.config["Env"], "terminal": False}
        spec["process"]["user"] = {"uid": image.USER, "gid": image.USER}
        spec["root"]["readonly"] = False
        others = ("cgroup", "network")
        spaces = spec["linux"]["namespaces"]
        spec["linux"] = {"namespaces": [it for it in spaces if it["type"] not in others]}
        spec["mounts"] = [it for it in spec["mounts"] if it["type"] not in ("cgroup", "sysfs")]
        (self.bundle / "config.json").write_text(json.dumps(spec))
        return [*CRUN, "run", "--bundle", str(self.bundle), NAME]

    def ran(self, *given: str) -> "subprocess.CompletedProcess[str]":
        words = self.words(given)
        return subprocess.run(words, input="", capture_output=True, text=True, check=False)

    def served(self) -> "subprocess.Popen[str]":
        """What the image runs if no words are given."""
        words = self.words([*self.config["Entrypoint"], *self.config["Cmd"]])
        return subprocess.Popen(words, stderr=subprocess.PIPE, text=True)

    def stop(self, process: "subprocess.Popen[str]") -> int:
        if self.by_crun:
            run([*CRUN, "kill", NAME, self.config["StopSignal"]])
        else:
            process.send_signal(signal.Signals[self.config["StopSignal"]])
        return process.wait(60)


def moved(it: Image, room: Path) -> str:
    """What a client over the image's socket prints, as the user of the image."""
    module = room / "client"
    shutil.copytree(ROOT / "clients/python/src/tb_client", module / "tb_client")
    who = [f"--reuid={image.USER}", f"--regid={image.USER}", "--clear-groups"]
    words = ["setpriv", *who, "/usr/bin/python3", "-B", "-c", CLIENT]
    place = it.root / image.SOCKETS / "ledger.sock"
    return run([*words, place], env={"PYTHONPATH": str(module)}).strip()


def runs(path: Path, room: Path) -> str:
    """The image makes a ledger, serves it, is asked for its state, and ends with status 0."""
    it = Image(path, room)
    programs = sorted(at.name for at in it.root.rglob("bin/*"))
    check(programs == ["tb-listen", "tb-replica", "tbd"], f"it has {programs}")
    missing = it.served()
    check(missing.wait(60) == 1, "it serves without a ledger")
    made = it.ran("/usr/bin/tbd", "run", LEDGER, "64", "1")
    check(made.returncode == 0, made.stderr)
    process = it.served()
    asks = ("/usr/bin/tb-listen", "status", f"/{image.SOCKETS}/status.sock")
    try:
        if not it.by_crun:  # a container has one set of words at a time
            waited("ready", lambda: it.ran(*asks).returncode == 0)
        waited("its socket", (it.root / image.SOCKETS / "ledger.sock").exists)
        check(moved(it, room) == "100", "100 transfers were not made")
    finally:
        status = it.stop(process)
    if status:
        raise Failed(f"status {status}: {process.stderr and process.stderr.read()}")
    return "by crun" if it.by_crun else "in a root of its layers: the kernel allows no container"
