"""An image of the Open Container Initiative: tbd, tb-listen, tb-replica and the libraries that tbd
needs.

There is no shell in it. It is an archive of an image layout with one layer, the same bytes whenever
it is made. docs/use/OPERATING.md shows its use."""

import gzip
import hashlib
import io
import json
import re
import shutil
import tarfile
from dataclasses import dataclass, field
from pathlib import Path
from typing import Any

from .programs import Record
from .running import run

USER = 10001  # of the image: no user of the host has this number
STATE, SOCKETS = "var/lib/telovamish", "run/telovamish"
PASSWD = f"root:x:0:0::/:/none\ntelovamish:x:{USER}:{USER}::/{STATE}:/none\n"
GROUP = f"root:x:0:\ntelovamish:x:{USER}:\n"
LICENCES = ("libc6", "libgcc-s1")  # packages whose libraries are in the image
LISTENS = (
    *("--unix", f"/{SOCKETS}/ledger.sock", "--status", f"/{SOCKETS}/status.sock", "--log-json"),
    *("--", "/usr/bin/tbd", "run", f"/{STATE}/ledger.tbk", "64", "1", "--existing"),
)
TYPES = "application/vnd.oci.image"


@dataclass
class Layer:
    """Files and folders by their path, in the order of a tar: a folder before what it has."""

    epoch: int
    entries: dict[str, tuple[tarfile.TarInfo, bytes]] = field(default_factory=dict)

    def add(self, path: str, data: bytes | None = None, mode: int = 0o755, user: int = 0) -> None:
        """Adds a file, or a folder if there are no bytes, with the folders above it."""
        above = str(Path(path).parent)
        if above != "." and above not in self.entries:
            self.add(above)
        info = tarfile.TarInfo(path)
        info.type = tarfile.DIRTYPE if data is None else tarfile.REGTYPE
        info.size, info.mode, info.mtime = len(data or b""), mode, self.epoch
        info.uid = info.gid = user
        self.entries[path] = info, data or b""

    def tar(self) -> bytes:
        return archive({path: it for path, it in sorted(self.entries.items())})


def archive(entries: dict[str, tuple[tarfile.TarInfo, bytes]]) -> bytes:
    to = io.BytesIO()
    with tarfile.open(fileobj=to, mode="w", format=tarfile.USTAR_FORMAT) as tar:
        for info, data in entries.values():
            tar.addfile(info, io.BytesIO(data))
    return to.getvalue()


def needed(program: Path) -> list[Path]:
    """The libraries of this computer that a program needs, with the loader."""
    found = re.findall(r"(/\S+) \(0x", run(["ldd", program]))
    return sorted({Path(it) for it in found})


def layer(programs: list[Path], epoch: int) -> bytes:
    """The files of the image."""
    made = Layer(epoch)
    for it in programs:
        made.add(f"usr/bin/{it.name}", it.read_bytes())
    for it in needed(next(it for it in programs if it.name == "tbd")):
        made.add(str(it).lstrip("/"), it.read_bytes())
    for package in LICENCES:
        path = f"usr/share/doc/{package}/copyright"
        made.add(path, Path(f"/{path}").read_bytes(), 0o644)
    made.add("etc/passwd", PASSWD.encode(), 0o644)
    made.add("etc/group", GROUP.encode(), 0o644)
    for folder in (STATE, SOCKETS):
        made.add(folder, mode=0o700, user=USER)
    return made.tar()


def config(record: Record, diff: str) -> dict[str, Any]:
    """How the image runs."""
    return {
        "architecture": "amd64",
        "os": "linux",
        "created": record.date,
        "config": {
            "User": f"{USER}:{USER}",
            "Env": ["PATH=/usr/bin", "GLIBC_TUNABLES=glibc.malloc.hugetlb=1"],
            "Entrypoint": ["/usr/bin/tb-listen"],
            "Cmd": list(LISTENS),
            "WorkingDir": f"/{STATE}",
            "Volumes": {f"/{STATE}": {}},
            "StopSignal": "SIGTERM",
            "Labels": {
                "org.opencontainers.image.title": "telovamish",
                "org.opencontainers.image.version": record.version,
                "org.opencontainers.image.revision": record.commit,
                "org.opencontainers.image.licenses": "Apache-2.0",
            },
        },
        "rootfs": {"type": "layers", "diff_ids": [diff]},
        "history": [{"created": record.date, "created_by": "packaging/build"}],
    }


def digest(data: bytes) -> str:
    return "sha256:" + hashlib.sha256(data).hexdigest()


def as_json(value: Any) -> bytes:
    return json.dumps(value, sort_keys=True).encode()


def described(kind: str, data: bytes, **more: Any) -> dict[str, Any]:
    return {"mediaType": f"{TYPES}.{kind}", "digest": digest(data), "size": len(data), **more}


def layout(record: Record, files: bytes) -> dict[str, bytes]:
    """The image layout: its files by their path."""
    packed = gzip.compress(files, 9, mtime=0)
    runs = as_json(config(record, digest(files)))
    layers = [described("layer.v1.tar+gzip", packed)]
    manifest = as_json(
        {
            "schemaVersion": 2,
            "mediaType": f"{TYPES}.manifest.v1+json",
            "config": described("config.v1+json", runs),
            "layers": layers,
        }
    )
    name = {"org.opencontainers.image.ref.name": f"telovamish:{record.version}"}
    listed = described("manifest.v1+json", manifest, annotations=name)
    blobs = {f"blobs/sha256/{digest(it)[7:]}": it for it in (packed, runs, manifest)}
    index = {"schemaVersion": 2, "mediaType": f"{TYPES}.index.v1+json", "manifests": [listed]}
    return {
        "oci-layout": as_json({"imageLayoutVersion": "1.0.0"}),
        "index.json": as_json(index),
        **blobs,
    }


def write(programs: list[Path], record: Record, epoch: int, path: Path) -> str:
    """Writes the archive."""
    made = Layer(epoch)
    for name, data in layout(record, layer(programs, epoch)).items():
        made.add(name, data, 0o644)
    path.write_bytes(made.tar())
    return path.name


def unpacked(path: Path, into: Path) -> dict[str, Any]:
    """Unpacks the layers of an archive, each blob of which is what its name says, into a folder.
    The image's config."""
    with tarfile.open(path) as tar:
        blobs = {it.name: read(tar, it) for it in tar.getmembers() if it.isfile()}
    for name, data in blobs.items():
        if name.startswith("blobs/") and digest(data)[7:] != Path(name).name:
            raise ValueError(f"{name} is another one")

    def blob(of: dict[str, Any]) -> bytes:
        return blobs[f"blobs/{of['digest'].replace(':', '/')}"]

    manifest = json.loads(blob(json.loads(blobs["index.json"])["manifests"][0]))
    shutil.rmtree(into, ignore_errors=True)
    into.mkdir(parents=True)
    for it in manifest["layers"]:
        with tarfile.open(fileobj=io.BytesIO(gzip.decompress(blob(it)))) as tar:
            tar.extractall(into)
    found: dict[str, Any] = json.loads(blob(manifest["config"]))
    return found


def read(tar: tarfile.TarFile, of: tarfile.TarInfo) -> bytes:
    file = tar.extractfile(of)
    assert file
    return file.read()
