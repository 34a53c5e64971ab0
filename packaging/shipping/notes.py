"""Release notes: the version's part of CHANGELOG, with what each package is for."""

import re
from pathlib import Path

from .programs import Record

PACKAGES = """| Package | For |
|---|---|
| `telovamish_{0}_amd64.deb` | the proved programs: `tbs`, `tb_script`, `tbd` |
| `telovamish-tools_{0}_all.deb` | `telovamish`: statements, a terminal, audits |
| `telovamish-server_{0}_amd64.deb` | `tb-listen`, its units |
| `telovamish-replica_{0}_amd64.deb` | `tb-replica`, its unit |
| `telovamish-books_{0}_all.deb` | `tb-sql`: SQL and pages |
| `python3-telovamish-client_{0}_all.deb`, `tb_client-{0}-py3-none-any.whl` | the Python client |
| `telovamish-doc_{0}_all.deb`, `site/` | these pages and the API of each client, as HTML |
| `telovamish-{0}.oci.tar` | an image with `tbd`, `tb-listen` and `tb-replica` |
| `libtelovamish-dev_{0}_amd64.deb` | the server inside a program in C or C++ |
| `libtelovamish-client-dev_{0}_amd64.deb` | the client in C |
| `tbclient-{0}.jar`, `tb-client-{0}.tgz`, `tbclient@v{0}.zip` | clients for Java, Node and Go |
"""


def part(changelog: str, version: str) -> str:
    """What CHANGELOG says of a version."""
    pattern = rf"^## {re.escape(version)}\b[^\n]*\n(.*?)(?=^## |\Z)"
    found = re.search(pattern, changelog, re.M | re.S)
    if not found:
        raise ValueError(f"CHANGELOG.md has no {version}")
    return found[1].strip()


def write(root: Path, record: Record, path: Path) -> None:
    text = part((root / "CHANGELOG.md").read_text(), record.version)
    text = re.sub(r"\[([^\]\n]*)\]\([^)\s]*\)", r"\1", text)
    made = f"Of commit {record.commit}, by {record.kit}. `SHA256SUMS` has the sum of each file."
    table = PACKAGES.format(record.version)
    path.write_text(f"# Telovamish {record.version}\n\n{made}\n\n## Packages\n\n{table}\n{text}\n")
