"""The bill of materials: SPDX 2.3 as JSON, with the crates that the programs are built of."""

import json
import re
from pathlib import Path
from typing import Any

import jsonschema

from .programs import Record, sha256
from .server import NAMES, Linked, linked

SCHEMA = Path(__file__).with_name("spdx.schema.json")
OWN = "Apache-2.0"
# What names a licence in the text of a LICENSE file.
LICENCES = (
    ("Apache License", "Apache-2.0"),
    ("Permission is hereby granted, free of charge", "MIT"),
    ("Boost Software License", "BSL-1.0"),
    ("UNICODE LICENSE", "Unicode-3.0"),
    ("This is free and unencumbered software", "Unlicense"),
)


def crates(root: Path) -> dict[str, list[str]]:
    """The crates of the product, each with those that it is built on (crates.txt)."""
    text = (root / "crates.txt").read_text().split("\n# Tests")[0]
    rows = [line.partition("#")[0].partition(":") for line in text.splitlines()]
    return {head.split()[0]: tail.split() for head, colon, tail in rows if colon}


def reached(names: list[str], rows: dict[str, list[str]]) -> list[str]:
    """All crates below these, with them."""
    found: list[str] = []
    waiting = list(names)
    while waiting:
        name = waiting.pop()
        if name not in found:
            found.append(name)
            waiting += rows.get(name, [])
    return sorted(found)


def licence(folder: Path) -> str:
    """The licences of a kit's crate by the texts in its folder."""
    texts = [it.read_text(errors="replace") for it in sorted(folder.glob("LICENSE*"))]
    found = {name for text in texts for words, name in LICENCES if words in text}
    return " OR ".join(sorted(found)) or "NOASSERTION"


def identifier(name: str) -> str:
    return "SPDXRef-" + re.sub(r"[^A-Za-z0-9.]", "-", name)


def package(name: str, version: str, declared: str, comment: str = "") -> dict[str, Any]:
    row: dict[str, Any] = {
        "SPDXID": identifier(name),
        "name": name,
        "versionInfo": version,
        "downloadLocation": "NOASSERTION",
        "filesAnalyzed": False,
        "licenseConcluded": declared,
        "licenseDeclared": declared,
        "copyrightText": "NOASSERTION",
    }
    return row | ({"comment": comment} if comment else {})


def related(one: str, kind: str, other: str) -> dict[str, str]:
    return {
        "spdxElementId": identifier(one),
        "relationshipType": kind,
        "relatedSpdxElement": identifier(other),
    }


def bill(root: Path, kit_crates: Path, record: Record) -> dict[str, Any]:
    """The document of one build."""
    rows = crates(root)
    programs = [it for it in record.sha256 if not it.startswith("lib")]
    tops = {it: it for it in programs} | {"libtb_embed.a": "tb_embed"}
    packages, relations = [], []
    for name in reached(list(tops.values()), rows):
        if name in rows:
            packages.append(package(f"crate-{name}", record.version, OWN))
        else:
            ported = "A port in the Rattle kit, with contracts."
            declared = licence(kit_crates / name)
            packages.append(package(f"crate-{name}", record.kit, declared, ported))
        relations += [
            related(f"crate-{name}", "DEPENDS_ON", f"crate-{it}") for it in rows.get(name, [])
        ]
    for name, crate in tops.items():
        row = package(name, record.version, OWN)
        row["checksums"] = [{"algorithm": "SHA256", "checksumValue": record.sha256[name]}]
        packages.append(row)
        relations.append(related(name, "GENERATED_FROM", f"crate-{crate}"))
        relations.append({**related(name, "DESCRIBES", name), "spdxElementId": "SPDXRef-DOCUMENT"})
    return {
        "spdxVersion": "SPDX-2.3",
        "dataLicense": "CC0-1.0",
        "SPDXID": "SPDXRef-DOCUMENT",
        "name": f"telovamish-{record.version}",
        "documentNamespace": f"urn:telovamish:{record.version}:{record.commit}",
        "creationInfo": {"created": record.date, "creators": ["Tool: packaging/build"]},
        "packages": packages,
        "relationships": relations,
    }


def add_server(document: dict[str, Any], programs: list[Path], parts: list[Linked]) -> None:
    """Adds the programs of server/, and what is linked into them."""
    packages, relations = document["packages"], document["relationships"]
    packages += [package(it.name, it.version, it.licence, "Of Debian.") for it in parts]
    for it in programs:
        row = package(it.name, document["name"].rpartition("-")[2], OWN)
        row["checksums"] = [{"algorithm": "SHA256", "checksumValue": sha256(it)}]
        packages.append(row)
        relations += [related(it.name, "DEPENDS_ON", other.name) for other in parts]
        described = related(it.name, "DESCRIBES", it.name)
        relations.append({**described, "spdxElementId": "SPDXRef-DOCUMENT"})


def check(document: dict[str, Any]) -> None:
    """By the schema; and each relation is between packages that are listed."""
    jsonschema.validate(document, json.loads(SCHEMA.read_text()))
    known = {it["SPDXID"] for it in document["packages"]} | {document["SPDXID"]}
    for it in document["relationships"]:
        if not {it["spdxElementId"], it["relatedSpdxElement"]} <= known:
            raise ValueError(f"a relation of what is not listed: {it}")


def write(root: Path, kit_crates: Path, record: Record, built: Path, path: Path) -> None:
    """Writes the bill of a build, whose programs of server/ are in a folder."""
    document = bill(root, kit_crates, record)
    add_server(document, [built / it for it in NAMES], linked(root))
    try:
        check(document)
    except jsonschema.ValidationError as why:
        raise ValueError(why.message) from why
    path.write_text(json.dumps(document, indent=2, sort_keys=True) + "\n")
