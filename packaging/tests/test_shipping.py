"""What packages are made of: one version, the table of forms, manual pages, units, the bill."""

import json
import re
import shutil
import tarfile
from pathlib import Path

import jsonschema
import pytest
from shipping import bill, completion, debs, ecosystems, image, library, manuals, notes, server
from shipping import table, units, versions
from shipping.programs import Record
from shipping.running import Failed
from shipping.table import ROOT
from trying import watching

PROGRAMS = table.whole()
SUMS = {it: "0" * 64 for it in ("tbs", "tb_script", "tbd", "libtb_embed.a")}
RECORD = Record("0.1.0", "c" * 40, "2026-11-29T00:00:00Z", "kit", "left by rt ci", True, SUMS)


def copied(tmp_path: Path) -> Path:
    for name in (*versions.PLACES, "packaging/VERSION"):
        (tmp_path / name).parent.mkdir(parents=True, exist_ok=True)
        shutil.copyfile(ROOT / name, tmp_path / name)
    return tmp_path


def test_the_version_is_the_same_everywhere() -> None:
    assert versions.others(ROOT) == {}


@pytest.mark.parametrize("name", versions.PLACES)
def test_another_version_in_one_place_is_found(name: str, tmp_path: Path) -> None:
    top = copied(tmp_path)
    text = (top / name).read_text()
    found = re.search(versions.PLACES[name], text, re.M)
    assert found
    (top / name).write_text(text[: found.start(1)] + "9.9.9" + text[found.end(1) :])
    assert versions.others(top) == {name: "9.9.9"}


def test_a_rewritten_copy_has_one_version(tmp_path: Path) -> None:
    top = copied(tmp_path)
    versions.rewrite(top, "7.8.9")
    assert versions.the_version(top) == "7.8.9" and versions.others(top) == {}


def test_forms_of_tbd_are_those_of_its_usage() -> None:
    usage = (ROOT / "crates/tb_edge_file/src/help.rt").read_text()
    shown = set(re.findall(r"^  ([a-z-]+) (?:FILE|CLIENTS_MAX)", usage, re.M))
    assert {it.name() for it in PROGRAMS["tbd"].forms} == shown
    flags = set(re.findall(r"(?<![\w-])--[a-z]+(?:-[a-z]+)*", usage))
    assert set(completion.flags(completion.all_options(PROGRAMS["tbd"]))) == flags | {"-h"}


def definitions(name: str, text: str) -> dict[str, list[str]]:
    """The equations of a definition: the argument of each, and the words of its right side."""
    rows = re.findall(rf"^{name} (?:form\.)?(\w+) = (.*)$", text, re.M)
    return {left: re.findall(r"[\w-]+", right.removeprefix("codes ")) for left, right in rows}


def forms_of_the_table() -> dict[str, set[tuple[str, bool]]]:
    """The forms of tbd as usage shows them, with each option and whether it has a value: from the
    definitions that the proofs are about."""
    text = (ROOT / "crates/tb_edge_words/specs/Table.antt").read_text()
    shown = {"File": "FILE", "New": "NEW", "ClientsMax": "CLIENTS_MAX", "Profile": "[PROFILE]"}
    words, operands = definitions("form_word", text), definitions("operands_of", text)
    options, flags = definitions("options_of", text), definitions("option_word", text)
    with_value = {it for it, right in definitions("has_value", text).items() if right == ["true"]}
    return {
        " ".join(word + [shown[it] for it in operands[form]]): {
            (flags[it][0], it in with_value) for it in options[form]
        }
        for form, word in words.items()
        if not word[0].startswith("-")
    }


def test_forms_of_tbd_are_those_of_the_table() -> None:
    forms = PROGRAMS["tbd"].forms
    listed = {it.words: {(o.flags[0], bool(o.value)) for o in it.options} for it in forms}
    assert listed == forms_of_the_table()


@pytest.mark.parametrize("name", ["tbs", "tb_script"])
def test_forms_of_tbs_are_those_of_its_page(name: str) -> None:
    page = (ROOT / "docs/use/TBS.md").read_text()
    shown = set(re.findall(r"^\| `([a-z]+[^`]*)` \|", page, re.M))
    wanted = shown - ({"storm C R"} if name == "tb_script" else set())
    assert {it.words for it in PROGRAMS[name].forms} == wanted


def test_programs_have_the_options_of_their_help_or_parser() -> None:
    assert "--metrics" in completion.flags(PROGRAMS["tb-listen"].options)
    assert "--json" in completion.flags(completion.own_options(PROGRAMS["tb-listen"], "status"))
    assert "--copy" in completion.flags(PROGRAMS["tb-replica"].options)
    own = completion.own_options(PROGRAMS["tb-replica"], "trim")
    assert {"--log", "--forget"} <= set(completion.flags(own))
    assert {it.name() for it in PROGRAMS["tb-sql"].forms} == {"ask", "check", "load", "serve"}
    run = next(it for it in PROGRAMS["telovamish"].forms if it.name() == "run")
    assert {"--file", "--connect", "--json"} <= set(completion.flags(run.options))


@pytest.mark.parametrize("name", PROGRAMS)
def test_each_form_and_option_is_in_the_manual_page(name: str) -> None:
    program = PROGRAMS[name]
    page = manuals.of_program(program, "0.1.0", "2026-11-29")
    if program.same_as:
        assert page == f".so man1/{program.same_as}.1\n"
        return
    plain = re.sub(r"\\f.|\\", "", page)
    assert "rt run" not in plain and "/out/" not in plain
    for flag in completion.flags(completion.all_options(program)):
        assert flag in plain
    assert all(it.name() in plain for it in program.forms)


def test_a_section_that_a_page_lost_is_found() -> None:
    with pytest.raises(ValueError, match="has no section"):
        manuals.body("TBD.md", ["The promise", "No such section"])


def test_a_table_that_is_too_wide_for_a_terminal_becomes_a_list() -> None:
    assert manuals.plain("| A | B |\n|---|---|\n| 1 | 2 |\n").startswith("| A | B |")
    wide = f"| A | B |\n|---|---|\n| 1 | {'b' * 80} |\n| `x \\| y` | |\n"
    assert manuals.plain(wide) == f"- 1: {'b' * 80}\n- `x \\| y`\n"
    wider = f"| A | B | C |\n|---|---|---|\n| | {'b' * 80} | c |\n"
    assert manuals.plain(wider) == f"- B: {'b' * 80}; C: c\n"


def test_units_have_the_paths_of_the_package(tmp_path: Path) -> None:
    units.write(tmp_path)
    text = (tmp_path / "tb-listen.service").read_text()
    assert "/usr/bin/tbd run ${LEDGER} $PLACES" in text and "User=telovamish" in text
    assert "RestartPreventExitStatus=" in text and "/opt/" not in text
    assert "Environment=GLIBC_TUNABLES=glibc.malloc.hugetlb=1" in text


def test_an_installed_page_has_no_link_to_what_is_not_installed(tmp_path: Path) -> None:
    (tmp_path / "docs").mkdir()
    page = tmp_path / "docs/A.md"
    text = "[itself](#part) [B](B.md#x) [code](../crates/a.rt) [out](../../x) [web](https://x.y/)"
    page.write_text(text)
    (tmp_path / "docs/B.md").touch()
    (tmp_path.parent / "x").touch()
    wanted = "[itself](#part) [B](B.md#x) code out [web](https://x.y/)"
    assert debs.with_links_inside(page, tmp_path) == wanted


def test_a_path_of_a_copy_by_hand_is_found(monkeypatch: pytest.MonkeyPatch) -> None:
    monkeypatch.setitem(units.REPLACED, "tb-listen.service", units.COMMON[:3])
    with pytest.raises(ValueError, match="not replaced: .*/opt/ledger"):
        units.packaged("tb-listen.service")


def test_the_bill_lists_crates_and_their_licences(tmp_path: Path) -> None:
    kit = tmp_path / "kit"
    (kit / "byteorder").mkdir(parents=True)
    granted = "Permission is hereby granted, free of charge, to any person"
    (kit / "byteorder/LICENSE-MIT").write_text(granted)
    (tmp_path / "tb-listen").write_bytes(b"a listener")
    (tmp_path / "tb-replica").write_bytes(b"a replica")
    bill.write(ROOT, kit, RECORD, tmp_path, tmp_path / "bill.json")
    rows = {it["name"]: it for it in json.loads((tmp_path / "bill.json").read_text())["packages"]}
    assert rows["crate-byteorder"]["licenseDeclared"] == "MIT"
    assert rows["crate-tb_ledger"]["licenseDeclared"] == "Apache-2.0"
    assert rows["tbd"]["checksums"][0]["checksumValue"] == "0" * 64
    assert rows["tb-listen"]["checksums"][0]["checksumValue"][:8] == "f256cb16"
    go = [it for name, it in rows.items() if name.startswith("golang-")]
    assert {it["licenseDeclared"] for it in go} == {"Apache-2.0", "BSD-3-Clause", "MIT"}


@pytest.mark.parametrize(
    "field, value", [("spdxVersion", "SPDX-9"), ("name", ""), ("packages", []), ("more", 1)]
)
def test_a_wrong_bill_is_refused(field: str, value: object, tmp_path: Path) -> None:
    document = bill.bill(ROOT, tmp_path, RECORD)
    bill.check(document)
    with pytest.raises(jsonschema.ValidationError):
        bill.check({**document, field: value})


def test_a_relation_of_what_is_not_listed_is_refused(tmp_path: Path) -> None:
    document = bill.bill(ROOT, tmp_path, RECORD)
    document["packages"] = [it for it in document["packages"] if it["name"] != "crate-tb_ledger"]
    with pytest.raises(ValueError, match="not listed"):
        bill.check(document)


def test_the_library_is_built_over_what_ci_left() -> None:
    words = [str(it) for it in library.words(Path("/kit"), Path("/out.a"))]
    left = ROOT / "crates"
    assert f"tb_machine={left}/tb_machine/out/rlib/tb_machine.rlib" in words
    assert "core=/kit/rlibs/core.rlib" in words and words[-1] == "/out.a"
    assert f"dependency={left}/avl_tree/out/rlib" in words
    assert not any(it.startswith("avl_tree=") for it in words)


CHANGED = [
    "kit/bin/rattle",
    "crates/tb_embed/src/lib.rt",
    "crates/tb_embed/proofs/more.antt",
    "left.rlib",
    "crates/tb_embed/out/libtb_embed.a",
]


@pytest.mark.parametrize("name", CHANGED)
def test_a_library_of_the_same_files_is_kept(
    name: str, tmp_path: Path, monkeypatch: pytest.MonkeyPatch
) -> None:
    for it in ("kit/bin/rattle", "left.rlib", "crates/tb_embed/src/lib.rt"):
        (tmp_path / it).parent.mkdir(parents=True, exist_ok=True)
        (tmp_path / it).write_text("as it was")
    builds = []

    def run(_: object, cwd: Path) -> None:
        builds.append(cwd)
        (cwd / "out/libtb_embed.a").write_text("built")

    monkeypatch.setattr(library, "ROOT", tmp_path)
    monkeypatch.setattr(library, "heap", lambda: tmp_path / "kit/c/liblibc_c.a")
    monkeypatch.setattr(library, "left", lambda: {"left": tmp_path / "left.rlib"})
    monkeypatch.setattr(library, "words", lambda kit, out: [])
    monkeypatch.setattr(library, "run", run)
    library.build()
    library.build()
    assert builds == [tmp_path / "crates/tb_embed"]
    (tmp_path / name).parent.mkdir(exist_ok=True)
    (tmp_path / name).write_text("changed")
    library.build()
    library.build()
    assert len(builds) == 2


def test_release_notes_are_of_the_changelog(tmp_path: Path) -> None:
    notes.write(ROOT, RECORD, tmp_path / "notes")
    text = (tmp_path / "notes").read_text()
    assert "### Ledger" in text and "telovamish_0.1.0_amd64.deb" in text and "](" not in text
    with pytest.raises(ValueError, match="has no 9.9"):
        notes.part((ROOT / "CHANGELOG.md").read_text(), "9.9")


def test_each_alert_is_on_the_operators_page() -> None:
    watching.explained()


@pytest.mark.parametrize("unit, page", [("listen", "TBD"), ("replica", "CLUSTER")])
def test_each_status_that_ends_a_unit_is_on_its_page(unit: str, page: str) -> None:
    """Those of the server that it starts are on TBD."""
    text = units.source(f"tb-{unit}.service").read_text()
    ends = re.search(r"^RestartPreventExitStatus=(.*)$", text, re.M)
    assert ends
    for name in {"TBD", page}:
        shown = (ROOT / f"docs/use/{name}.md").read_text()
        rows = set(re.findall(r"^\| (\d+) \|", shown, re.M))
        wanted = {it for it in ends[1].split() if (int(it) < 20) == (name == "TBD")}
        assert wanted <= rows


def test_each_metric_of_a_query_is_one_of_the_listener() -> None:
    source = (ROOT / "server/internal/metrics/metrics.go").read_text()
    named = {*re.findall(r'"(tb_[a-z_]+)"', source), *watching.REPLICA}
    served = {it.removesuffix("_total") for it in named}
    for query in watching.queries():
        for name in watching.METRIC.findall(query):
            assert re.sub(r"_(total|bucket|sum|count)$", "", name) in served, query


def test_an_archive_is_the_same_whenever_it_was_made(tmp_path: Path) -> None:
    (tmp_path / "b").write_text("b")
    (tmp_path / "a").write_text("a")
    found = []
    for order, mtime in (("ab", 1), ("ba", 2)):
        path = tmp_path / f"{order}.tar.gz"
        with tarfile.open(path, "w:gz") as archive:
            for name in order:
                info = archive.gettarinfo(str(tmp_path / name), name)
                info.mtime, info.uname = mtime, order
                with open(tmp_path / name, "rb") as file:
                    archive.addfile(info, file)
        ecosystems.steady(path, 7)
        found.append(path.read_bytes())
    assert found[0] == found[1]


HELP = """usage: it [OPTIONS]

options:
  --unix PATH
                        listen on a Unix socket, which
                        its owner alone may use
  --log-json
                        lines as JSON
  -h, --help            print this page
"""


def test_options_are_read_from_a_help_page() -> None:
    wanted = [
        table.Option(["--unix"], "listen on a Unix socket, which its owner alone may use", "PATH"),
        table.Option(["--log-json"], "lines as JSON"),
        table.Option(["-h", "--help"], "print this page"),
    ]
    assert table.of_help(HELP) == wanted


@pytest.mark.parametrize("page", ["", HELP.replace("options:", "more:"), HELP + "some words\n"])
def test_a_help_page_without_options_is_refused(page: str) -> None:
    with pytest.raises(ValueError, match="no option"):
        table.of_help(page)


@pytest.fixture
def programs(tmp_path: Path) -> list[Path]:
    """Programs of an image: one that needs libraries, and another one."""
    found = [tmp_path / "tbd", tmp_path / "tb-listen"]
    shutil.copy("/bin/true", found[0])
    found[1].write_bytes(b"a listener")
    return found


def test_an_image_is_the_same_whenever_it_is_made(programs: list[Path], tmp_path: Path) -> None:
    paths = [tmp_path / "one.tar", tmp_path / "two.tar"]
    for path in paths:
        image.write(programs, RECORD, 7, path)
    assert paths[0].read_bytes() == paths[1].read_bytes()
    programs[1].write_bytes(b"another one")
    image.write(programs, RECORD, 7, paths[1])
    assert paths[0].read_bytes() != paths[1].read_bytes()


def test_what_is_in_an_image(programs: list[Path], tmp_path: Path) -> None:
    """The programs, the libraries of tbd, and no shell; its user owns two folders."""
    path, top = tmp_path / "it.tar", tmp_path / "top"
    image.write(programs, RECORD, 7, path)
    config = image.unpacked(path, top)["config"]
    assert sorted(it.name for it in (top / "usr/bin").iterdir()) == ["tb-listen", "tbd"]
    libraries = {it.name for it in top.rglob("*.so*")}
    assert libraries == {"libc.so.6", "ld-linux-x86-64.so.2"}
    assert config["Entrypoint"] == ["/usr/bin/tb-listen"] and "--existing" in config["Cmd"]
    with tarfile.open(path) as archive:
        assert {"oci-layout", "index.json"} < set(archive.getnames())
    own = [it for it in ("var/lib/telovamish", "run/telovamish") if (top / it).is_dir()]
    assert [oct((top / it).stat().st_mode & 0o777) for it in own] == ["0o700"] * 2


def test_a_blob_that_was_changed_is_refused(programs: list[Path], tmp_path: Path) -> None:
    path = tmp_path / "it.tar"
    image.write(programs, RECORD, 7, path)
    data = bytearray(path.read_bytes())
    data[data.index(b'"architecture"') + 2] ^= 1
    path.write_bytes(data)
    with pytest.raises(ValueError, match="is another one"):
        image.unpacked(path, tmp_path / "top")


def test_a_program_of_server_that_needs_a_library_is_refused() -> None:
    with pytest.raises(Failed, match="needs libc.so.6"):
        server.test(Path("/bin/true"))
