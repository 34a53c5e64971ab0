"""The items of a dump: an input that is no dump is named, with the command that reads it."""

import pytest

from helpers.made import Made

DUMPS = {
    "nothing": (b"", "it is empty"),
    "zeros": (bytes(99), "Head"),
    "no profile": (b"TBSDUMP1" + bytes(8), "Head"),
    "text": (b"x" * 99, "it is text; telovamish script makes a script of statements"),
    "JSON": (b'{"profile":1}\n' * 9, "it is JSON, as telovamish audit and dump print it: give"),
    "a script": (
        b"".join(it.request.to_bytes() for it, _ in Made().register().steps[1:]),
        "it is a script, which tbs run serves and tbs dump makes a dump of",
    ),
    "a ledger": (
        b"TBJRNL02" + bytes(99),
        "it is a ledger's file, which tb-sql load FILE --ledger LEDGER reads",
    ),
    "a remnant": (b"TBJR", "it is the remnant of a ledger's file: tbd run begins a ledger in it"),
    "replies": (
        Made().register().replies,
        "it is the replies of tbs, which telovamish replies shows",
    ),
}


@pytest.mark.parametrize("data, wanted", DUMPS.values(), ids=DUMPS)
def test_no_dump(tables, data, wanted):
    status, out, said = tables.command("load", tables.path, made=Made(), input=data)
    assert (status, out, said.count("\n")) == (2, "", 1)
    assert said.startswith(f"tb-sql: the input is no dump of a history: {wanted}")
