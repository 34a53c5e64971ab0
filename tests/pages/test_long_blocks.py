"""Lines of pages that take a minute: money over sockets during kills, and the embedded library."""

import os
from pathlib import Path

import pytest

from ..conftest import ROOT
from .clones import blocks, lines

pytestmark = pytest.mark.slow(
    reason="money over sockets during kills; builds callers of the embedded library", seconds=60
)


def test_money_over_sockets(clone):
    clone.build("tbd")
    line = lines(blocks("docs/use/TBD.md", "sh")[0])[2]
    assert "credits_posted 240" in clone.run(f"{line} {clone.program('tbd')}")


def test_the_lines_of_embedding(clone):
    """Over the library that `rt lib` makes in crates/tb_embed, or that TB_EMBED_A names."""
    made = Path(os.environ.get("TB_EMBED_A", ROOT / "crates/tb_embed/out/libtb_embed.a"))
    assert made.exists(), "no library: `rt lib` in crates/tb_embed, or set TB_EMBED_A"
    out = clone.folder / "crates/tb_embed/out"
    out.mkdir(parents=True)
    (out / made.name).symlink_to(made)
    (block,) = blocks("docs/use/EMBEDDING.md", "sh")
    (printed,) = blocks("docs/use/EMBEDDING.md", "text")
    assert clone.run(f"set -e\n{block}") == 2 * printed
