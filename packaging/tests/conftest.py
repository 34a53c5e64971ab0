"""The modules of packaging/, for its tests."""

import sys
from pathlib import Path

PACKAGING = Path(__file__).resolve().parents[1]
sys.path[:0] = map(str, (PACKAGING, PACKAGING.parent / "tools/testing"))
pytest_plugins = ["marks"]
