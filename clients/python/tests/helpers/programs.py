"""The built `tbs`."""

import os
import unittest

from paths import CRATES


PROGRAM = os.environ.get("TBS", os.path.join(CRATES, "tbs", "out", "tbs"))

has_program = unittest.skipUnless(os.access(PROGRAM, os.X_OK), f"{PROGRAM} is not built")
