"""Runs the command: python3 -m tb_sql."""

import sys

from .early import main

sys.exit(main())
