"""A ledger's history as tables, read from `telovamish audit`: exact, safe to delete and make again.

The command `tb-sql` loads, serves and checks them. docs/use/READING.md says how to use it and has
the schema.
"""

__version__ = "0.1.0"
