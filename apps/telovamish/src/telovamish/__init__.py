"""The command `telovamish`: a proved ledger in words that people read and type."""

__version__ = "0.1.0"
