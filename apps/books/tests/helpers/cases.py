"""Names of cases, by which `pytest -k` finds them."""


def case(value):
    """A case's name: the words of a list, or a text. Others are named by pytest."""
    if isinstance(value, (list, tuple)):
        return " ".join(map(str, value))[:80]
    return str(value)[:80] if isinstance(value, (str, bytes, int, float)) else None
