"""The scenarios of the kit that are not drawn."""
import json

from . import doubt, edges, exchanges, files, others, requests, rules, sharing, values
from .frames import BEGINS

MODULES = (requests, rules, exchanges, doubt, files, values, others, sharing, edges)


def scenarios():
    """All scenarios by their groups, and the steps that many begin with, as values of JSON."""
    groups = dict(sorted(it for module in MODULES for it in module.groups().items()))
    rows = [{**row, "group": name} for name, group in groups.items() for row in group]
    return json.loads(json.dumps([rows, BEGINS]))
