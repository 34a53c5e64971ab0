"""The pages of some tables, without a browser."""

import csv
import html
import io
import re

from tb_sql.pages.server import make_app
from tb_sql.pages.site import Site

from .tables import Tables

HERE = "http://127.0.0.1:8642"


class Pages(Tables):
    """A folder with a file of tables, and a client of its pages."""

    def __init__(self, room):
        super().__init__(room)
        self.show()

    def show(self, path=None, **more):
        """Shows tables: those of the folder, by these names and this ledger."""
        self.site = make_app(Site(path or self.path, **more)).test_client()

    def reply(self, address):
        return self.site.get(address, base_url=HERE)

    def get(self, address, status=200, **more):
        reply = self.site.get(address, base_url=more.pop("base_url", HERE), **more)
        assert reply.status_code == status, (address, reply.get_data(as_text=True)[-800:])
        return reply.get_data(as_text=True)

    def words(self, address, status=200):
        """What a page says, without its marks."""
        text = re.sub(r"<(svg|style|head).*?</\1>", " ", self.get(address, status), flags=re.S)
        text = re.sub(r"</?(?:a|span|wbr|time)\b[^>]*>", "", text)
        return " ".join(html.unescape(re.sub(r"<[^>]*>", " ", text)).split())

    def cells(self, address):
        """The rows of a page's tables by their first words, each with its cells by their labels.
        A later row of the same words takes the place of an earlier one."""
        rows = {}
        for row in re.findall(r"<tr[^>]*>(.*?)</tr>", self.get(address), re.S):
            head = re.search(r'<th scope="row"[^>]*>(.*?)</th>', row, re.S)
            found = re.findall(r'<td[^>]*data-label="([^"]*)"[^>]*>(.*?)</td>', row, re.S)
            if head:
                rows[plain(head[1])] = {label: plain(text) for label, text in found}
        return rows

    def csv(self, address):
        return list(csv.reader(io.StringIO(self.get(address))))


def plain(text):
    """A text without its marks."""
    return " ".join(html.unescape(re.sub(r"<[^>]*>", "", text)).split())
