"""Draws the pictures of the pages: `books.py FOLDER`, with Debian's chromium-driver and
python3-selenium."""

import pathlib
import sys
import tempfile

TOP = pathlib.Path(__file__).resolve().parents[2]
PACKAGES = ("apps/books/src", "apps/books/tests", "apps/telovamish/src", "clients/python/src")
sys.path[:0] = [str(TOP / it) for it in PACKAGES]

from helpers.browser import A4, Browser  # noqa: E402
from helpers.sample import BANK, SALES  # noqa: E402

PICTURES = (
    ("books-overview", "/", (1000, 905), ""),
    ("books-account", f"/account/{SALES}", (1000, 900), ""),
    ("books-narrow", "/accounts", (375, 900), ""),
    ("books-paper", f"/account/{BANK}/2026-10", (A4, 700), "print"),
)


def main(folder: str) -> None:
    with tempfile.TemporaryDirectory() as room:
        browser = Browser(pathlib.Path(room))
        try:
            for name, address, size, media in PICTURES:
                browser.show("light", media)
                browser.size(*size)
                browser.open(address)
                browser.driver.save_screenshot(str(pathlib.Path(folder) / f"{name}.png"))
        finally:
            browser.close()


if __name__ == "__main__":
    main(*sys.argv[1:])
