"""Chromium over the pages of a small shop. It needs Debian's chromium-driver and python3-selenium,
which is imported by who starts it: CI collects these tests without it."""

import pathlib
import signal
import subprocess
import time

from tb_sql.sqlite_store import SqliteStore

from .sample import sample
from .tables import COMMAND, entered

DRIVER = pathlib.Path("/usr/bin/chromedriver")
WINDOW = ("--headless=new", "--no-sandbox", "--disable-gpu", "--disable-dev-shm-usage")
A4 = 702  # pixels between the margins
CSS, TAG = "css selector", "tag name"  # how elements are found, by the standard's words
TAB, ENTER = "\ue004", "\ue007"  # keys, by the standard's codes


def chromium():
    """A window without a screen."""
    from selenium.webdriver import Chrome
    from selenium.webdriver.chrome.options import Options
    from selenium.webdriver.chrome.service import Service

    options = Options()
    for word in (*WINDOW, "--window-size=1200,900", "--hide-scrollbars", "--lang=en-GB"):
        options.add_argument(word)
    return Chrome(service=Service(str(DRIVER)), options=options)


class Browser:
    """A server of the shop's pages, and a window that shows them."""

    def __init__(self, folder):
        path = str(folder / "ledger.sqlite")
        entered(SqliteStore(path), sample().steps)
        words = [*COMMAND, "serve", path, "--port", "0"]
        self.server = subprocess.Popen(words, stdout=subprocess.PIPE, text=True)
        self.base = self.server.stdout.readline().split()[0].rstrip("/")
        self.driver = chromium()
        self.driver.set_page_load_timeout(120)

    def close(self):
        self.driver.quit()
        self.server.send_signal(signal.SIGTERM)
        self.server.stdout.close()
        self.server.wait(60)

    def show(self, scheme, media=""):
        """In a light or a dark scheme, on a screen or in print."""
        features = [{"name": "prefers-color-scheme", "value": scheme}]
        given = {"features": features, "media": media}
        self.driver.execute_cdp_cmd("Emulation.setEmulatedMedia", given)

    def size(self, width, height=900):
        """The size of the page itself, whatever the window's least width is."""
        self.driver.execute_cdp_cmd(
            "Emulation.setDeviceMetricsOverride",
            {"width": width, "height": height, "deviceScaleFactor": 1, "mobile": False},
        )

    def open(self, address):
        self.driver.get(self.base + address)

    def text(self):
        return " ".join(self.driver.find_element(TAG, "body").text.split())

    def wait_for(self, words):
        """Waits until a page with these words is there: a click may return before it is."""
        from selenium.common.exceptions import WebDriverException

        deadline = time.monotonic() + 60
        while time.monotonic() < deadline:
            try:
                if words in self.text():
                    return
            except WebDriverException:  # the page before is gone, and the next one not there yet
                pass
            time.sleep(0.1)
        assert words in self.text()

    def all(self, chosen):
        return self.driver.find_elements(CSS, chosen)

    def one(self, chosen):
        return self.driver.find_element(CSS, chosen)
