"""The pages in Chromium: text, links, labels, contrast, narrow windows, print, keyboard."""

import base64
import struct
import urllib.parse
import urllib.request

import pytest

from helpers.browser import A4, CSS, DRIVER, ENTER, TAB, TAG, Browser
from helpers.made import MAX
from helpers.sample import BANK, GREAT, HOLDS, SALES

pytestmark = [
    pytest.mark.slow(reason="a browser", seconds=120),
    pytest.mark.skipif(not DRIVER.exists(), reason="chromedriver is not installed"),
]

CONTRAST = """
const parts = (text) => text.match(/[\\d.]+/g).map(Number);
const light = ([r, g, b]) => [r, g, b].map((c) => c / 255)
  .map((c) => c <= 0.03928 ? c / 12.92 : ((c + 0.055) / 1.055) ** 2.4)
  .reduce((sum, c, at) => sum + c * [0.2126, 0.7152, 0.0722][at], 0);
const ground = (it) => {
  for (let at = it; at; at = at.parentElement) {
    const found = parts(getComputedStyle(at).backgroundColor);
    if (found.length < 4 || found[3] === 1) return found;
  }
  return [255, 255, 255];
};
const ratio = (ink, it) => {
  const [a, b] = [light(ink), light(ground(it))].sort((x, y) => y - x);
  return (a + 0.05) / (b + 0.05);
};
const found = [];
for (const it of document.querySelectorAll("body *")) {
  const own = [...it.childNodes].some((n) => n.nodeType === 3 && n.data.trim());
  if (own && it.getClientRects().length) {
    const style = getComputedStyle(it);
    const ink = it.closest("svg") ? style.fill : style.color;
    found.push([ratio(parts(ink), it), it.tagName, it.textContent.trim().slice(0, 40)]);
  }
  if (it.placeholder) {
    const ink = getComputedStyle(it, "::placeholder").color;
    found.push([ratio(parts(ink), it), "placeholder", it.placeholder]);
  }
  if (it.matches("rect, path.balance")) {
    const style = getComputedStyle(it);
    const ink = style.fill === "none" ? style.stroke : style.fill;
    found.push([ratio(parts(ink), it) * 1.5, it.tagName, "a drawing, at least 3 to 1"]);
  }
}
return [found.length, found.filter((it) => it[0] < 4.5)];
"""
# amounts, times and charts that are not whole within the window, and cells without a label, if
# rows are cards
HIDDEN = """
const found = [];
for (const it of document.querySelectorAll("main .number, main svg, main time")) {
  if (!it.getClientRects().length) continue;
  const box = it.getBoundingClientRect();
  if (box.left < 0 || box.right > innerWidth) found.push(it.outerHTML.slice(0, 200));
}
for (const it of arguments[0] ? document.querySelectorAll("tbody td[data-label]") : []) {
  if (getComputedStyle(it, "::before").content === "none") found.push(it.outerHTML.slice(0, 200));
}
return found;
"""
# tables that are wider than what is around them, and short amounts on several lines
BROKEN = """
return [...document.querySelectorAll("table"), ...document.querySelectorAll("main .number")]
  .filter((it) => it.tagName === "TABLE"
    ? it.getBoundingClientRect().width > it.parentElement.getBoundingClientRect().width + 1
    : !it.classList.contains("long") && it.getClientRects().length > 1)
  .map((it) => it.outerHTML.slice(0, 200));
"""
CARDS = 896  # pixels, up to which the rows of tables are cards
OVERFLOW = "return document.documentElement.scrollWidth - document.documentElement.clientWidth"
PAGES = [
    ("/", "Trial balance"),
    ("/accounts", "the newest first"),
    (f"/account/{SALES}", "Balance before"),
    (f"/account/{BANK}", "credits at most debits"),
    (f"/account/{SALES}/2026-10", "Opening balance"),
    ("/accounts?sort=balance", "balances to zero"),
    ("/trial-balance?at=2026-10-01", "After all that came up to"),
    (f"/account/{GREAT}", f"{MAX - 10**30:,}"),
    (f"/account/{GREAT - 1}", "There are no postings."),
    (f"/account/{HOLDS}", "by expiry"),
    ("/transfers", "direct"),
    (f"/transfer/{GREAT}", f"{MAX - 10**30:,}"),
    ("/pending", "by expiry"),
    ("/refusals", "exceeds_credits"),
    ("/refusals/create_transfers/exceeds_credits", "as it was sent"),
    ("/sessions", "Sessions and evictions"),
    ("/search?id=7777", "Nothing has this id."),
    ("/search?id=x", "is no id"),
    ("/account/5", "There is no account 5."),
]


def png_size(data):
    """The width and height of a picture."""
    return struct.unpack(">II", data[16:24])


@pytest.fixture(scope="module")
def started(tmp_path_factory):
    it = Browser(tmp_path_factory.mktemp("browser"))
    yield it
    it.close()


@pytest.fixture
def browser(started):
    """A browser with a light page of 1200 pixels."""
    started.show("light")
    started.size(1200)
    return started


EACH_PAGE = pytest.mark.parametrize("address", [it for it, _ in PAGES])


@pytest.mark.parametrize("scheme", ["light", "dark"])
@pytest.mark.parametrize("address, words", PAGES, ids=[it for it, _ in PAGES])
def test_text_size_and_contrast(browser, address, words, scheme):
    browser.show(scheme)
    browser.open(address)
    assert words in browser.text()
    count, low = browser.driver.execute_script(CONTRAST)
    assert count > 10
    assert low == []
    picture = browser.driver.get_screenshot_as_png()
    assert png_size(picture) == (1200, 900)
    assert len(picture) > 10_000


def test_light_and_dark_are_not_the_same(browser):
    grounds = []
    for scheme in ("light", "dark"):
        browser.show(scheme)
        browser.open("/")
        grounds.append(browser.one("body").value_of_css_property("background-color"))
    assert grounds[0] != grounds[1]


@pytest.mark.parametrize("width, height", [(375, 740), (768, 1024), (1280, 900)])
@EACH_PAGE
def test_widths(browser, address, width, height):
    """Nothing is wider than the window of a phone; amounts, charts and labels are in sight."""
    browser.size(width, height)
    browser.open(address)
    assert browser.driver.execute_script(OVERFLOW) <= 0
    assert browser.driver.execute_script(HIDDEN, width <= CARDS) == []


@pytest.mark.parametrize(
    "address, words",
    [
        (f"/account/{SALES}/2026-10", "Closing balance"),
        (f"/account/{GREAT}/2026-09", "the lines add up"),
        (f"/account/{SALES}", "Balance before"),
        ("/trial-balance", "After the last entry"),
    ],
)
def test_print(browser, address, words):
    """On A4 nothing is wider than the page, no amount is broken, and links are not printed."""
    browser.size(A4)
    browser.show("light", media="print")
    browser.open(address)
    assert words in browser.text()
    assert "Search" not in browser.text()
    assert browser.driver.execute_script(OVERFLOW) <= 0
    assert browser.driver.execute_script(BROKEN) == []
    printed = browser.driver.execute_cdp_cmd("Page.printToPDF", {"preferCSSPageSize": True})
    assert b"/MediaBox [0 0 594.95996 841.91998]" in base64.b64decode(printed["data"])


@EACH_PAGE
def test_controls_are_labelled(browser, address):
    browser.open(address)
    assert browser.one("html").get_attribute("lang") == "en"
    assert len(browser.all("h1")) == 1
    assert len(browser.all("main")) == 1
    for it in browser.all("a, button, input, select, summary, [tabindex='0'], nav, svg"):
        shown = it.get_attribute("outerHTML")[:300]
        assert not it.is_displayed() or it.accessible_name.strip(), shown
    for table in browser.all("table"):
        assert table.find_elements(TAG, "caption")
        assert table.find_elements(CSS, "thead th[scope=col]")


def test_links_lead_to_pages(browser):
    """From the overview on, each address once: there are more than a hundred."""
    met, waiting, opened = set(), ["/"], 0
    while waiting and opened < 60:
        address = waiting.pop(0)
        if address in met:
            continue
        met.add(address)
        if address.startswith("/csv/"):
            with urllib.request.urlopen(browser.base + address) as reply:
                assert reply.headers.get_content_type() == "text/csv"
            continue
        browser.open(address)
        opened += 1
        assert not browser.all("[role=alert]"), address
        for link in browser.driver.execute_script(
            "return [...document.querySelectorAll('a[href]')].map((it) => it.href)"
        ):
            parts = urllib.parse.urlsplit(link)
            assert f"{parts.scheme}://{parts.netloc}" == browser.base
            waiting.append(parts.path + (f"?{parts.query}" if parts.query else ""))
    rest = [it for it in dict.fromkeys(waiting) if it not in met]
    for address in rest[:60]:
        with urllib.request.urlopen(browser.base + address) as reply:
            assert reply.status == 200
    assert len(met) + len(rest) > 100


def test_a_person_looks(browser):
    """From the overview to an account, its older postings, and a transfer; then a search."""
    browser.open("/")
    browser.one("nav[aria-label=Pages] a[href='/accounts']").click()
    browser.wait_for("Accounts, the newest first")
    browser.one(f"a[href='/account/{SALES}']").click()
    browser.wait_for("Account 2")
    newest = browser.all("tbody tr time")[0].text
    browser.one("a[rel=next]").click()
    browser.wait_for("Postings 560 to 609 of 659")
    assert browser.all("tbody tr time")[0].text != newest
    transfer = browser.one("tbody th[scope=row] a.id")
    id = transfer.text.replace("\n", "")
    transfer.click()
    browser.wait_for(f"Transfer {id}")
    field = browser.one("#search-id")
    field.send_keys(str(HOLDS), ENTER)
    browser.wait_for("Account 4")


def test_dates(browser):
    browser.open(f"/account/{SALES}?from=2026-10-01&to=2026-10-02")
    assert browser.one("#from").get_property("value") == "2026-10-01"
    times = {it.get_attribute("datetime")[:10] for it in browser.all("section tbody time")}
    assert times <= {"2026-10-01", "2026-10-02"}
    browser.one(".dates button").click()
    browser.wait_for("All dates")
    assert "from=2026-10-01&to=2026-10-02" in browser.driver.current_url


def test_keyboard(browser):
    browser.open("/")
    browser.one("body").send_keys(TAB)
    first = browser.driver.switch_to.active_element
    assert first.text == "Skip to the content"
    assert first.rect["x"] >= 0
    first.send_keys(ENTER)
    assert browser.driver.current_url.endswith("#main")
    browser.driver.switch_to.active_element.send_keys(TAB)
    inside = browser.driver.switch_to.active_element
    assert browser.driver.execute_script("return arguments[0].closest('main') !== null", inside)
    outline = inside.value_of_css_property("outline-style")
    assert outline == "solid"


def test_great_values_are_whole(browser):
    browser.open(f"/account/{GREAT}")
    for part in (str(GREAT), f"{MAX - 10**30:,}", str(MAX), str((1 << 64) - 1)):
        assert part in browser.text().replace(" ", "")
