"""The list of the atlas."""
import csv
import json
import pathlib
import tempfile
import time

from selenium.webdriver.common.keys import Keys
from selenium.webdriver.support.ui import Select

ROWS = ".list tbody tr"
CODES = ".list tbody td:first-child"


def column(it, number):
    return it.texts(f".list tbody td:nth-child({number})")


def drive(it, program, steps):
    counts = program.counts
    it.open()
    it.listed(counts.all)
    ready = float(it.run("return document.documentElement.dataset.ready"))
    steps.expect("all games are listed", len(it.all(ROWS)) == counts.all, f"ready after {ready:.0f} ms")
    it.picture("atlas")
    searches(it, counts, steps)
    notes(it, counts, steps)
    saves(it, counts, steps)
    sorts(it, counts, steps)
    it.open("#atlas=kind=wild&speaks=full&by=order&down=true")
    it.listed(counts.kinds["wild"])
    orders = [int(order) for order in column(it, 2)]
    steps.expect("a choice has an address", orders == sorted(orders, reverse=True), f"{len(orders)} wild and full ones")
    it.one("#all").click()
    said = it.said("#all-told", "accepted", "refused", "verdict")
    steps.expect("all certificates are accepted", f"{counts.certificates} certificates accepted" in said, said)
    returns(it, counts, steps)


def returns(it, counts, steps):
    it.go("#atlas")
    it.listed(counts.all)
    it.run("window.scrollTo(0, 5000)")
    time.sleep(0.5)
    it.go("#game=0.33")
    it.wait(lambda: it.text("h1") == "The game 0.33")
    at_top = it.run("return scrollY") == 0
    it.driver.back()
    it.wait(lambda: len(it.all(ROWS)) == counts.all and it.run("return scrollY") == 5000)
    steps.expect("a game begins at its top, and back is where the list was", at_top)


def searches(it, counts, steps):
    it.write("#code", "0.77")
    wanted = ["0.77 Kayles", *(f"0.77{digit}" for digit in range(1, 8))]
    it.wait(lambda: it.seen(CODES) == wanted)
    steps.expect("games are sought by their code", True, it.text(".count"))
    it.one("#code").send_keys(Keys.BACKSPACE * 4)
    it.write("#code", "kayles")
    it.listed(2)
    steps.expect("and by their name", it.seen(CODES) == ["0.07 Dawson’s Kayles", "0.77 Kayles"], it.seen(CODES))
    it.one("#code").send_keys(Keys.BACKSPACE * 6)
    it.write("#period", "1-19")
    Select(it.one("#kind")).select_by_value("tame")
    it.listed(counts.short)
    steps.expect("by their period", True, it.text(".count"))
    it.one("#period").send_keys(Keys.BACKSPACE * 4)
    Select(it.one("#kind")).select_by_value("")
    it.write("#tame", "2")
    it.wait(lambda: set(column(it, 5)) == {"tame 2"})
    steps.expect("by the number of a tame quotient", True, it.text(".count"))
    it.one("#tame").send_keys(Keys.BACKSPACE)
    it.write("#order", "20-36")
    it.wait(lambda: len(it.all(ROWS)) < counts.all)
    orders = {int(order) for order in column(it, 2)}
    steps.expect("by their order", min(orders) == 20 and max(orders) == 36, sorted(orders))
    it.one("#order").send_keys(Keys.BACKSPACE * 5)
    it.write("#portion", "9")
    it.wait(lambda: set(column(it, 3)) == {"9"})
    steps.expect("by their portion", True, it.text(".count"))
    it.one("#portion").send_keys(Keys.BACKSPACE)
    for kind, count in counts.kinds.items():
        Select(it.one("#speaks")).select_by_value("full")
        Select(it.one("#kind")).select_by_value(kind)
        it.wait(lambda: all(it.startswith(kind) for it in column(it, 5)))
        it.listed(count)
        steps.expect(f"by their kind: {kind}", True, it.text(".count"))
    for field in ("speaks", "kind"):
        Select(it.one(f"#{field}")).select_by_value("")
    rows = {"certificate": counts.certificates, "quotient": counts.quotients, "monoid": counts.monoids}
    for each, count in {**rows, "game": counts.all}.items():
        Select(it.one("#each")).select_by_value(each)
        it.listed(count)
        steps.expect(f"a row for each {each}", True, it.text(".count"))
    further(it, steps)


def further(it, steps):
    """Each certificate of a game is found, and leads to its own page."""
    for order, last, address in (("638", 33, "#game=0.07"), ("24", 24, "#game=0.07/24")):
        it.go(f"#atlas=code=0.07&order={order}")
        it.wait(lambda: it.texts(CODES)[:1] and column(it, 4)[:1] == [f"heaps to {last}"])
        link = it.one(f"{CODES} a").get_attribute("href")
        steps.expect(f"0.07 is found by its order {order}", link.endswith(address), link)
    it.go("#atlas")
    it.wait(lambda: not it.run("return document.querySelector('#order').value"))


def notes(it, counts, steps):
    """A field that says no numbers is named, and a code that isn't here can be looked for."""
    it.write("#order", "6-x")
    said = it.said("#note", "6-x")
    marked = it.one("#order").get_attribute("aria-invalid")
    steps.expect("a filter that is none is told", marked == "true" and len(it.all(ROWS)) == counts.all, said)
    it.one("#order").send_keys(Keys.BACKSPACE * 3)
    it.write("#code", "0.9999")
    said = it.said("#note", "0.9999")
    link = it.one("#note a").get_attribute("href")
    steps.expect("a code that isn't here is to be looked for", link.endswith("#find=0.9999"), said)
    it.one("#code").send_keys(Keys.BACKSPACE * 6)
    it.listed(counts.all)
    steps.expect("and nothing is told where nothing is amiss", not it.one("#note").is_displayed())


def saves(it, counts, steps):
    """What is listed, as files."""
    with tempfile.TemporaryDirectory() as folder:
        it.command("Browser.setDownloadBehavior", behavior="allow", downloadPath=folder)
        files = {name: pathlib.Path(folder, f"misere.{name}") for name in ("csv", "json")}
        for name, file in files.items():
            it.one(f"#save-{name}").click()
            it.wait(lambda: file.exists() and file.stat().st_size)
        rows = list(csv.DictReader(files["csv"].read_text().splitlines()))
        told = json.loads(files["json"].read_text())
    steps.expect("what is listed is saved", len(rows) == len(told) == counts.all, f"{len(rows)}, {len(told)} rows")
    shown = [text.split()[0] for text in it.texts(CODES)]
    steps.expect("as it stands there", [row["code"] for row in rows] == [row["code"] for row in told] == shown, rows[0])


def sorts(it, counts, steps):
    it.one("[data-by=order] button").send_keys(Keys.ENTER)
    it.wait(lambda: it.one("[data-by=order]").get_attribute("aria-sort") == "ascending")
    focus = it.run("return document.activeElement.closest('th')?.dataset.by")
    it.driver.switch_to.active_element.send_keys(Keys.ENTER)
    it.listed(counts.all)
    orders = [int(order) for order in column(it, 2)]
    steps.expect(
        "rows are sorted by the keyboard", focus == "order" and orders == sorted(orders, reverse=True), orders[:3]
    )
