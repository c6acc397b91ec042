"""Phones, darkness, rest, paper, the keyboard alone, and old browsers."""
import base64
import pathlib
import subprocess
import tempfile

from selenium.webdriver.common.action_chains import ActionChains
from selenium.webdriver.common.keys import Keys

GAMES = ("game=0.77", "game=0.07", "game=0.354/5", "game=0.26/whole")
VIEWS = ("atlas", *GAMES, "play=0.77:3,14,40", "check", "find=0.75", "about")
WIDTHS = "return [document.documentElement.scrollWidth, innerWidth]"
UNNAMED = """return [...document.querySelectorAll('button, input, select, textarea, canvas, svg, a')].filter((it) =>
    !(it.textContent.trim() && it.localName !== 'select') && !it.getAttribute('aria-label') && !it.labels?.length)
    .map((it) => it.outerHTML.slice(0, 80))"""
TRANSITIONS = """return [...document.querySelectorAll('.token')].filter((it) =>
    getComputedStyle(it).transitionDuration !== '0s').length"""
# What is to be pressed or written, but for words of the page and headings of lists
CONTROLS = """return [...document.querySelectorAll('button:not(.term, th button), input, select, textarea')]
    .filter((it) => it.checkVisibility()).map((it) => it.outerHTML.slice(0, 80))"""
SHEETS = ("0.77", "0.07/24", "0.15", "0.75")
# Views with few links
TABBED = ("atlas=order=20-36", "game=0.33", "play=0.77:3,4", "check", "find=0.33", "about")
STOPS = """[...document.querySelectorAll('a[href], button, input, select, textarea, summary, [tabindex]')]
    .filter((it) => it.tabIndex >= 0 && !it.disabled && it.checkVisibility())"""
MARK = "document.addEventListener('focusin', ({target}) => target.setAttribute('data-reached', ''))"
UNREACHED = f"return {STOPS}.filter((it) => !it.hasAttribute('data-reached')).map((it) => it.outerHTML.slice(0, 80))"
SILENT = """return [...document.querySelectorAll('.verdict, .said, .count, #steps')].filter((it) =>
    !['status', 'alert'].includes(it.getAttribute('role')) && it.getAttribute('aria-live') !== 'polite')
    .map((it) => it.outerHTML.slice(0, 80))"""
LACKING = ("DecompressionStream", "WebAssembly", "BigInt64Array", "MathMLElement")


def shown(it, view):
    it.open(f"#{view}")
    it.wait(lambda: it.text("h1"))
    if view.startswith(("game", "find")):
        it.wait(lambda: it.all("#words, #triples") or len(it.all(".grid")) == 2)
    if view.startswith("play"):
        it.wait(lambda: it.all(".token"))


def drive(it, program, steps):
    for scheme in ("light", "dark"):
        it.emulate(phone=True, prefers_color_scheme=scheme)
        for view in VIEWS:
            shown(it, view)
            wide, most = it.run(WIDTHS)
            steps.expect(f"a phone of 360 pixels, {scheme}, {view}", wide <= most == 360, f"{wide} of {most}")
            it.picture(f"phone-{scheme}-{view.split('=')[0]}")
    lists(it, steps)
    it.emulate(prefers_color_scheme="dark", prefers_reduced_motion="reduce")
    for view in VIEWS:
        shown(it, view)
        unnamed = it.run(UNNAMED)
        steps.expect(f"each control of {view} has a name", not unnamed, unnamed)
        silent = it.run(SILENT)
        steps.expect(f"what {view} tells is a live region", not silent, silent)
        it.picture(f"dark-{view.split('=')[0]}")
    shown(it, "play=0.77:3,14,40")
    steps.expect("nothing moves where that isn't wanted", it.run(TRANSITIONS) == 0)
    it.emulate()
    prints(it, steps)
    tabs(it, steps)
    keys(it, program, steps)
    old(it, steps)


def lists(it, steps):
    """On a phone the list has the names of games, and a sign for those without a finite quotient."""
    shown(it, "atlas=code=kayles")
    it.listed(2)
    seen = [text.split() for text in it.seen(".list tbody td:first-child")]
    wide = it.run("return document.querySelector('.list').scrollWidth")
    wanted = [["0.07", "∞", "Dawson’s", "Kayles"], ["0.77", "Kayles"]]
    steps.expect("a phone's list tells names, and what is infinite", seen == wanted and wide <= 360, f"{seen}, {wide}")
    shown(it, "atlas=code=0.56")
    it.said(".list tbody tr td", "⊕")
    seen = it.seen(".list tbody td:first-child")[0].split()
    steps.expect("and what is normal play beyond a heap", seen == ["0.56", "⊕"], seen)


def prints(it, steps):
    for code in SHEETS:
        shown(it, f"game={code}")
        told = it.command("Page.printToPDF", printBackground=False, paperWidth=8.27, paperHeight=11.69)
        with tempfile.TemporaryDirectory() as folder:
            file = (it.pictures or pathlib.Path(folder)) / f"print-{code.replace('/', '-')}.pdf"
            file.write_bytes(base64.b64decode(told["data"]))
            pages = file.read_bytes().count(b"/Type /Page\n")
        steps.expect(f"{code} prints on one or two sheets", 1 <= pages <= 2, pages)
    it.command("Emulation.setEmulatedMedia", media="print")
    for view in ("atlas", "game=0.77", "check"):
        shown(it, view)
        seen = it.run(CONTROLS)
        steps.expect(f"{view} has no buttons and no fields on paper", not seen, seen)
    shown(it, "atlas")
    heads = it.seen(".list thead th")
    steps.expect("each column has its heading there", heads[:3] == ["Code", "Order", "Portion"] and all(heads), heads)
    it.picture("print-check")
    it.emulate()


def tabs(it, steps):
    for view in TABBED:
        shown(it, view)
        it.run(MARK)
        count = it.run(f"return {STOPS}.length")
        ActionChains(it.driver).send_keys(Keys.TAB * (count + 2)).perform()
        unreached = it.run(UNREACHED)
        steps.expect(f"each control of {view} is reached by the keyboard", not unreached, unreached or f"{count} stops")


def keys(it, program, steps):
    """From the head of the page to a game, by the keyboard alone."""
    it.open()
    it.listed(program.counts.all)
    focus = "return document.activeElement.textContent"
    press = lambda key: it.driver.switch_to.active_element.send_keys(key)
    press(Keys.TAB)
    steps.expect("the first stop leads past the head", it.run(focus) == "To the content")
    press(Keys.ENTER)
    steps.expect("and goes there", it.run("return document.activeElement.id") == "main" and it.all(".list"))
    for _ in range(20):
        press(Keys.TAB)
        if it.run(focus) == "0.1":
            break
    press(Keys.ENTER)
    it.wait(lambda: it.text("h1") == "The game 0.1")
    steps.expect("a game is opened by the keyboard", it.run("return document.activeElement.id") == "main")


def old(it, steps):
    for lacking in LACKING:
        script = it.command("Page.addScriptToEvaluateOnNewDocument", source=f"delete window.{lacking}")
        told_to_old(it, steps, f"without {lacking}")
        it.command("Page.removeScriptToEvaluateOnNewDocument", identifier=script["identifier"])
    it.command("Emulation.setScriptExecutionDisabled", value=True)
    told_to_old(it, steps, "without scripts")
    it.command("Emulation.setScriptExecutionDisabled", value=False)


def told_to_old(it, steps, name):
    it.open()
    visible = "return getComputedStyle(document.querySelector('#old')).visibility === 'visible'"
    it.wait(lambda: it.all("#old") and it.run(visible))
    said = it.text("#old").strip()
    steps.expect(f"a browser {name} is told in a sentence", "cannot run" in said, said[:60])
