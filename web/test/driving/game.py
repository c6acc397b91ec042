"""The page of a game."""
import pathlib
import re
import tempfile

from selenium.webdriver.common.keys import Keys

# The words of the heaps, as the description spells them
WORDS = """const factor = (it) => it.localName === 'msup' ? [...it.children].map((part) => part.textContent).join('^') :
    it.textContent;
return [...document.querySelectorAll('.phi tbody td')].map((cell) =>
    [...cell.querySelectorAll('math > *')].map(factor).join(''))"""
RELATIVES = ".relatives details:nth-of-type({}) a"


def drive(it, program, steps):
    it.go("#game=0.77")
    said = it.said("#verdict", "yes")
    steps.expect("the verdict of 0.77", said.startswith(program.told("check", program.certificate("0.77"))), said)
    it.one("#presentation")
    steps.expect("its quotient is no partial one", it.text("#presentation").startswith("𝒬(0.77) = ⟨"))
    lines = [line.split() for line in program.told("describe", program.certificate("0.77")).splitlines()]
    described = [word for first, *words in lines if first.endswith("+") for word in words]
    steps.expect("the words of its heaps are the program's", it.run(WORDS) == described, f"{len(described)} heaps")
    it.wait(lambda: len(it.all(".grid")) == 2)
    it.said("#answer", "N:", "P:")
    it.picture("game")
    asks(it, program, steps)
    draws(it, steps)
    keeps(it, program, steps)
    parts(it, program, steps)
    it.go("#game=Kayles")
    it.wait(lambda: it.text("h1").startswith("The game 0.77"))
    steps.expect("a game has the address of its name", it.said("#verdict", "yes").startswith("yes 0.77"))
    it.driver.back()
    it.wait(lambda: it.text("h1").startswith("The game 0.07"))
    it.go("#game=0.123456")
    it.wait(lambda: it.text("h1") == "0.123456")
    link = it.one("main a").get_attribute("href")
    steps.expect("a game that isn't here is to be looked for", link.endswith("#find=0.123456"))
    it.driver.back()
    it.wait(lambda: it.text("h1").startswith("The game 0.07"))
    steps.expect("back goes back", it.said("#verdict", "yes").startswith("yes 0.07"))


def asks(it, program, steps):
    example = it.run("return document.querySelector('#heaps').value")
    told = it.said("#answer", "N:", "P:")
    steps.expect("its own example is answered", f"won by {program.move('0.77', example)}." in told, told)
    for position in ("2 1000000000000", "1", "1 1", "5 9 13"):
        told = answered(it, position)
        wanted = program.move("0.77", position)
        holds = "P: lost" in told if wanted == "lost" else f"won by {wanted}." in told
        steps.expect(f"who wins {position}", holds, told)
    compares(it, program, steps)
    explains(it, steps)


def compares(it, program, steps):
    """Two positions, with a third one beside which the program finds what is told."""
    for one, other in (("3 5", "4 4"), ("1", "1 1 1"), ("2 1000000000000", "7"), ("", "1 1")):
        it.write("#one", one or "0")
        it.run("document.querySelector('#compared').textContent = ''")
        it.write("#other", other + Keys.ENTER)
        told = it.said("#compared", "ndistinguishable", "istinguishable: ", "no ", "No ")
        found = re.match(r"Distinguishable: (?:beside ([\d +]+) )?one is ([PN]) and the other ([PN])\.", told)
        if not found:
            steps.expect(f"{one} and {other}", told.startswith("Indistinguishable: both have the element "), told)
            continue
        third = (found[1] or "").replace("+ ", "")
        moves = [program.move("0.77", " ".join(f"{it} {third}".split()) or "0") for it in (one, other)]
        seen = ["P" if it == "lost" else "N" for it in moves]
        steps.expect(f"{one} and {other}", seen == [found[2], found[3]] and seen[0] != seen[1], told)


def answered(it, position):
    """What is answered of a position, behind the answer that stands there."""
    it.said("#answer", "N:", "P:", "no ")
    it.run("document.querySelector('#answer').textContent = ''")
    it.write("#heaps", position + Keys.ENTER)
    return it.said("#answer", "N:", "P:", "no ")


def explains(it, steps):
    shown = lambda: [said.text for said in it.all(".explanation:not([hidden])")]
    term = next(term for term in it.all(".facts .term") if term.text == "Kernel")
    term.send_keys(Keys.ENTER)
    steps.expect("a word is explained where it stands", [it[:15] for it in shown()] == ["The least ideal"], shown())
    term.send_keys(Keys.ENTER)
    steps.expect("and no more once it is asked for again", not shown())


def draws(it, steps):
    steps.expect("two grids and the components", len(it.all("svg.components")) == 1)
    for picture, first in ((it.one("svg.grid"), "Heaps 1 and 1"), (it.one("canvas.grid"), "a · a")):
        picture.send_keys(Keys.ARROW_RIGHT, Keys.ARROW_DOWN)
        said = it.run("return arguments[0].parentNode.querySelector('.said').textContent", picture)
        steps.expect("a cell is told by the arrow keys", said.startswith(first), said)
    steps.expect("its relatives are listed", len(it.all(RELATIVES.format(2))) > 0, it.texts(".relatives summary"))


def keeps(it, program, steps):
    wanted = program.certificate("0.77").read_text()
    with tempfile.TemporaryDirectory() as folder:
        it.command("Browser.setDownloadBehavior", behavior="allow", downloadPath=folder)
        it.one("#save").click()
        file = pathlib.Path(folder) / "0.77.mqc"
        it.wait(file.exists)
        it.wait(lambda: file.stat().st_size >= len(wanted))
        steps.expect("the certificate is saved", file.read_text() == wanted, f"{file.name}, {len(wanted)} bytes")
    forms = ("description", "latex", "json", "singular", "gap")
    copies(it, steps, ("copy", *(f"copy-{form}" for form in forms)))


def copies(it, steps, buttons):
    for name in buttons:
        it.run("document.querySelector('#copy').parentNode.querySelector('[role=status]').textContent = ''")
        it.one(f"#{name}").click()
        said = it.said(".row [role=status]", "opied", "verdict")
        steps.expect(f"{name} copies", said == "Copied.", said)


def parts(it, program, steps):
    it.go("#game=0.07")
    known(it, program, steps)
    it.go("#game=0.07/24")
    it.wait(lambda: it.text("h1").startswith("The game 0.07, to heap 24"))
    said = it.said("#verdict", "yes 0.07")
    it.one("#presentation")
    named = [it.text(f"#{name} math") for name in ("presentation", "portion")]
    steps.expect("a partial quotient has its last heap as an index", named == ["𝒬24(0.07)", "𝒫24"], named)
    steps.expect("and is told as one", said.startswith("yes 0.07 order 24 heaps 24") and len(it.all(".partial")) == 2)
    it.picture("partial")
    told = answered(it, "25")
    steps.expect("a heap of which it doesn't speak", told.startswith("no 23 Beyond"), told)


def known(it, program, steps):
    """What is known of a game without a finite quotient stands first, the strongest above."""
    said = it.said("#verdict", "yes 0.07")
    steps.expect("the certificate of a code is its furthest part", said.startswith("yes 0.07 order 638 heaps 33"), said)
    theorem = it.said("#theorem", "Checked here in", "Not checked", "Refused")
    holds = "the heaps 1 to 34 without 33 of 0.07 is infinite" in theorem and "Check it" in theorem
    steps.expect("that it has no finite quotient is told, and a long check begins on demand", holds, theorem)
    tops = it.run("return ['#theorem', '#known table', '#verdict'].map((it) => document.querySelector(it).offsetTop)")
    steps.expect("before all else", tops == sorted(tops), tops)
    rows = [[link.text for link in row.find_elements("css selector", "a")] for row in it.all("#known tr")]
    finite = ["heaps to 33 (order 638)", "heaps to 24 (order 24)"]
    steps.expect(
        "the furthest parts are named first", rows[0][0] == "heaps to 34 without 33" and rows[1] == finite, rows
    )
    links = [link.get_attribute("href").split("#")[1] for link in it.all("#known a")]
    wanted = {"game=0.07/33", "game=0.07/24", "game=0.07/34", "game=0.07/34-33"}
    steps.expect("each has its page", wanted <= set(links), links)
    it.picture("known")
