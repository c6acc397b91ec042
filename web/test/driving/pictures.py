"""Pictures, as they are to be seen: what the DOM has of them may still not be there to be seen."""
import pathlib
import subprocess
import tempfile

from selenium.webdriver.common.keys import Keys

from .pixels import is_underlined, middle_of

PAGE = pathlib.Path(__file__).resolve().parents[2] / "page"
BUNDLE = ["esbuild", "--bundle", "--format=iife", "--global-name=drawing", "--log-level=warning"]
# Each of these reaches below the line on which it stands.
LOW_LETTERS = "gjpqy"
# A cyclic group, and a monoid with a nilpotent element beside its zero
MONOIDS = {
    "a group": {"rows": [[(x + y) % 6 for y in range(6)] for x in range(6)], "words": ["1", *LOW_LETTERS]},
    "a zero": {"rows": [[0, 1, 2], [1, 2, 2], [2, 2, 2]], "words": ["1", "g", "0"]},
}
DRAW = """const {rows, words} = arguments[0];
const certificate = {order: rows.length, table: rows, portion: new Set([1])};
document.body.replaceChildren(drawing.componentPicture({certificate, words}));"""
TEXTS = "svg.components text"
WHITE = (255, 255, 255)


def drive(it, program, steps):
    it.go("#game=0.77")
    it.wait(lambda: len(it.all(".grid")) == 2)
    groups(it, steps, "0.77")
    it.emulate(prefers_color_scheme="dark")
    groups(it, steps, "0.77 in the dark")
    it.emulate()
    it.go("#game=0.33")
    it.wait(lambda: it.text("h1") == "The game 0.33" and len(it.all(".grid")) == 2)
    outcomes(it, program, steps)
    products(it, steps)


def groups(it, steps, name):
    """The words of a group are underlined, and no others."""
    texts = it.all(TEXTS)
    is_of_group = ["group" in text.get_attribute("class").split() for text in texts]
    seen = [is_underlined(it, text) for text in texts]
    wrong = [text.text for text, wanted, is_so in zip(texts, is_of_group, seen) if wanted != is_so]
    told = wrong or f"{sum(seen)} of {len(texts)} words"
    steps.expect(f"the words of groups are underlined, of {name}", texts and not wrong, told)


def outcomes(it, program, steps):
    """The cells of the positions of up to two heaps that are lost have another colour than those that are won."""
    picture = it.one("svg.outcomes")
    cells = [(x, y) for x in range(5) for y in range(5)]
    positions = {cell: " ".join(str(heap) for heap in cell if heap) or "0" for cell in cells}
    lost = {cell: program.move("0.33", position) == "lost" for cell, position in positions.items()}
    seen = {cell: middle_of(it, picture, *cell, 64) for cell in cells}
    kinds = [{seen[cell] for cell in cells if lost[cell] == is_lost} for is_lost in (True, False)]
    steps.expect("lost positions have a colour of their own", [len(it) for it in kinds] == [1, 1], kinds)
    steps.expect("and won ones another", kinds[0] != kinds[1])


def products(it, steps):
    """A white dot is to be seen where a product is told to be in the portion."""
    picture, side, wrong, dots = it.one("canvas.grid"), 6, [], 0
    for row in range(side):
        picture.send_keys(Keys.ARROW_LEFT * side, *([Keys.ARROW_DOWN] if row else []))
        for column in range(side):
            if column:
                picture.send_keys(Keys.ARROW_RIGHT)
            told = it.run("return arguments[0].parentNode.querySelector('.said').textContent", picture)
            is_white = middle_of(it, picture, column, row, side) == WHITE
            dots += is_white
            wrong += [told] if is_white != told.endswith("in 𝒫.") else []
    steps.expect("a product in the portion has a white dot", dots and not wrong, wrong or f"{dots} dots")


def letters(make_browser, steps):
    """Groups of words that games of the atlas lack, each drawn by itself, without a page around it."""
    with tempfile.TemporaryDirectory() as folder:
        script, file = pathlib.Path(folder, "drawing.js"), pathlib.Path(folder, "drawing.html")
        subprocess.run([*BUNDLE, PAGE / "pictures/components.js", f"--outfile={script}"], check=True)
        style = (PAGE / "page.css").read_text()
        file.write_text(f"<!doctype html><style>{style}</style><body></body><script>{script.read_text()}</script>")
        it = make_browser(file.as_uri())
        it.open()
        for name, monoid in MONOIDS.items():
            it.run(DRAW, monoid)
            groups(it, steps, f"{name} of {' '.join(monoid['words'])}")
            it.picture(f"letters-{name.split()[-1]}")
        it.close()
