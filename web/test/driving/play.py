"""A play against the program."""
from selenium.webdriver.common.keys import Keys
from selenium.webdriver.support.ui import Select

ENDED = ("won", "no move in this")
LOG = ".log li"


def position(it):
    return it.run("return location.hash")


def to_its_end(it, by_hints=False):
    """Makes the first of the moves, or that of the hint where it tells one, until the play ends. Tells how."""
    for _ in range(60):
        said = it.said("#told", "Your move", *ENDED)
        if any(word in said for word in ENDED):
            return said
        if by_hints:
            it.one("#hint").click()
            hint = it.said("#hint", "wins")
            if hint != "No move wins":
                Select(it.one("#moves")).select_by_visible_text(hint.removesuffix(" wins"))
        moves = len(it.all(LOG))
        it.one("#other").click()
        it.wait(lambda: len(it.all(LOG)) >= moves + 2 or any(word in it.text("#told") for word in ENDED))
    return "no end"


def drive(it, program, steps):
    it.go("#play=0.77:3,4,5")
    by_tokens(it, steps)
    back_and_forward(it, steps)
    said = to_its_end(it)
    moves = it.texts(LOG)
    loser = "You" if "the program has won" in said else "Program"
    steps.expect("the player who makes the last move loses", moves[-1].startswith(loser), f"{said} {'; '.join(moves)}")
    reviewed(it, program, steps)
    it.go("#play=0.33:2,3")
    said = to_its_end(it, by_hints=True)
    steps.expect("with its hints the program is beaten", "you have won" in said, said)
    others(it, program, steps)


def by_tokens(it, steps):
    it.wait(lambda: len(it.all(".heap")) == 3)
    it.all(".heap")[1].find_elements("css selector", ".token")[1].send_keys(Keys.SPACE)
    it.driver.switch_to.active_element.send_keys(Keys.ARROW_RIGHT)
    it.driver.switch_to.active_element.send_keys(Keys.SPACE)
    steps.expect("tokens are chosen by the keyboard", it.text("#move") == "Take 2, leave 1 + 1", it.text("#move"))
    it.picture("play")
    it.one("#move").click()
    it.wait(lambda: len(it.all(LOG)) == 2)
    steps.expect("the program answers", it.texts(LOG)[0] == "You: 4 → 1 + 1", it.texts(LOG))


def back_and_forward(it, steps):
    behind = position(it)
    it.one("#back").click()
    it.wait(lambda: position(it) == "#play=0.77:3,4,5" and it.all(".heap") and not it.all(LOG))
    steps.expect("a move is taken back", len(it.all(".heap")) == 3, behind)
    it.driver.forward()
    it.wait(lambda: position(it) == behind and len(it.all(LOG)) == 2)
    steps.expect("and made again, by forward", True, it.texts(LOG))


def reviewed(it, program, steps):
    rows = it.wait(
        lambda: it.run(
            """return [...document.querySelectorAll('#review tbody tr')]
        .map((row) => [...row.cells].map((cell) => cell.textContent))"""
        )
    )
    wrong = []
    for _, _, _, heaps, outcome, _ in rows:
        told = program.told("play", program.certificate("0.77"), heaps.replace(" +", "").replace("nothing", "0"))
        if (told == "lost") != (outcome == "P"):
            wrong.append((heaps, outcome, told))
    steps.expect("the review has each position", len(rows) == len(it.all(LOG)) + 1, len(rows))
    steps.expect("and tells its outcome", not wrong, wrong)
    it.picture("review")


def others(it, program, steps):
    it.go("#play=0.77:5,6,7")
    it.wait(lambda: len(it.all(".heap")) == 3)
    it.run("const button = document.getElementById('other'); button.click(); button.click()")
    it.wait(lambda: len(it.all(LOG)) >= 2)
    steps.expect("a move that is made twice is one", len(it.all(LOG)) == 2, it.texts(LOG))
    it.go("#play=0.75:2,3")
    it.wait(lambda: len(it.all(".heap")) == 2)
    Select(it.one("#first")).select_by_value("program")
    it.one("#begin").click()
    it.wait(lambda: it.texts(LOG))
    wanted = program.move("0.75", "2 3")
    steps.expect("the program begins", it.texts(LOG)[0] == f"Program: {wanted}", it.texts(LOG))
    it.go("#play=0.77:1000000000000,7")
    it.wait(lambda: it.all("#left"))
    Select(it.one("#from")).select_by_value("1000000000000")
    it.write("#left", "499999999999 499999999999")
    it.one("#other").click()
    it.wait(lambda: len(it.all(LOG)) == 2)
    wanted = "You: 1000000000000 → 499999999999 + 499999999999"
    steps.expect("a move in a large heap is written", it.texts(LOG)[0] == wanted, it.texts(LOG))
    it.go("#play=8.1:9")
    it.wait(lambda: it.all("#moves"))
    Select(it.one("#moves")).select_by_visible_text("9 → 2 + 3 + 4")
    it.one("#other").click()
    it.wait(lambda: it.texts(LOG))
    steps.expect("a heap is split in three", it.texts(LOG)[0] == "You: 9 → 2 + 3 + 4", to_its_end(it))
    it.go("#play=0.07:34")
    said = it.said("#board", "speaks of heaps")
    steps.expect("a heap of which a partial one doesn't speak", "up to 33" in said, said)
