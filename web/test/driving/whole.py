"""Whole games of which each outcome is known: by numbers of each heap, or since they are normal play beyond one."""
from .check import judged
from .game import answered
from .play import to_its_end

NAME, FILE = "0.26/whole", "0.26.mqw"
# By the proof of docs/WHOLE.md: positions of 0.26, and which of them are lost
POSITIONS = {"1": False, "2": True, "3 3": True, "9": False, "15": True, "15 3 3 3 3": False, "1000000000000003": True}


def drive(it, program, steps):
    it.go("#game=0.26")
    theorem = it.said("#theorem", "is known")
    steps.expect("its outcomes stand first on a game's page", "if and only if" in theorem, theorem[:80])
    told = it.said("#judged", "Checked here", "Not checked", "Refused")
    steps.expect("the text is checked there", told.startswith("Checked here"), told)
    it.go(f"#game={NAME}")
    it.wait(lambda: it.text("h1") == "The game 0.26, as a whole")
    said = it.said("#verdict", "infinite 0", "no ", "No verdict")
    rows = it.texts("#triples tbody tr")
    steps.expect("each heap has its three numbers", len(rows) == 16 and rows[14] == "15even54", rows[14:15])
    it.picture("whole")
    tails(it, steps)
    steps.expect("the verdict", said.startswith(program.verdict(program.certificate(FILE))), said)
    it.go(f"#game={NAME}")
    for position, is_lost in POSITIONS.items():
        told = answered(it, position)
        steps.expect(f"who wins {position}", told.startswith("P: lost" if is_lost else "N: "), told)
    apart(it, steps)
    checks(it, program, steps)
    it.go("#play=0.26/whole:3,9")
    it.wait(lambda: len(it.all(".heap")) == 2)
    said = to_its_end(it, by_hints=True)
    steps.expect("it is played to its end", "won" in said, said)


def apart(it, steps):
    """Two positions with other numbers, and the third one beside which one of them is lost."""
    told = it.said("#compared", "istinguishable")
    steps.expect("two positions are compared", told.startswith("Distinguishable: one is N and the other P. "), told)
    for field, heaps in {"#one": "9", "#other": "10"}.items():
        it.write(field, heaps)
    it.one("#other").submit()
    told = it.said("#compared", "beside")
    steps.expect("and beside a third one", "beside 9 one is P and the other N. " in told, told)


def tails(it, steps):
    it.go("#game=0.561")
    told = it.said("#theorem", "nim sum")
    steps.expect("beyond which heap a game is normal play", told.startswith("Beyond heap 6 "), told)
    it.picture("tail")
    it.go("#atlas=speaks=solved&code=0.26")
    steps.expect("whole games are found in the list", "infinite, solved" in it.said(".list tbody", "solved"))


def checks(it, program, steps):
    it.go("#check")
    file = program.certificate(FILE)
    said = judged(it, lambda: it.one("#file").send_keys(str(file)), ("infinite 0", "no ", "No verdict"))
    steps.expect("the file of a whole game", said.startswith(program.verdict(file)), said)
