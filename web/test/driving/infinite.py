"""Games without a finite quotient."""
from .check import judged
from .game import answered, copies
from .play import to_its_end

NAME, FILE = "0.354/5", "0.354_heaps_5.mqp"


def drive(it, program, steps):
    codes = {file.name.split("_")[0] for file in (program.root / "atlas/infinite").glob("*.mqp")}
    whole = program.module("atlas_page").whole_of(program.root)
    it.go("#atlas=speaks=infinite")
    it.listed(len(codes | whole.keys()))
    steps.expect("the games that have none are listed", True, it.text(".count"))
    it.go(f"#game={NAME}")
    said = it.said("#verdict", "infinite 0", "Not checked", "no ", "No verdict")
    theorem = it.wait(lambda: it.text("#theorem"))
    steps.expect("the theorem is told in a sentence", "have a finite one." in theorem, theorem)
    if said.startswith("Not checked"):
        return steps.expect("a module without the calls is no verdict", "no calls" in said, said)
    steps.expect("the verdict", said.startswith(program.verdict(program.certificate(FILE))), said)
    copies(it, steps, ("copy", "copy-description", "copy-latex", "copy-json"))
    asks(it, program, steps)
    checks(it, program, steps)
    plays(it, program, steps)


def asks(it, program, steps):
    for position in ("2 4 5 5 5 5 5 5 5 5", "2 4 5 5 5 5 5 5 5", "1"):
        told, wanted = answered(it, position), program.move(FILE, position)
        holds = "P: lost" in told if wanted == "lost" else f"won by {wanted}." in told
        steps.expect(f"who wins {position}", holds, told)
    told = answered(it, "5 6")
    steps.expect("a heap of which it doesn't speak", told.startswith("no 23 Beyond"), told)


def checks(it, program, steps):
    it.go("#check")
    for file in program.presented_samples():
        verdicts = ("yes ", "infinite 0", "no ", "No verdict")
        said = judged(it, lambda: it.one("#file").send_keys(str(file)), verdicts)
        steps.expect(f"the file {file.name}", said.startswith(program.verdict(file)), said)


def plays(it, program, steps):
    it.go("#play=0.354/5:2,4,5,5")
    it.wait(lambda: len(it.all(".heap")) == 4)
    wins = program.move(FILE, "2 4 5 5") != "lost"
    said = to_its_end(it, by_hints=True)
    steps.expect("it is played to its end", "you have won" in said if wins else "won" in said, said)
    it.go("#play=0.354/5:6")
    said = it.said("#board", "speaks of")
    steps.expect("not with a heap of which it doesn't speak", "the heaps 1 to 5" in said, said)
