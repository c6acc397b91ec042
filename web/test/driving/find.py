"""The search for a quotient."""
from selenium.webdriver.support.ui import Select

# A code whose search up to 512 elements takes some ten seconds
SLOW = "0.123456789abcdef"


def sought(it, code, aim, number=None):
    """Searches, and tells what each step reached."""
    it.write("#sought", code)
    Select(it.one("#aim")).select_by_value(aim)
    if number:
        it.write("#number", str(number))
    it.run("document.querySelector('#verdict')?.remove()")
    it.one("#seek").click()
    it.wait(lambda: it.texts("#steps li"))
    it.wait(lambda: it.one("#seek").is_enabled(), 120)
    return it.texts("#steps li")


def drive(it, program, steps):
    it.go("#find=0.75")
    said = it.said("#verdict", "yes ")
    steps.expect("an address is a search", said.startswith("yes 0.75 order 8 start 8 period 2"), it.texts("#steps li"))
    it.picture("find")
    for code, aim, number, wanted in (
        ("0.33", "whole", None, "0.33 order 6 start 1 period 3"),
        ("0.77", "deep", None, "0.77 order 40 start 71 period 12"),
        ("0.75", "partial", 8, "0.75 order 8 heaps 8"),
        ("0.07", "furthest", 64, "0.07 order 24 heaps 24"),
    ):
        told = sought(it, code, aim, number)
        said = it.said("#verdict", "yes ")
        steps.expect(f"{aim} of {code}", wanted in told[-1] and said.startswith(f"yes {wanted}"), told)
    steps.expect("what was reached before it is told too", len(told) > 2 and all("0.07 order" in line for line in told))
    it.wait(lambda: it.text("h1") == "Find a quotient")
    steps.expect("a search has an address", it.run("return location.hash") == "#find=0.07:furthest:64")
    known = {"0.26": "It has the outcome of each position.", "0.56": "More is known of 0.56", "0.33": ""}
    for code, words in known.items():
        sought(it, code, "partial", 4)
        said = it.text("#none")
        steps.expect(f"what else is known of {code}", words in said and bool(words) == bool(said), said)
    stops(it, steps)
    told = sought(it, "0.8x", "whole")
    steps.expect("what is no code is told", told[0].startswith("A code is such as"), told)
    told = sought(it, "0.0137", "furthest", 16)
    it.one(".links a").click()
    it.wait(lambda: it.all(".heap"))
    steps.expect("a game that was found is played", it.run("return location.hash").startswith("#play=0.0137/"), told)


def stops(it, steps):
    it.write("#sought", SLOW)
    Select(it.one("#aim")).select_by_value("furthest")
    it.write("#number", "512")
    it.one("#seek").click()
    it.wait(lambda: any("order" in line for line in it.texts("#steps li")))
    waited = it.run(
        """const begin = performance.now();
        return new Promise((done) => requestAnimationFrame(() => done(performance.now() - begin)))"""
    )
    steps.expect("a search keeps nobody waiting", waited < 200, f"a frame after {waited:.0f} ms")
    it.one("#stop").click()
    it.wait(lambda: it.one("#seek").is_enabled())
    told = it.texts("#steps li")
    steps.expect("and is stopped", told[-1].endswith("Stopped."), told)
    said = it.said("#verdict", f"yes {SLOW}")
    steps.expect("what it reached is shown", "order" in said, said)
