"""The checking of certificates from elsewhere."""
import base64
import pathlib
import tempfile
import time

from .game import answered

# As many bytes as a certificate can have
MOST = 1 << 22

# Drops a file where a certificate is put
DROP = """const data = new DataTransfer();
data.items.add(new File([Uint8Array.from(atob(arguments[0]), (it) => it.charCodeAt(0))], 'x.mqc'));
const drop = new DragEvent('drop', {dataTransfer: data, bubbles: true, cancelable: true});
document.querySelector('form.drop').dispatchEvent(drop);"""


def judged(it, act, verdicts=("yes ", "no ", "No verdict")):
    """The verdict behind an act."""
    it.run("document.querySelector('#verdict')?.remove()")
    act()
    return it.said("#verdict", *verdicts)


def drive(it, program, steps):
    it.go("#check")
    for file in program.samples():
        said = judged(it, lambda: it.one("#file").send_keys(str(file)))
        steps.expect(f"the file {file.name}", said.startswith(program.verdict(file)), said)
    others(it, program, steps)
    large(it, program, steps)
    good = program.certificate("0.33")
    said = judged(it, lambda: it.run(DROP, base64.b64encode(good.read_bytes()).decode()))
    steps.expect("a file that is dropped", said.startswith(program.verdict(good)), said)
    it.one("#presentation")
    for name, change in {"as it is": ("", ""), "with a wrong portion": ("portion 1 4", "portion 1 5")}.items():
        text = good.read_text().replace(*change) if change[0] else good.read_text()
        it.run("document.querySelector('#text').value = ''")
        it.one("#text").send_keys(text.rstrip("\n"))
        said = judged(it, lambda: it.one("#judge").click())
        steps.expect(f"a text that is pasted {name}", said.startswith("no " if change[0] else "yes 0.33"), said)
    said = judged(it, lambda: it.one("#spoilt").click())
    steps.expect("the wrong one to try fails at a position", said.startswith("no 7 Outcome at [2, 3]"), said)
    outcome = "P" if program.move("0.33", "2 3") == "lost" else "N"
    steps.expect("whose true outcome is told", f"Its true outcome is {outcome}, " in said, said)
    it.picture("check")
    twice = "for (const name of ['sound', 'spoilt']) document.getElementById(name).click()"
    said = judged(it, lambda: it.run(twice))
    time.sleep(0.5)
    steps.expect("of two checks at once the last one stands alone", "no 7" in said and not it.all(".told .links"), said)
    said = judged(it, lambda: it.one("#file").send_keys(str(program.certificate("0.75_heaps_8"))))
    it.one(".links a").click()
    it.wait(lambda: it.all(".heap"))
    steps.expect("a certificate from elsewhere is played", it.run("return location.hash") == "#play=0.75/8:3,4,5", said)


def others(it, program, steps):
    """Texts of other kinds, which are told for what they are before the verdict."""
    good = program.certificate("0.33").read_bytes()
    texts = {
        "misere certify FILE": b"table 1\ncode 0.33\norder 6\n",
        "CR and LF": good.replace(b"\n", b"\r\n"),
        "misere catalogue FILE": (program.root / "atlas/parts.json").read_bytes(),
        "Find looks": b"0.33\n",
    }
    with tempfile.TemporaryDirectory() as folder:
        file = pathlib.Path(folder, "other.mqc")
        for words, text in texts.items():
            file.write_bytes(text)
            said = judged(it, lambda: it.one("#file").send_keys(str(file)))
            kind = it.text(".told > :first-child")
            steps.expect(f"a text for which {words} is said", words in kind and said.startswith("no 1 Text"), kind)
        presented(it, program, steps, file)
        file.write_bytes(good.replace(b"order 6", b"order 6 6"))
        said = judged(it, lambda: it.one("#file").send_keys(str(file)))
        steps.expect("the line at fault is named", "line 3: words after its name: 2, not 1" in said, said)
        file.write_bytes(good.replace(b"portion 1 4", b"portion 1 5"))
        said = judged(it, lambda: it.one("#file").send_keys(str(file)))
        steps.expect("a certificate is told by its verdict alone", not it.all("#kind"), said)


def presented(it, program, steps, file):
    """Presentations, accepted and refused, and what is shown of them."""
    right, whole = (program.certificate(f"{name}.mqp").read_bytes() for name in ("0.75_heaps_22", "0.77"))
    texts = {
        "a finite one": right,
        "an infinite one": program.certificate("0.404_heaps_12.mqp").read_bytes(),
        "one of a whole game": whole,
        "one that isn't any": right.replace(b"letters 1 2 5", b"letters 1 2"),
        "one with a wrong portion": right.replace(b"portion a", b"portion 1 a"),
    }
    for name, these in texts.items():
        file.write_bytes(these)
        said = judged(it, lambda: it.one("#file").send_keys(str(file)), ("yes ", "infinite ", "no ", "No verdict"))
        steps.expect(f"a presentation: {name}", said.startswith(program.verdict(file)), said)
        steps.expect(f"{name} is shown if it is right", bool(it.all("#presentation")) == ("no " not in said[:3]), said)
    file.write_bytes(texts["an infinite one"])
    judged(it, lambda: it.one("#file").send_keys(str(file)), ("infinite ",))
    facts = it.text("#facts")
    steps.expect("it has its order and its relations", "infinite" in facts and "9" in facts, facts)
    portion = it.text("#portion") + it.text("#repeats")
    steps.expect("its portion goes on by its cycles", ".." in portion and "by the cycles" in portion, portion)
    told = answered(it, "3 3 5")
    steps.expect("a position has a word", "N: won by" in told and "Its element is b." in told, told)
    for field, heaps in {"#one": "3 3", "#other": "0"}.items():
        it.write(field, heaps)
    it.one("#other").submit()
    told = it.said("#compared", "istinguishable")
    steps.expect("equal words are indistinguishable", told.startswith("Indistinguishable"), told)
    it.one(".links a").click()
    it.wait(lambda: it.all(".heap"))
    address = it.run("return location.hash")
    steps.expect("it is played", address == "#play=0.404/12:3,5,9", address)
    it.go("#check")


def large(it, program, steps):
    """Files of more than 2 MiB, as they are and with a byte too many."""
    text = program.script("large_certificates").long_text().encode()
    steps.expect("a text has more than 2 MiB", 1 << 21 < len(text) < MOST, len(text))
    texts = {"that is right": text, "with a byte more": text + b"0", "longer than any": text.ljust(MOST + 1, b"\n")}
    with tempfile.TemporaryDirectory() as folder:
        file = pathlib.Path(folder, "large.mqc")
        for name, these in texts.items():
            file.write_bytes(these)
            said = judged(it, lambda: it.one("#file").send_keys(str(file)))
            steps.expect(f"a large file {name}", said.startswith(program.verdict(file)), said)
