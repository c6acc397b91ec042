"""What fails is never a verdict: a stack that is full, a worker that ends, a module that is none."""
import base64
import gzip
import hashlib
import re

# The first global of the module is the stack's place: 1 MB, and in its stead 2 KB (both numbers in four bytes)
STACK, SMALL_STACK = b"\x7e\x01\x42\x80\x80\xc0\x00\x0b", b"\x7e\x01\x42\x80\x90\x80\x00\x0b"
ENDING = """window.Worker = class {
  postMessage() { setTimeout(() => this.onerror(new ErrorEvent('error', {message: 'it ended'}))); }
  terminate() {}
};"""
HELD = re.compile(r'(<script type="text/plain" id="module">)([^<]*)')


def module_of(page):
    return gzip.decompress(base64.b64decode(HELD.search(page)[2]))


def with_module(page, module):
    packed = base64.b64encode(gzip.compress(module, mtime=0)).decode()
    return HELD.sub(lambda found: found[1] + packed, page)


def drive(it, page, folder, steps):
    """`page` is the file of the page; changed ones are put into the folder."""
    text = page.read_text()
    module = module_of(text)
    steps.expect("the stack's place is known", module.count(STACK) == 1)
    changed = {"a full stack": module.replace(STACK, SMALL_STACK), "a module that is cut short": module[:-100]}
    for name, bytes_ in changed.items():
        file = folder / "changed.html"
        file.write_text(with_module(text, bytes_))
        it.open("#game=0.77", file.as_uri())
        said = it.said("#verdict", "yes", "no ", "No verdict")
        steps.expect(f"{name} is no verdict", said.startswith("No verdict"), said)
        it.go("#check")
        it.one("#sound").click()
        said = it.said("#verdict", "yes", "no ", "No verdict")
        steps.expect(f"{name}, and the next check", not said.startswith("no "), said)
    script = it.command("Page.addScriptToEvaluateOnNewDocument", source=ENDING)
    it.open("#game=0.77")
    said = it.said("#verdict", "yes", "no ", "No verdict")
    steps.expect("a worker that ends is no verdict", said.startswith("No verdict"), said)
    it.open()
    it.one("#all").click()
    said = it.said("#all-told", "accepted", "refused", "verdict")
    steps.expect("nor one on the atlas", said.startswith("No verdict"), said)
    it.command("Page.removeScriptToEvaluateOnNewDocument", identifier=script["identifier"])
    it.open("#about")
    told = it.wait(lambda: len(it.text(".sum")) == 64 and it.text(".sum"))
    steps.expect("the module's sum is told", told == hashlib.sha256(module).hexdigest(), told)
