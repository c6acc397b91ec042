"""Headless Chromium with the page in it: what a drive does there, and what it sees."""
import base64
import contextlib
import functools
import http.server
import json
import threading
import time

from selenium import webdriver
from selenium.common.exceptions import TimeoutException
from selenium.webdriver.common.by import By
from selenium.webdriver.support.ui import WebDriverWait

# (a bar to scroll by goes away with the first picture, and what stands beside it moves)
FLAGS = ["--headless=new", "--no-sandbox", "--window-size=1100,900", "--force-color-profile=srgb", "--hide-scrollbars"]
PHONE = {"width": 360, "height": 740, "deviceScaleFactor": 2, "mobile": True}


class Browser:
    """A browser of its own at one place of the page, and the steps that failed in it."""

    def __init__(self, place, pictures=None):
        options = webdriver.ChromeOptions()
        options.binary_location = "/usr/bin/chromium"
        for flag in FLAGS:
            options.add_argument(flag)
        options.set_capability("goog:loggingPrefs", {"browser": "ALL", "performance": "ALL"})
        service = webdriver.chrome.service.Service("/usr/bin/chromedriver")
        self.driver = webdriver.Chrome(service=service, options=options)
        self.place, self.pictures = place, pictures

    def close(self):
        self.driver.quit()

    def open(self, address="", place=None):
        """Loads the page again."""
        self.driver.get("about:blank")
        self.driver.get(f"{place or self.place}{address}")

    def go(self, address):
        """Goes to another address of the page, as a link does."""
        self.run("location.hash = arguments[0]", address)

    def run(self, script, *words):
        return self.driver.execute_script(script, *words)

    def command(self, name, **words):
        return self.driver.execute_cdp_cmd(name, words)

    def wait(self, test, seconds=180):
        return WebDriverWait(self.driver, seconds, 0.02).until(lambda _: test())

    def all(self, selector):
        return self.driver.find_elements(By.CSS_SELECTOR, selector)

    def one(self, selector):
        """An element, once it is there."""
        return self.wait(lambda: self.all(selector))[0]

    def text(self, selector):
        """The text of an element, or the empty one where there is none."""
        return self.run("return document.querySelector(arguments[0])?.textContent ?? ''", selector)

    def texts(self, selector):
        return self.run("return [...document.querySelectorAll(arguments[0])].map((it) => it.textContent)", selector)

    def seen(self, selector):
        """As texts, without what isn't shown."""
        return self.run("return [...document.querySelectorAll(arguments[0])].map((it) => it.innerText)", selector)

    def said(self, selector, *words):
        """The text of an element, once it has one of the words in it."""
        return self.wait(lambda: (said := self.text(selector)) and any(word in said for word in words) and said)

    def listed(self, count):
        """Waits until the atlas lists so many rows, and says how many it lists if they stay others."""
        try:
            self.wait(lambda: len(self.all(".list tbody tr")) == count, 30)
        except TimeoutException:
            raise AssertionError(f"{len(self.all('.list tbody tr'))} rows are listed, and not {count}") from None

    def write(self, selector, text):
        field = self.one(selector)
        field.clear()
        field.send_keys(text)

    def picture(self, name):
        """Keeps a picture of the whole view."""
        if self.pictures:
            (self.pictures / f"{name}.png").write_bytes(self.shot())

    def shot(self, most=5000):
        """A picture of the view, of at most so many pixels from its top."""
        time.sleep(0.4)
        wide, high = self.run("return [innerWidth, document.documentElement.scrollHeight]")
        clip = {"x": 0, "y": 0, "width": wide, "height": min(high, most), "scale": 1}
        told = self.command("Page.captureScreenshot", captureBeyondViewport=True, clip=clip)
        return base64.b64decode(told["data"])

    def emulate(self, phone=False, **features):
        """A phone of 360 pixels, and what its user prefers, such as `prefers_color_scheme="dark"`."""
        named = [{"name": name.replace("_", "-"), "value": value} for name, value in features.items()]
        self.command("Emulation.setEmulatedMedia", features=named)
        if phone:
            self.command("Emulation.setDeviceMetricsOverride", **PHONE)
        else:
            self.command("Emulation.clearDeviceMetricsOverride")

    def lines(self):
        """The lines on the console since it was last asked."""
        return [f"{entry['level']} {entry['message']}" for entry in self.driver.get_log("browser")]

    def requests(self):
        """Where the page asked for something since it was last asked, but for itself and what it holds."""
        messages = [json.loads(entry["message"])["message"] for entry in self.driver.get_log("performance")]
        asked = [it["params"]["request"]["url"] for it in messages if it["method"] == "Network.requestWillBeSent"]
        own = ("data:", "blob:", "about:", self.place)
        return [url for url in asked if not url.startswith(own)]


@contextlib.contextmanager
def served(folder):
    """A server on this machine, of a folder. Gives its address."""
    quiet = type("Quiet", (http.server.SimpleHTTPRequestHandler,), {"log_message": lambda *_: None})
    server = http.server.ThreadingHTTPServer(("127.0.0.1", 0), functools.partial(quiet, directory=folder))
    threading.Thread(target=server.serve_forever, daemon=True).start()
    try:
        yield f"http://127.0.0.1:{server.server_port}"
    finally:
        server.shutdown()
