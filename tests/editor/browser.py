"""Browsers by the WebDriver protocol (Debian: chromium, chromium-driver), and what tests wait for."""
import base64
import contextlib
import json
import re
import subprocess
import sys
import time
import urllib.error
import urllib.request

ELEMENT = "element-6066-11e4-a52e-4f735466cecf"
# The longest time that the protocol has, in milliseconds.
ENDLESS = (1 << 53) - 1
# Chromium has no sandbox where it is run as root; it opens no page but the hub's.
OPTIONS = ["--headless=new", "--no-sandbox", "--disable-dev-shm-usage", "--disable-gpu", "--disable-extensions",
           "--disable-background-networking", "--disable-background-timer-throttling", "--disable-renderer-backgrounding",
           "--force-device-scale-factor=1", "--window-size=600,500"]


class Browser:
    """A browser, by the address of its driver, with further options."""

    def __init__(self, driver, *more):
        self.driver = driver
        options = {"alwaysMatch": {"goog:chromeOptions": {"args": [*OPTIONS, *more]}}}
        self.session = self.call("POST", "", {"capabilities": options}, driver + "/session")
        self.call("POST", "/timeouts", {"script": None, "pageLoad": ENDLESS})

    def call(self, method, path, body=None, at=None):
        at = at or f"{self.driver}/session/{self.session['sessionId']}{path}"
        data = None if body is None else json.dumps(body).encode()
        request = urllib.request.Request(at, data, {"Content-Type": "application/json"}, method=method)
        try:
            with urllib.request.urlopen(request) as reply:
                return json.loads(reply.read())["value"]
        except urllib.error.HTTPError as why:
            raise AssertionError(why.read().decode()[:400]) from why

    def version(self):
        named = self.session["capabilities"]
        return f"{named['browserName']} {named['browserVersion']}"

    def protocol(self, command, **parameters):
        """A command of Chromium's own protocol."""
        return self.call("POST", "/goog/cdp/execute", {"cmd": command, "params": parameters})

    def open(self, url):
        self.call("POST", "/url", {"url": url})

    def run(self, script, *arguments):
        return self.call("POST", "/execute/sync", {"script": script, "args": list(arguments)})

    def element(self, selector):
        found = self.call("POST", "/element", {"using": "css selector", "value": selector})
        return f"/element/{found[ELEMENT]}"

    def keys(self, selector, text):
        self.call("POST", self.element(selector) + "/value", {"text": text})

    def click(self, selector):
        self.call("POST", self.element(selector) + "/click", {})

    def says(self, name):
        return self.run("return document.getElementById(arguments[0]).textContent", name)

    def take_picture(self, file):
        file.write_bytes(base64.b64decode(self.call("GET", "/screenshot")))

    def quit(self):
        self.call("DELETE", "")


def until(holds, what):
    """Waits until something holds, however long that takes; a wait of a minute is told, by `what` doesn't hold, or makes the words."""
    tries = 0
    while not holds():
        tries += 1
        if tries % 600 == 0:
            print(f"still waiting: {what() if callable(what) else what}", file=sys.stderr, flush=True)
        time.sleep(0.1)


@contextlib.contextmanager
def program(*words):
    """Runs a program, with the lines that it prints."""
    with subprocess.Popen([str(word) for word in words], stdout=subprocess.PIPE, text=True) as process:
        try:
            yield process.stdout
        finally:
            process.terminate()


def number_in(lines, form):
    """The number in the first line that has a form."""
    return next(int(found[1]) for found in map(re.compile(form).search, lines) if found)
