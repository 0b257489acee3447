"""A browser for tests, by WebDriver's protocol over HTTP: Chromium with its driver, if both are on the PATH.

    with Browser(1280, 800) as page:
        page.open(address)
        page.click(page.find("css selector", "button"))
        page.run("return document.title")"""
import base64
import json
import shutil
import socket
import subprocess
import time
import urllib.error
import urllib.request

ELEMENT = "element-6066-11e4-a52e-4f735466cecf"
KEYS = {
    "left": "\ue012", "right": "\ue014", "down": "\ue015", "home": "\ue011", "end": "\ue010",
    "enter": "\ue007", "tab": "\ue004", "space": "\ue00d", "pageup": "\ue00e", "pagedown": "\ue00f",
    "delete": "\ue017",
}  # fmt: skip
PATIENCE = 20


def is_there():
    return bool(shutil.which("chromedriver") and (shutil.which("chromium") or shutil.which("google-chrome")))


def free_port():
    with socket.socket() as it:
        it.bind(("127.0.0.1", 0))
        return it.getsockname()[1]


class Browser:
    """One window of a browser."""

    def __init__(self, width, height, is_dark=False):
        self.width, self.height, self.is_dark = width, height, is_dark

    def __enter__(self):
        self.base = f"http://127.0.0.1:{free_port()}"
        port = self.base.rsplit(":", 1)[1]
        quiet = {"stdout": subprocess.DEVNULL, "stderr": subprocess.DEVNULL}
        self.driver = subprocess.Popen(["chromedriver", f"--port={port}"], **quiet)
        self.wait(self.is_ready, "the driver")
        args = ["--headless=new", "--no-sandbox", "--disable-gpu", "--disable-dev-shm-usage"]
        args.append(f"--window-size={self.width},{self.height}")
        if self.is_dark:
            args.append("--blink-settings=preferredColorScheme=0")
        binary = shutil.which("chromium") or shutil.which("google-chrome")
        options = {"browserName": "chrome", "goog:chromeOptions": {"args": args, "binary": binary}}
        self.session = self.send("POST", "/session", {"capabilities": {"alwaysMatch": options}})["sessionId"]
        return self

    def __exit__(self, *fault):
        try:
            self.send("DELETE", f"/session/{self.session}")
        finally:
            self.driver.terminate()
            self.driver.wait()

    def is_ready(self):
        try:
            return self.send("GET", "/status")["ready"]
        except OSError:
            return False

    def send(self, method, path, value=None):
        data = None if value is None and method != "POST" else json.dumps(value or {}).encode()
        asked = urllib.request.Request(
            self.base + path, data, {"Content-Type": "application/json"}, method=method
        )
        try:
            with urllib.request.urlopen(asked, timeout=60) as answer:
                return json.load(answer)["value"]
        except urllib.error.HTTPError as fault:
            raise AssertionError(json.load(fault)["value"]["message"]) from fault

    def wait(self, holds, what):
        """Waits until something holds, and returns it."""
        until = time.monotonic() + PATIENCE
        while time.monotonic() < until:
            found = holds()
            if found:
                return found
            time.sleep(0.05)
        raise AssertionError(f"waited in vain for {what}")

    def of_session(self, method, path, value=None):
        return self.send(method, f"/session/{self.session}{path}", value)

    def open(self, address):
        self.of_session("POST", "/url", {"url": address})

    def run(self, script, *args):
        return self.of_session("POST", "/execute/sync", {"script": script, "args": list(args)})

    def find(self, selector):
        return self.of_session("POST", "/element", {"using": "css selector", "value": selector})[ELEMENT]

    def find_text(self, selector, part):
        """The first element of a selector that has a part in its text."""
        found = self.of_session("POST", "/elements", {"using": "css selector", "value": selector})
        return next((it[ELEMENT] for it in found if part in self.text(it[ELEMENT])), None)

    def click_text(self, selector, part):
        """Clicks the first element of a selector that has a part in its text, as soon as it is there. The
        page may draw it anew between the look and the click, so a stale one is looked for again."""

        def clicks():
            try:
                element = self.find_text(selector, part)
                if element:
                    self.click(element)
                return element
            except AssertionError as fault:
                if "stale element" not in str(fault):
                    raise
                return None

        self.wait(clicks, part)

    def text(self, element):
        return self.of_session("GET", f"/element/{element}/text")

    def click(self, element):
        self.of_session("POST", f"/element/{element}/click", {})

    def press(self, *keys):
        """Presses keys, each by its name or as it is."""
        actions = [
            {"type": kind, "value": KEYS.get(key, key)} for key in keys for kind in ("keyDown", "keyUp")
        ]
        self.of_session("POST", "/actions", {"actions": [{"type": "key", "id": "keys", "actions": actions}]})

    def new_tab(self):
        handle = self.of_session("POST", "/window/new", {"type": "tab"})["handle"]
        self.of_session("POST", "/window", {"handle": handle})
        return handle

    def tabs(self):
        return self.of_session("GET", "/window/handles")

    def go_to_tab(self, handle):
        self.of_session("POST", "/window", {"handle": handle})

    def picture(self, path):
        with open(path, "wb") as it:
            it.write(base64.b64decode(self.of_session("GET", "/screenshot")))
