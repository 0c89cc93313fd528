"""Plays the laboratory in Firefox, by clicks and keys: python3 firefox.py

It checks what browser.py checks in Chromium, by the same functions. Firefox is asked over its own remote protocol,
Marionette, so that no driver is needed. It needs firefox-esr, and that nobody else uses port 2828."""

import json
import os
import shutil
import socket
import subprocess
import sys
import tempfile
import time

from browser import Page, main

# What Marionette calls keys.
KEYS = {"Home": "\ue011", "End": "\ue010", "ArrowLeft": "\ue012", "ArrowRight": "\ue014", " ": " ", "Enter": "\ue006"}
ELEMENT = "element-6066-11e4-a52e-4f735466cecf"


class Firefox(Page):
    """A page in Firefox, asked as one in Chromium is."""

    def __init__(self):
        self.number, self.last = 0, 0
        self.folder = tempfile.mkdtemp()
        words = ["firefox-esr", "--headless", "--marionette", "--no-remote", "--profile", self.folder]
        self.browser = subprocess.Popen(words, stdout=subprocess.DEVNULL, stderr=subprocess.DEVNULL)
        self.line = self.connected()
        self.heard()
        self.ask("WebDriver:NewSession", {"capabilities": {"alwaysMatch": {}}})
        self.ask("WebDriver:SetTimeouts", {"script": 120_000})

    @staticmethod
    def connected():
        for _ in range(600):
            try:
                return socket.create_connection(("127.0.0.1", 2828), timeout=120)
            except OSError:
                time.sleep(0.1)
        sys.exit("Firefox does not answer")

    def heard(self):
        """The next message: its length, a colon, and JSON."""
        length = b""
        while not length.endswith(b":"):
            length += self.line.recv(1)
        text, wanted = b"", int(length[:-1])
        while len(text) < wanted:
            text += self.line.recv(wanted - len(text))
        return json.loads(text)

    def ask(self, method, params=None):
        self.last += 1
        text = json.dumps([0, self.last, method, params or {}])
        self.line.sendall(f"{len(text.encode())}:{text}".encode())
        _, _, error, result = self.heard()
        if error:
            raise RuntimeError(f"{method} fails: {error['message'][:500]}")
        return result

    def go(self, page, end=""):
        self.number += 1
        self.ask("WebDriver:Navigate", {"url": f"file://{os.path.abspath(page)}?{self.number}{end}"})
        # it answers before the page before it is gone
        time.sleep(0.3)
        self.settle()

    def run(self, expression):
        # only a script of the page sees what the page's own names are; it hands its answer over in an attribute
        script = """
          const [expression, done] = arguments;
          const [page, asked] = [document.documentElement, document.createElement("script")];
          const tell = (isGood, value) =>
            `document.documentElement.setAttribute("data-asked", JSON.stringify([${isGood}, ${value}]))`;
          page.removeAttribute("data-asked");
          asked.textContent = `(async () => (${expression}))()
            .then((value) => ${tell("true", "value ?? null")}, (error) => ${tell("false", "String(error)")});`;
          document.head.append(asked);
          asked.remove();
          const told = () => page.getAttribute("data-asked");
          const look = () => told() === null ? setTimeout(look, 5) : done(told());
          look();
        """
        params = {"script": script, "args": [expression]}
        is_good, value = json.loads(self.ask("WebDriver:ExecuteAsyncScript", params)["value"])
        if not is_good:
            sys.exit(f"the page fails at {expression}: {value}")
        return value

    def found(self, selector):
        return self.ask("WebDriver:FindElement", {"using": "css selector", "value": selector})["value"][ELEMENT]

    def click_on(self, selector):
        self.ask("WebDriver:ElementClick", {"id": self.found(selector)})

    def click(self, name):
        self.click_on(f"#{name}")

    def press(self, key):
        key = KEYS.get(key, key)
        actions = [{"type": kind, "value": key} for kind in ("keyDown", "keyUp")]
        self.ask("WebDriver:PerformActions", {"actions": [{"type": "key", "id": "keys", "actions": actions}]})

    def close(self):
        self.ask("Marionette:Quit", {"flags": ["eForceQuit"]})
        self.browser.wait(20)
        shutil.rmtree(self.folder, ignore_errors=True)


if __name__ == "__main__":
    main(Firefox)
