"""Plays the laboratory and the page of histories in Chromium, by clicks and keys: python3 browser.py

Each flaw has to be found, in how many seconds is told, and nothing may break the construction. A student's function that
throws, loops, changes its argument or answers something else has to be told so by name. A run has to come back by undo, by
reload and by its link; keys have to do what buttons do. With SHOTS=FOLDER there are pictures: at 1,300 and at 390 pixels, in
light and in dark."""

import json
import os
import pathlib
import sys
import time

HERE = pathlib.Path(__file__).resolve().parent
sys.path.insert(0, str(HERE.parent / "viewer"))
from viewer import Browser  # noqa: E402

PAGE = HERE.parent.parent / "docs/pages/lab.html"
HISTORIES = HERE.parent.parent / "docs/pages/history.html"
FLAWS = ["never-helps", "helps-blindly", "number-first", "last-wins", "newest-reply"]

# Functions of students, and what the page has to say of each.
FAULTS = {
    "({ start: [], apply(s, c, x) { s.push(x); return [s, 'ok']; } })":
        "`apply` changes its argument at `enq 5` in the state []",
    "({ start: [], apply() { throw Error('not yet'); } })": "`apply` throws at `enq 5` in the state []: not yet.",
    "({ start: [], apply() { for (;;); } })": "Ended after a second without an answer: `apply` at `enq 5` in the state []",
    "({ start: [], apply() { return 5; } })": "`apply` returns 5 at `enq 5` in the state []",
    "({ start: [], apply(s) { return [s, Math.random()]; } })": "answers `enq 5` in the state [] differently",
    "({ start: [], apply(s) { return [new Map(), 1]; } })": "isn't made of numbers, texts, arrays and plain objects",
    "({ start: [] })": "The object has no function `apply`.",
    "({ start: [, apply })": "The object isn't understood",
}


class Page(Browser):
    """A page of a folder, with what is asked of it."""

    def go(self, page, end=""):
        """Opens a page with this end of its address, anew, and waits until it has loaded and shown itself."""
        self.events = []
        self.number += 1
        loader = self.ask("Page.navigate", {"url": f"file://{os.path.abspath(page)}?{self.number}{end}"})["loaderId"]
        def has_loaded(got):
            params = got.get("params", {})
            return got.get("method") == "Page.lifecycleEvent" and (params["loaderId"], params["name"]) == (loader, "load")
        while not any(map(has_loaded, self.events)):
            self.events.append(self.take())
        self.settle()

    def run(self, expression):
        """The value of an expression in the page, once it is there."""
        result = self.ask("Runtime.evaluate", {"expression": expression, "returnByValue": True, "awaitPromise": True})
        if "exceptionDetails" in result:
            sys.exit(f"the page fails at {expression}: {json.dumps(result['exceptionDetails'])[:500]}")
        return result["result"].get("value")

    def settle(self):
        """Waits until all that was asked for is shown."""
        self.run("doing")

    def text(self, name):
        self.settle()
        return self.run(f"document.getElementById({json.dumps(name)}).textContent")

    def set(self, name, value, event=None):
        """Puts a text into a field, and tells the page of it."""
        tell = f"one.dispatchEvent(new Event({json.dumps(event)}))" if event else ""
        one = f"const one = document.getElementById({json.dumps(name)})"
        self.run(f"(() => {{ {one}; one.value = {json.dumps(value)}; {tell}; }})()")
        self.settle()

    def click_on(self, selector):
        self.run(f"document.querySelector({json.dumps(selector)}).click()")

    def press_all(self, keys):
        for key in keys:
            self.press(key)
            self.settle()


class Checks:
    """What was checked."""

    def __init__(self):
        self.good, self.bad = 0, 0

    def that(self, what, is_so, said=""):
        if is_so:
            self.good += 1
        else:
            self.bad += 1
            print(f"NOT SO: {what}: {said}", flush=True)


def wait_for(page, name, words, seconds):
    """What an element says once it begins with one of these words, and after how long."""
    began = time.monotonic()
    while time.monotonic() - began < seconds:
        said = page.text(name)
        if said.startswith(words):
            return said, time.monotonic() - began
        time.sleep(0.05)
    return page.text(name), time.monotonic() - began


def find_flaws(page, checks):
    """Each flaw is found, and none in the construction."""
    for flaw in [*FLAWS, "none"]:
        page.go(PAGE)
        page.set("flaw", flaw, "change")
        page.click("find")
        said, seconds = wait_for(page, "found", ("Broken", "Nothing"), 30)
        verdict = page.text("verdict")
        checks.that(f"{flaw} is found", said.startswith("Broken" if flaw != "none" else "Nothing breaks it"), said)
        checks.that(f"{flaw} is shown", flaw == "none" or verdict.startswith(("No order", "Not wait-free")), verdict)
        print(f"{flaw}: {seconds:.1f} s. {said}", flush=True)


def tell_faults(page, checks):
    """What is wrong with a student's function is told by name."""
    for text, wanted in FAULTS.items():
        page.go(PAGE)
        page.set("object", text, "input")
        page.click("start")
        page.settle()
        if page.run("document.getElementById('whole0')?.disabled === false"):
            page.click("whole0")
        said, _ = wait_for(page, "verdict", ("`", "The object", "Ended"), 10)
        checks.that(f"the fault of {text}", wanted in said, said)


def break_by_hand(page, checks):
    """A student breaks `never-helps`: P1 stops before line 10 again and again, and P0 makes a call."""
    page.go(PAGE)
    page.set("flaw", "never-helps", "change")
    for _ in range(10):
        page.click("step1")
        page.settle()
    for _ in range(4):
        page.click("whole0")
        page.settle()
        for _ in range(8):
            page.click("step1")
            page.settle()
    said = page.text("verdict")
    checks.that("never-helps is broken by hand", said.startswith("Not wait-free"), said)


def foresee(page, checks):
    """The page says what can still come: two logs at first, and one after the step that decided."""
    page.go(PAGE, "#object=queue&calls=enq+6/enq+5&flaw=none&run=")
    page.click_on("#foresight summary")
    said, _ = wait_for(page, "outlook", ("Open",), 20)
    checks.that("two logs can come", "from here: 2." in said, said)
    for run, wanted in {"0x10.1x10": "Critical: each next step decides.", "0x10.1x11": "The last step has decided it."}.items():
        page.go(PAGE, f"#object=queue&calls=enq+6/enq+5&flaw=none&run={run}")
        page.click_on("#foresight summary")
        said, _ = wait_for(page, "outlook", ("Critical", "Open", "The last", "Decided"), 20)
        checks.that(wanted, said.startswith(wanted), said)


def lose_nothing(page, checks):
    """A run comes back by undo, reload and link, and keys do what buttons do."""
    page.go(PAGE)
    page.press_all("00110f")
    place, run = page.text("place"), page.run("JSON.stringify(now.run)")
    checks.that("keys play", place.startswith("event ") and len(json.loads(run)) > 10, run)
    page.press_all("r")
    checks.that("r plays something else", page.run("JSON.stringify(now.run)") != run)
    page.press_all("u")
    checks.that("undo brings the run back", page.run("JSON.stringify(now.run)") == run)
    page.press_all("y")
    checks.that("redo brings the other back", page.run("JSON.stringify(now.run)") != run)
    page.press_all(["u", "Home", "ArrowRight", "ArrowRight", "ArrowLeft"])
    checks.that("arrows walk", page.text("place").startswith("event 1 of"), page.text("place"))
    page.press_all(["End"])
    time.sleep(0.4)
    end, verdict = page.run("location.hash"), page.text("verdict")
    page.go(PAGE, end)
    checks.that("a link is the run", (page.run("JSON.stringify(now.run)"), page.text("verdict")) == (run, verdict), end)
    page.run("document.getElementById('keys').checked = false")
    page.press_all("0r")
    checks.that("keys can be switched off", page.run("JSON.stringify(now.run)") == run)
    page.go(PAGE, "#object=sofa&run=0")
    checks.that("a bad link is told", "sofa" in page.text("verdict"), page.text("verdict"))


def paste(page, checks):
    """The script of a run of six processes brings it back; what isn't played is told by line."""
    page.go(PAGE, "#object=book&calls=deposit+1+5/deposit+2+7/move+1+2+3/total/withdraw+1+2/total&flaw=none&run=")
    page.press_all("rr")
    run, script = page.run("JSON.stringify(now.run)"), page.run("document.getElementById('script').value")
    page.go(PAGE)
    page.set("script", script)
    page.click("paste")
    page.settle()
    checks.that("a script brings the run back", page.run("JSON.stringify(now.run)") == run, page.text("pasted"))
    page.press_all("u")
    for text, wanted in {
        "": "The script has no line.",
        "# so\r\nuniversal 1 queue 7 4\r\n": "Line 2: this page plays scripts that begin with \u201cuniversal 1 OBJECT N K\u201d, N from 1 to 6.",
        "universal 1 queue 2 4\ncall 0 deq\ntrim": "Line 3: \u201ctrim\u201d isn't played here, where there is one era.",
        "universal 1 queue 2 4\nstep 1": "Line 2: P1 has no call pending; commands that are refused aren't played here. Was it made with another construction? Choose that in 3, and play again.",
        "universal 1 queue 2 4\ncall 0 put": "Scripts know no call `put` of a queue.",
    }.items():
        had = page.run("JSON.stringify(now.run)")
        page.set("script", text)
        page.click("paste")
        checks.that(f"told of {text!r}", page.text("pasted") == wanted and page.run("JSON.stringify(now.run)") == had, page.text("pasted"))


def judge_histories(page, checks):
    """The page of histories judges its examples, and what is pasted."""
    page.go(HISTORIES)
    checks.that("a wrong queue", "Line 10: A deq → 2." in page.text("verdict"), page.text("verdict"))
    for name, wanted in {"a queue that is right": "Linearizable", "lines of the judge": "Linearizable",
                         "unidraw --history": "Linearizable", "Jepsen's maps": "Not linearizable. Line 5",
                         "begin and return times": "Linearizable"}.items():
        page.set("history", name, "change")
        checks.that(name, page.text("verdict").startswith(wanted), page.text("verdict"))
    page.set("text", "A enq 1\nA deq")
    page.click("judge-it")
    checks.that("no history", page.text("verdict") == "Line 2: A has a call pending.", page.text("verdict"))
    page.set("object", "({ start: 0, apply() { for (;;); } })", "input")
    page.set("text", "A enq 1\nA -> ok")
    page.click("judge-it")
    said, _ = wait_for(page, "verdict", ("Ended",), 10)
    checks.that("a function that loops", "`apply` at `enq 1` in the state 0" in said, said)


# What is shown in the pictures.
SHOWN = {
    "lab": (PAGE, ""),
    "lab-broken": (PAGE, "#object=queue&calls=enq+5;enq+7;deq/deq&flaw=newest-reply&run=0x21.1x23.0x5"),
    "history": (HISTORIES, ""),
}


def shoot(page, folder):
    """Pictures of both pages, as wide as a desk and as a hand, by day and by night."""
    for name, (file, end) in SHOWN.items():
        for scheme in ["light", "dark"]:
            page.ask("Emulation.setEmulatedMedia", {"features": [{"name": "prefers-color-scheme", "value": scheme}]})
            for width, height in [(1300, 950), (390, 2600)]:
                size = {"width": width, "height": height, "deviceScaleFactor": 1, "mobile": False}
                page.ask("Emulation.setDeviceMetricsOverride", size)
                page.go(file, end)
                wide = page.run("document.documentElement.scrollWidth")
                print(f"{name} at {width}, {scheme}: {wide} wide")
                page.shoot(os.path.join(folder, f"{name}-{width}-{scheme}.png"), width, height)
    page.ask("Emulation.clearDeviceMetricsOverride")


def main(kind=Page):
    page, checks = kind(), Checks()
    try:
        for part in (find_flaws, tell_faults, break_by_hand, foresee, lose_nothing, paste, judge_histories):
            part(page, checks)
        if os.environ.get("SHOTS"):
            shoot(page, os.environ["SHOTS"])
    finally:
        page.close()
    print(f"{checks.good} checks are so, {checks.bad} are not")
    sys.exit(1 if checks.bad else 0)


if __name__ == "__main__":
    main()
