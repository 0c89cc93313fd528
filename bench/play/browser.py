"""Plays the pages of the course and the exercises in Chromium, by clicks, keys, links and scripts: python3 browser.py

A run has to come back by Undo after a key has replaced it, by a reload, by a link and by its script; letters can be switched off;
what can still come is told at each click; an exercise has its name and text, and shows its goal's lines once an answer is said;
what one clicks and what it does are seen together at 1280 x 720, and nothing scrolls sideways at 390; a page that is saved as one
file opens alone; one without JavaScript says what it would be. With SHOTS=FOLDER there are pictures of each page: at 1,300 and at
390 pixels, in light and in dark."""

import json
import os
import pathlib
import sys
import tempfile
import time

HERE = pathlib.Path(__file__).resolve().parent
sys.path[:0] = [str(HERE.parent / "viewer"), str(HERE.parent / "lab")]
from browser import Checks, Page  # noqa: E402

PAGES = HERE.parent.parent / "docs/pages"
RUN = "JSON.stringify(run.slice(1).map(({ process, line, edge }) => [process, line, edge && edge.kind]))"


class Game(Page):
    """A page to play."""

    def settle(self):
        """All is shown at once."""

    def said(self, name):
        return self.run(f"document.getElementById({json.dumps(name)}).textContent")

    def state(self):
        """The run, and the place in it."""
        return self.run(RUN), self.run("at")


def lose_nothing(page, checks):
    """A run comes back by undo, reload, link and script."""
    page.go(PAGES / "helped.html")
    page.press_all("00011f")
    played = page.state()
    checks.that("keys play", len(json.loads(played[0])) > 10, played)
    for key, what in {"r": "a random run", "s": "one that stops", "w": "the worst"}.items():
        page.press_all(key)
        other = page.state()
        checks.that(f"{what} replaces it", other != played, other)
        page.press_all("u")
        checks.that(f"undo brings it back after {what}", page.state() == played, page.state())
        page.click("redo")
        checks.that(f"redo brings {what} back", page.state() == other, page.state())
        page.press_all("u")
    page.press_all(["Home", "1"])
    checks.that("another choice is made at the start", page.said("place").startswith("event 0"), page.said("place"))
    page.press_all("u")
    page.press_all(["End"])
    checks.that("undo brings back what stood after that place", page.state() == played, page.state())
    page.press_all(["ArrowLeft", "ArrowLeft"])
    time.sleep(0.3)
    end, before = page.run("location.hash"), page.state()
    page.go(PAGES / "helped.html", end)
    checks.that("a link is the run and its place", page.state() == before, (end, page.state()))
    page.press_all(["End"])
    script = page.run("document.getElementById('script').value")
    page.go(PAGES / "helped.html")
    page.set("script", script)
    page.click("paste")
    pasted = json.loads(page.state()[0])
    checks.that("a script brings the run back", pasted[: len(json.loads(played[0]))] == json.loads(played[0]), pasted)
    for text, wanted in {
        "": "The script has no line.",
        "universal 1 queue 3 8": "Line 1: this page plays scripts that begin with “universal 1 queue 2 8”.",
        "# a note\r\nuniversal 1 queue 2 8\r\ncall 0 enq 7\r\n": "Line 3: here the next call of P0 is “enq 6”.",
        "universal 1 queue 2 8\nreshape 3": "Line 2: “reshape 3” isn't played here.",
    }.items():
        had = page.state()
        page.set("script", text)
        page.click("paste")
        checks.that(f"told of {text!r}", page.said("pasted") == wanted and page.state() == had, page.said("pasted"))
    page.run("document.getElementById('letters').checked = false")
    had = page.state()
    page.press_all("0r1w")
    checks.that("letters and digits can be switched off", page.state() == had, page.state())
    page.press_all(["Home"])
    checks.that("and the other keys stay", page.said("place") == "before the first event", page.said("place"))
    page.go(PAGES / "helped.html", "#run=0x3.7x2")
    checks.that("a bad address is told", "“7x2”" in page.said("sentence"), page.said("sentence"))


def foresee(page, checks):
    """What can still come, at each click."""
    for run, wanted in {
        "0": "From here 2 logs can still come.", "0x10.1x10": "this world is critical", "0x10.1x11": "This step decided the log.",
        "0x10.1x12": "The log is decided.",
    }.items():
        page.go(PAGES / "helped.html", f"#run={run}")
        checks.that(f"{run}: {wanted}", wanted in page.said("outlook"), page.said("outlook"))
    for file in sorted(PAGES.glob("*.html")):
        if "viewer.js" in file.read_text():
            page.go(file)
            checks.that(f"{file.name} tells what can come", page.said("outlook") != "", page.said("outlook"))


def ask(page, checks):
    """An exercise asks first, and neither shows nor tells its answer."""
    titles = []
    for file in sorted(PAGES.glob("*.html")):
        if '"goal":"#' not in file.read_text():
            continue
        page.go(file)
        titles.append(page.run("document.title"))
        seen = page.run("JSON.stringify(['asked', 'answer', 'worst', 'random'].map((one) => document.getElementById(one).checkVisibility()))")
        checks.that(f"{file.name} hides its lines", seen == "[false,true,false,false]", seen)
        page.press_all("wrs")
        checks.that(f"{file.name} has no key that solves it", page.state()[1] == 0, page.state())
        page.click("say")
        checks.that(f"{file.name} wants an answer", page.said("said") == "Write what you expect first.", page.said("said"))
        page.set("own", "it can")
        page.click("say")
        shown = page.run("document.getElementById('asked').checkVisibility()")
        checks.that(f"{file.name} shows its lines then", shown and page.said("said") == "You said: it can", page.said("said"))
    checks.that("each exercise has a name of its own", len(set(titles)) == 12 and all(one.startswith("Exercise ") for one in titles), titles)
    page.go(PAGES / "break_taken_twice.html")
    for name in ["finish0", "step0", "step1", *["step0"] * 9, *["step1"] * 9, "step0", "step1", "finish1", "finish0"]:
        page.click(name)
    checks.that("who returns first doesn't matter", page.said("met") == "met", page.said("met"))


def see(page, checks):
    """What one clicks and what it does stand beside each other; nothing scrolls sideways on a phone."""
    inside = """JSON.stringify(["steppers", "sentence", "outlook", "lanes", "code", "entries"].filter((name) => {
      const box = document.getElementById(name).getBoundingClientRect();
      return box.top < 0 || box.bottom > innerHeight || box.right > innerWidth;
    }))"""
    for file in sorted(PAGES.glob("*.html")):
        if "viewer.js" not in file.read_text():
            continue
        page.ask("Emulation.setDeviceMetricsOverride", {"width": 1280, "height": 720, "deviceScaleFactor": 1, "mobile": False})
        page.go(file, "#run=0x5")
        checks.that(f"{file.name} at 1280 x 720", page.run(inside) == "[]", page.run(inside))
        page.ask("Emulation.setDeviceMetricsOverride", {"width": 390, "height": 844, "deviceScaleFactor": 1, "mobile": False})
        wide = page.run("document.documentElement.scrollWidth")
        checks.that(f"{file.name} at 390", wide <= 390, wide)
    page.ask("Emulation.clearDeviceMetricsOverride")
    page.go(PAGES / "helped.html", "#run=0x3")
    told = page.run("document.getElementById('slider').getAttribute('aria-valuetext')")
    checks.that("the slider says where it is", told.startswith("event 2 (the last is 2): P0, line 4, H:"), told)


def save(page, checks):
    """A page that is saved as one file opens alone, and one without JavaScript says what it would be."""
    page.go(PAGES / "read_order.html")
    text = page.run("pageAlone(document.title, JSON.stringify(graph))")
    with tempfile.TemporaryDirectory() as folder:
        file = pathlib.Path(folder) / "alone.html"
        file.write_text(text)
        page.go(file)
        page.press_all("110f")
        checks.that("a saved page plays", page.said("met") == "met", page.said("met"))
        checks.that("a saved page has its text", "First to return" in page.run("document.body.innerText"), "")
    page.ask("Emulation.setScriptExecutionDisabled", {"value": True})
    page.go(PAGES / "read_order.html")
    page.ask("Emulation.setScriptExecutionDisabled", {"value": False})
    said = page.run("document.body.innerText")
    checks.that("a page without JavaScript", "With JavaScript you would choose" in said and "Process 1 announces" in said, said)


def shoot(page, folder):
    """Pictures of each page, as wide as a desk and as a hand, by day and by night."""
    for file in sorted(PAGES.glob("*.html")):
        if "viewer.js" not in file.read_text():
            continue
        for scheme in ["light", "dark"]:
            page.ask("Emulation.setEmulatedMedia", {"features": [{"name": "prefers-color-scheme", "value": scheme}]})
            for width, height in [(1300, 950), (390, 2600)]:
                size = {"width": width, "height": height, "deviceScaleFactor": 1, "mobile": False}
                page.ask("Emulation.setDeviceMetricsOverride", size)
                page.go(file, "#run=0x12.1x9")
                page.shoot(os.path.join(folder, f"{file.stem}-{width}-{scheme}.png"), width, height)
    page.ask("Emulation.clearDeviceMetricsOverride")


def main():
    page, checks = Game(), Checks()
    try:
        for part in (lose_nothing, foresee, ask, see, save):
            part(page, checks)
        if os.environ.get("SHOTS"):
            shoot(page, os.environ["SHOTS"])
    finally:
        page.close()
    print(f"{checks.good} checks are so, {checks.bad} are not")
    sys.exit(1 if checks.bad else 0)


if __name__ == "__main__":
    main()
