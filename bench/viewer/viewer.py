"""Compares what pages show in Chromium with the traces that they are made of: python3 viewer.py PAGE TRACE .."""

import base64
import json
import os
import shutil
import subprocess
import sys
import tempfile

WINDOW = 60
FIELDS = ["inv", "seq", "before", "after", "state", "reply"]

# the lines of the course's pseudo-code
LINES = dict(zip("AHSGTRNLVBWUF", [1, 4, 5, 6, 7, 8, 9, 10, 11, 12, 13, 14, 15]))

# What a page shows: the sentence, the titles of the events in the lanes, the texts of the arrays and of the cells, with
# a star where a place has changed, and what each process has spent.
SHOWN = """
JSON.stringify({
  hash: location.hash,
  sentence: document.getElementById("sentence").textContent,
  place: document.getElementById("place").textContent.split(" (")[0],
  titles: [...document.querySelectorAll("#lanes tr:first-child td")].map((cell) => cell.title),
  arrays: [...document.querySelectorAll("#entries > *")].map((entry) => entry.textContent),
  cells: Object.fromEntries([...document.querySelectorAll("#cells .box")].map((box) => [box.querySelector("b").textContent,
    Object.fromEntries([...box.querySelectorAll("dt")].map((name) => [name.textContent, name.nextSibling.textContent]))])),
  spent: [...document.querySelectorAll("#processes .box")]
    .map((box) => [...box.children].slice(1, 4).map((one) => one.textContent)),
})
"""

# A slide to a place, and whether paper has the table alone.
SLIDE = """
(() => {
  const slider = document.getElementById("slider");
  slider.value = PLACE;
  slider.dispatchEvent(new Event("input"));
  return "0";
})()
"""
PRINTED = """
JSON.stringify(["main", "table.rows"].map((name) => getComputedStyle(document.querySelector(name)).display !== "none"))
"""

# The buttons that do what a key does.
BUTTONS = {"redo": "ArrowRight", "undo": "ArrowLeft", "first": "Home", "last": "End"}

# The cells of the table's rows.
ROWS = """
JSON.stringify([...document.querySelectorAll("table.rows tr")].slice(1)
  .map((row) => [...row.cells].map((cell) => cell.textContent.trim())))
"""


class Browser:
    """A headless Chromium, spoken to by its pipe."""

    def __init__(self):
        self.folder = tempfile.mkdtemp()
        to_read, self.to_browser = os.pipe()
        self.from_browser, to_write = os.pipe()
        os.set_inheritable(to_read, True)
        os.set_inheritable(to_write, True)
        program = next(filter(None, map(shutil.which, ["chromium", "chromium-browser", "google-chrome"])), None)
        if program is None:
            sys.exit("there is no Chromium here")
        words = ["--headless=new", "--no-sandbox", "--disable-gpu", "--remote-debugging-pipe"]
        # the browser reads from its file 3 and writes to its file 4
        self.process = subprocess.Popen(
            ["sh", "-c", f'exec 3<&{to_read} 4>&{to_write}; exec "$@"', "sh", program, *words, f"--user-data-dir={self.folder}", "about:blank"],
            pass_fds=[to_read, to_write], stdout=subprocess.DEVNULL, stderr=subprocess.DEVNULL)
        os.close(to_read)
        os.close(to_write)
        self.rest, self.number, self.events = b"", 0, []
        self.session = None
        page = self.ask("Target.createTarget", {"url": "data:,"})["targetId"]
        self.session = self.ask("Target.attachToTarget", {"targetId": page, "flatten": True})["sessionId"]
        self.ask("Page.enable")
        self.ask("Page.setLifecycleEventsEnabled", {"enabled": True})

    def take(self):
        """The next message of the browser."""
        while b"\0" not in self.rest:
            piece = os.read(self.from_browser, 65536)
            if not piece:
                sys.exit("the browser has gone")
            self.rest += piece
        message, self.rest = self.rest.split(b"\0", 1)
        return json.loads(message)

    def ask(self, method, params=None):
        """The result of a command."""
        self.number += 1
        message = {"id": self.number, "method": method, "params": params or {}}
        if self.session:
            message["sessionId"] = self.session
        os.write(self.to_browser, json.dumps(message).encode() + b"\0")
        while True:
            got = self.take()
            if got.get("id") == self.number:
                if "error" in got:
                    sys.exit(f"{method}: {got['error']}")
                return got["result"]
            self.events.append(got)

    def open(self, page, event):
        """Opens a page at an event, anew, and waits until it has loaded."""
        self.events = []
        loader = self.ask("Page.navigate", {"url": f"file://{os.path.abspath(page)}?{self.number}#e={event}"})["loaderId"]
        def has_loaded(got):
            params = got.get("params", {})
            return got.get("method") == "Page.lifecycleEvent" and (params["loaderId"], params["name"]) == (loader, "load")
        while not any(map(has_loaded, self.events)):
            self.events.append(self.take())

    def found(self, expression):
        """What is found in the page."""
        result = self.ask("Runtime.evaluate", {"expression": expression, "returnByValue": True})
        if "exceptionDetails" in result:
            sys.exit(f"the page shows nothing: {result['exceptionDetails']}")
        return json.loads(result["result"]["value"])

    def shown(self):
        """What the page shows."""
        return self.found(SHOWN)

    def rows(self, page):
        """The rows of the table that a page shows where no script runs."""
        self.ask("Emulation.setScriptExecutionDisabled", {"value": True})
        self.open(page, 0)
        rows = self.found(ROWS)
        self.ask("Emulation.setScriptExecutionDisabled", {"value": False})
        return rows

    def press(self, key, modifiers=0):
        """Presses a key; of the modifiers, Alt is 1."""
        for kind in ["keyDown", "keyUp"]:
            self.ask("Input.dispatchKeyEvent", {"type": kind, "key": key, "modifiers": modifiers})

    def click(self, name):
        """Clicks on the middle of an element, after scrolling to it."""
        box = self.found(f"""(() => {{
          const one = document.getElementById("{name}");
          one.scrollIntoView({{ block: "center" }});
          const box = one.getBoundingClientRect();
          return JSON.stringify({{ x: box.x + box.width / 2, y: box.y + box.height / 2 }});
        }})()""")
        for kind in ["mousePressed", "mouseReleased"]:
            self.ask("Input.dispatchMouseEvent", {"type": kind, **box, "button": "left", "clickCount": 1})

    def shoot(self, path, width, height):
        """Writes a picture of the page at this size."""
        self.ask("Emulation.setDeviceMetricsOverride", {"width": width, "height": height, "deviceScaleFactor": 1, "mobile": False})
        data = self.ask("Page.captureScreenshot")["data"]
        with open(path, "wb") as file:
            file.write(base64.b64decode(data))

    def shoot_all(self, page, folder):
        """Pictures of a page where it stands, as wide as a desk and as a hand, by day and by night."""
        name = os.path.splitext(os.path.basename(page))[0]
        for scheme in ["light", "dark"]:
            self.ask("Emulation.setEmulatedMedia", {"features": [{"name": "prefers-color-scheme", "value": scheme}]})
            for width in [1000, 390]:
                self.shoot(os.path.join(folder, f"{name}-{width}-{scheme}.png"), width, 1400)
        self.ask("Emulation.clearDeviceMetricsOverride")

    def close(self):
        self.process.kill()
        self.process.wait()
        shutil.rmtree(self.folder, ignore_errors=True)


def start_of(run):
    """How many events come before the first that is told, how many processes there are then, and the memory, if told."""
    start = run.get("start", {"events": 0, "processes": run["processes"], "memory": None})
    return start["events"], start["processes"], start["memory"]


def memory_after(lines, event):
    """The places of the memory after an event, with their texts, and which of them the event changed."""
    def anchor(processes, number, state):
        places = {f"{array}[{p}]": "anchor" for array in ["announce", "head"] for p in range(processes)}
        return {**places, "anchor.seq": str(number), "anchor.state": state, "anchor.reply": "none"}

    run = lines[0]
    (_, processes, memory), changed = start_of(run), set()
    places = anchor(processes, run["number"], run["state"])
    if memory is not None:
        places = {held["place"]: held["content"] for held in memory}
    for line in lines:
        if line.get("event", event + 1) > event:
            continue
        changed = set()
        if line["what"] in ("trim", "reshape"):
            processes = processes if line["processes"] is None else line["processes"]
            places = anchor(processes, line["number"], line["state"])
        else:
            changed = {change["place"] for change in line["changes"]}
            places |= {change["place"]: change["after"] for change in line["changes"]}
    return processes, places, changed


def places_of(lines, rows):
    """The places of a walk, the lines but notes before the header: the latest event, the script's line, the sentence."""
    event = start_of(lines[0])[0] - 1
    places = [(lines[0], (event, None), rows[0][4])]
    for line, row in zip(lines[1:], rows[1:]):
        if line["what"] != "heading":
            event = line.get("event", event)
            places.append((line, (event, line["line"]), wanted_sentence(line, row[4])))
    return places


def number(event, line):
    """The number of an event, and that of a line in the script."""
    return f"{event}" if line is None else f"{event}, line {line}"


def spent_after(lines, processes, event):
    """Of each process its latest call, and what that has spent of its steps and turns, and has left."""
    spent, count = {}, start_of(lines[0])[1]
    for line in lines:
        if line.get("event", event + 1) > event:
            continue
        if line["what"] == "reshape":
            count = line["processes"]
            spent = {p: of for p, of in spent.items() if p < count}
        if line["what"] in ("call", "step"):
            steps, turns, most = line.get("steps", 0), line.get("turns", 0), (10 * count + 12, count + 1)
            returned = "" if line.get("reply") is None else f" has returned {line['reply']}"
            spent[line["process"]] = [
                f"call {line['call']}{returned}",
                f"steps {steps} of {most[0]}, {most[0] - steps} left",
                f"turns {turns} of {most[1]}, {most[1] - turns} left",
            ]
    return [spent.get(p, []) for p in range(processes)]


def wanted(places, at):
    """What a page has to show at a place: the titles of events, arrays, cells, what is spent, and the sentence."""
    lines, (event, _) = [line for line, _, _ in places], places[at][1]
    start = max(1, min(at - WINDOW // 2, len(places) - WINDOW))
    titles = [f"{number(*of)}: {sentence}" for _, of, sentence in places[start:start + WINDOW]]
    processes, memory, changed = memory_after(lines, event)
    if "event" not in lines[at]:
        changed = set()
    def text(place, content):
        return f"{content} *" if place in changed else content
    arrays = [text(f"{array}[{p}]", f"{array}[{p}] → {memory[f'{array}[{p}]']}")
              for array in ["announce", "head"] for p in range(processes)]
    names = {place.rsplit(".", 1)[0] for place in memory if "[" not in place}
    empty = {"seq": "0"}
    cells = {name: {field: text(f"{name}.{field}", memory.get(f"{name}.{field}", empty.get(field, "?")))
                    for field in FIELDS if (name, field) != ("anchor", "inv") or "anchor.inv" in memory} for name in names}
    return {"titles": titles, "arrays": arrays, "cells": cells, "spent": spent_after(lines, processes, event),
            "sentence": places[at][2]}


def wanted_sentence(line, words):
    """The sentence at a place: that of the table's row, after the algorithm's line, and what it is to the calls."""
    if "process" not in line or line["what"] not in ("call", "step"):
        return words
    kind, process = line.get("kind"), line["process"]
    place = f", line {LINES[kind]}, {kind}:" if kind else ""
    meaning = " A turn begins." if kind == "T" and line["next"] == "R" else ""
    if kind == "L" and line["changed"]:
        other = int(line["after"].split(".")[0])
        meaning = " Its call takes effect." if other == process else f" P{process} does the call of P{other}."
    return f"P{process}{place} {words}{meaning}"


def wanted_rows(lines):
    """The rows that a page has to show where no script runs: empty ones for what is no event."""
    def counted(count, one):
        return f"{count} {one}" if count == 1 else f"{count} {one}s"
    def row(line):
        if "event" not in line:
            return [""] * 6
        if line["what"] in ("trim", "reshape"):
            return [str(line["event"])] + [""] * 5
        changed = "\n".join(f"{change['place']}: {change['before']} -> {change['after']}" for change in line["changes"])
        stage = ""
        if line["what"] == "step":
            reply = "" if line["reply"] is None else f", reply {line['reply']}"
            stage = f"{counted(line['steps'], 'step')}, {counted(line['turns'], 'turn')}{reply}"
        return [str(line["event"]), f"P{line['process']}", line["call"], line.get("kind", ""), changed, stage]
    return [row(line) for line in lines]


def led_to(places, at, key):
    """The place that a key leads to."""
    last = len(places) - 1
    after = {"ArrowRight": min(at + 1, last), "ArrowLeft": max(at - 1, 0), "Home": 0, "End": last}
    if key in after:
        return after[key]
    def process(line):
        return line["process"] if line["what"] in ("call", "step") else None
    def is_wanted(k):
        line = places[k][0]
        if key == "n":
            return line.get("kind") == "L" and line["changed"]
        return process(line) is not None and process(line) == process(places[at][0])
    ways = range(at - 1, -1, -1) if key == "k" else range(at + 1, last + 1)
    return next(filter(is_wanted, ways), at)


def compare(browser, page, trace):
    """How many things differ between a page and its trace."""
    with open(trace, encoding="utf-8") as file:
        lines = [json.loads(line) for line in file]
    differ = 0

    def check(what, got, want):
        nonlocal differ
        if got != want:
            differ += 1
            print(f"{os.path.basename(page)}: {what}: shows {got}\n    and not {want}")

    rows = browser.rows(page)
    check("how many rows", len(rows), len(lines))
    for row, want in zip(rows, wanted_rows(lines)):
        check(f"row {want[0]}", row[:4] + row[5:], want)
    places = places_of(lines, rows)
    last, first = len(places) - 1, start_of(lines[0])[0]

    def check_place(what, at):
        shown, event = browser.shown(), places[at][1][0]
        for part, want in wanted(places, at).items():
            check(f"{what}, place {at}, {part}", shown[part], want)
        check(f"{what}, address", shown["hash"], f"#e={event}")
        check(f"{what}, number", shown["place"], f"event {number(*places[at][1])}" if at else f"before event {first}")

    for event in sorted({first + part * (places[-1][1][0] - first) // 4 for part in range(5)}):
        browser.open(page, event)
        at = next(k for k, (line, _, _) in enumerate(places) if line.get("event") == event)
        check_place(f"event {event}", at)
        for key in ["j", "k", "n", "ArrowLeft", "ArrowRight", "Home", "n", "End", "ArrowLeft"]:
            at = led_to(places, at, key)
            browser.press(key)
            check_place(key, at)
        for key in ["ArrowLeft", "ArrowRight", "ArrowDown"]:
            browser.press(key, 0 if key == "ArrowDown" else 1)
            check_place(f"{key}, left alone", at)
        for name, key in BUTTONS.items():
            at = led_to(places, at, key)
            browser.click(name)
            check_place(f"button {name}", at)
        browser.found(SLIDE.replace("PLACE", str(last // 2)))
        check_place("slider", last // 2)
        at = last // 2 + 1
        going = [line["process"] for line, _, _ in places[at:] if line["what"] in ("call", "step")]
        if going:
            browser.click(f"step{going[0]}")
            check_place("the button of who goes next", at)
    browser.ask("Emulation.setEmulatedMedia", {"media": "print"})
    check("on paper", browser.found(PRINTED), [False, True])
    browser.ask("Emulation.setEmulatedMedia", {"media": ""})
    if os.environ.get("SHOTS"):
        browser.open(page, last // 2)
        browser.shoot_all(page, os.environ["SHOTS"])
    print(f"{os.path.basename(page)}: {last} places, {differ} differ")
    return differ


def main():
    browser = Browser()
    try:
        pairs = list(zip(sys.argv[1::2], sys.argv[2::2]))
        differ = sum(compare(browser, page, trace) for page, trace in pairs)
    finally:
        browser.close()
    sys.exit(1 if differ else 0)


if __name__ == "__main__":
    main()
