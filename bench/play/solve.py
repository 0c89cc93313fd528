"""Solves the exercises by clicks on their pages, in Chromium, and compares what each page tells with what the programs tell:
python3 solve.py GOAL UNIBENCH [PAGES [EXERCISES]]

GOAL and UNIBENCH are the programs that were built. PAGES is the folder of the pages, as `bench/play/pages UNIPLAY PAGES`
makes them (without one docs/pages, where that of the first exercise isn't), and EXERCISES that of the goals. After each
word of a solution the page and `goal` have to name the same first line that isn't met; at the end both have to say `met`,
which the page has not said before, and `unibench replay` has to answer the script as the page has it.
With SHOTS=FOLDER there are pictures of each page: at 1,000 and at 390 pixels, in light and in dark."""

import os
import pathlib
import subprocess
import sys

HERE = pathlib.Path(__file__).resolve().parent
sys.path.insert(0, str(HERE.parent / "viewer"))
from viewer import Browser  # noqa: E402

# Which buttons are clicked: `0*9` is the button of P0, nine times, `f0` the one that finishes its call; `log`, `trim` and
# `call-0` are those of commands.
SOLUTIONS = {
    "read_whose_turn": "3*2 0 f0 0 f0 0 f0",
    "read_missing_reply": "0*11 log 0",
    "read_order": "1*2 0 f0",
    "make_zero_turns": "1*2 0 f0 f1",
    "make_question_mark": "0*9",
    "make_zero_does_two": "0 f0 2*2 0 f0",
    "adversary_worst": "0*11 1*15 f0 0*2 f1",
    "adversary_lost_turn": "0*10 1*10 0 f1",
    "adversary_pending_era": "1*2 0 f0 0 f0 call-0 trim f1 trim call-0",
    "break_busy": "0 call-0 step-1 step-2",
    "break_trim": "2 1 trim f1 trim f2 trim",
    "break_taken_twice": "0 f0 0 1 0*9 1*9 0 1 f0 f1",
}

SHOWN = """
JSON.stringify({
  met: document.getElementById("met").textContent,
  lines: [...document.querySelectorAll("#wishes li")].map((one) => one.textContent),
  script: document.getElementById("script").value,
  answers: document.getElementById("answers").value,
})
"""


def clicks(solution):
    """For each word the names of the elements that are clicked."""
    for word in solution.split():
        button, _, times = word.partition("*")
        name = {"f": f"finish{button[1:]}", "l": "asklog"}.get(button[0], button)
        yield [f"step{name}" if name.isdigit() else name] * int(times or 1)


def told(program, words, script):
    """What a program writes for a script."""
    return subprocess.run([program, *words], input=script, capture_output=True, text=True).stdout


def judged(shown, goal):
    """What the page tells of its goal, in the words of the program `goal`."""
    lines = pathlib.Path(goal).read_text().split("\n")
    numbers = [number for number, line in enumerate(lines, 1) if line != ""]
    for number, one in zip(numbers, shown["lines"]):
        if one.startswith("\u25cb"):
            return f"line {number} is not met: {lines[number - 1]}\n"
    return "met\n"


def solve(browser, page, goal, programs):
    """Plays a solution; what differs, where something does."""
    judge, unibench = programs
    browser.open(page, 0)
    count = 0
    for names in clicks(SOLUTIONS[page.stem]):
        if browser.found(SHOWN)["met"] == "met":
            return f"it says met after {count} clicks"
        for name in names:
            browser.click(name)
        count += len(names)
        shown = browser.found(SHOWN)
        if judged(shown, goal) != told(judge, [goal], shown["script"]):
            return f"after {count} clicks it says {judged(shown, goal)}"
    if shown["met"] != "met" or told(judge, [goal], shown["script"]) != "met\n":
        return f"after {count} clicks it says {shown['met']}"
    if told(unibench, ["replay"], shown["script"]) != shown["answers"]:
        return f"the script is answered otherwise: {shown['script']}"
    if os.environ.get("SHOTS"):
        browser.shoot_all(page, os.environ["SHOTS"])
    print(f"{page.stem}: met after {count} clicks, as goal and unibench replay say")
    return None


def main(judge, unibench, pages=HERE.parent.parent / "docs/pages", exercises=HERE.parent.parent / "crates/cases/data/exercises"):
    differ = 0
    browser = Browser()
    try:
        for name in SOLUTIONS:
            page, goal = pathlib.Path(pages) / f"{name}.html", str(pathlib.Path(exercises) / f"{name}.goal")
            fault = solve(browser, page, goal, (judge, unibench)) if page.exists() else "there is no page"
            if fault is not None:
                differ += 1
                print(f"{name}: {fault}")
    finally:
        browser.close()
    print(f"{len(SOLUTIONS) - differ} of {len(SOLUTIONS)} exercises are met")
    sys.exit(1 if differ else 0)


if __name__ == "__main__":
    if len(sys.argv) < 3:
        sys.exit(__doc__)
    main(*sys.argv[1:])
