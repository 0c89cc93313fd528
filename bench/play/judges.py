"""Compares who judges goals: a page, the program `goal` and oracle.py: python3 judges.py UNIPLAY GOAL [GOALFILE SCRIPT ..]

Of each exercise and each of its scripts (or of those that are named) a page is made of the script's calls, and the script is played
in it, in Chromium. `goal` and oracle.py have to say the same of the script; and of the page's own script, in which each step has a
line, all three have to name the same first line that isn't met, or to say `met`. What a page can't play is told: it ends with a
trim, and has at most 20,000 worlds."""

import importlib.machinery
import importlib.util
import json
import pathlib
import shutil
import subprocess
import sys
import tempfile

sys.dont_write_bytecode = True
HERE = pathlib.Path(__file__).resolve().parent
TOP = HERE.parent.parent
sys.path[:0] = [str(HERE), str(HERE.parent / "oracle"), str(HERE.parent / "lab"), str(HERE.parent / "viewer")]
import oracle  # noqa: E402
from viewer import Browser  # noqa: E402

loader = importlib.machinery.SourceFileLoader("pages", str(HERE / "pages"))
pages = importlib.util.module_from_spec(importlib.util.spec_from_loader("pages", loader))
loader.exec_module(pages)

JUDGED = """(() => {
  document.getElementById("script").value = SCRIPT;
  document.getElementById("paste").click();
  const lines = [...document.querySelectorAll("#wishes li")].map((one) => one.textContent);
  return JSON.stringify({ said: document.getElementById("pasted").textContent, script: document.getElementById("script").value, lines });
})()"""


def calls_of(script):
    """A script of the accepted calls of the first era alone, one after another."""
    lines = [line for line in script.splitlines() if line and not line.startswith("#")]
    world, calls = None, []
    for line in lines:
        words = line.split(" ")
        if world is None:
            header = oracle.header_of(line)
            world = oracle.World(oracle.OBJECTS[header[1]], header[2], header[3])
            continue
        said = oracle.command_lines(world, words)
        if said and said[0].startswith("trimmed"):
            break
        if words[0] == "call" and said[0].startswith("called"):
            calls += [line, f"finish {words[1]}"]
    return "\n".join([f"universal 1 {header[1]} {header[2]} {header[3]}", *calls]) + "\n"


def page_of(uniplay, goal, script):
    """A page of the script's calls, or why there is none."""
    run = subprocess.run([uniplay, "--goal", str(goal)], input=calls_of(script), capture_output=True, text=True, timeout=300)
    if run.returncode:
        return None, run.stderr.strip()
    data = run.stdout.split('id="data">\n')[1].split("</script>")[0]
    return pages.PAGE.format(title="A script", ways="", text="", goal="", data=pages.folded(json.loads(data))), ""


def judged(shown, goal):
    """What the page tells of its goal, in the words of the program `goal`."""
    lines = goal.read_text().split("\n")
    numbers = [number for number, line in enumerate(lines, 1) if line != ""]
    for number, one in zip(numbers, shown["lines"]):
        if one.startswith("\u25cb"):
            return f"line {number} is not met: {lines[number - 1]}"
    return "met"


def judged_by_programs(program, goal, script):
    """What `goal` and oracle.py say of a script."""
    said = subprocess.run([program, str(goal)], input=script, capture_output=True, text=True)
    return (said.stdout or said.stderr).strip(), oracle.told(oracle.judgement, goal.read_text(), script.encode())[0].strip()


def up_to_trim(script):
    """A script without the steps after its last trim that is answered: there a page ends."""
    lines = script.splitlines()
    last = max((k for k, line in enumerate(lines) if line == "trim"), default=len(lines))
    return "\n".join(line for k, line in enumerate(lines) if k <= last or not line.startswith(("step", "finish"))) + "\n"


def main(uniplay, goal_program, *named):
    exercises = TOP / "crates/cases/data/exercises"
    pairs = list(zip(named[::2], named[1::2])) or [
        (goal, goal.with_suffix(end)) for goal in sorted(exercises.glob("*.goal")) for end in (".script", ".beside")]
    browser, differ, unplayed = Browser(), 0, 0
    with tempfile.TemporaryDirectory() as folder:
        for name in ("viewer.js", "play.js"):
            shutil.copy(TOP / "docs/pages" / name, folder)
        for goal, file in ((pathlib.Path(one), pathlib.Path(other)) for one, other in pairs):
            script = up_to_trim(file.read_text())
            by_goal, by_oracle = judged_by_programs(goal_program, goal, script)
            is_same = by_goal == by_oracle
            text, why = page_of(uniplay, goal, script)
            by_page = f"plays none: {why}"
            if text:
                (pathlib.Path(folder) / "page.html").write_text(text)
                browser.open(pathlib.Path(folder) / "page.html", 0)
                shown = browser.found(JUDGED.replace("SCRIPT", json.dumps(script)))
                by_page = judged(shown, goal) if shown["said"].startswith("Played") else f"plays none: {shown['said']}"
            if by_page.startswith("plays none"):
                unplayed += 1
            else:
                is_same = is_same and {by_page} == set(judged_by_programs(goal_program, goal, shown["script"]))
            differ += not is_same
            if named or not is_same or by_page.startswith("plays none"):
                print(f"{'' if is_same else 'DIFFERS: '}{file.name}: goal and oracle.py say {by_goal}; the page {by_page}")
    browser.close()
    print(f"{len(pairs)} scripts, {unplayed} not played in a page, {differ} differ")
    return 1 if differ else 0


if __name__ == "__main__":
    if len(sys.argv) < 3:
        sys.exit(__doc__)
    sys.exit(main(*sys.argv[1:]))
