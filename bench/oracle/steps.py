"""Compares the steps that oracle.py tells with those of `unidraw --steps`: python3 steps.py UNIBENCH UNIDRAW

It takes 240 scripts that `unibench random` draws, over the four objects and 1 to 5 processes. Left out are the steps that settle a
state and a reply, which oracle.py doesn't tell."""

import pathlib
import re
import subprocess
import sys

sys.dont_write_bytecode = True
sys.path.insert(0, str(pathlib.Path(__file__).resolve().parent))
import oracle  # noqa: E402


def told(unidraw, script):
    """The events of processes, each without its number; a line that was broken is one again."""
    lines = []
    for line in subprocess.run([unidraw, "--steps"], input=script, capture_output=True, text=True).stdout.split("\n"):
        found = re.match(r"[0-9]+  (P[0-9].*)$", line)
        if found:
            lines.append(found[1])
        elif line.startswith("        ") and lines and not lines[-1].endswith("."):
            lines[-1] += " " + line.strip()
    return [line for line in lines if not re.match(r"P[0-9]+  V", line)]


def main(unibench, unidraw):
    steps, differ = 0, 0
    plans = [(name, count, seed) for name in oracle.OBJECTS for count in (1, 2, 3, 5) for seed in range(1, 16)]
    for name, count, seed in plans:
        words = ["--object", name, "--processes", str(count), "--row", "6", "--events", "150", "--seed", str(seed)]
        script = subprocess.run([unibench, "random", *words], capture_output=True, text=True).stdout
        wanted, had = told(unidraw, script), oracle.played(script.encode())[0].told
        steps += len(wanted)
        if wanted != had:
            differ += 1
            print(f"{' '.join(words)}: {next((pair for pair in zip(wanted, had) if pair[0] != pair[1]), 'one has more')}")
    print(f"{len(plans)} scripts, {steps} steps, {differ} scripts differ")
    return 1 if differ or not steps else 0


if __name__ == "__main__":
    if len(sys.argv) != 3:
        sys.exit(__doc__)
    sys.exit(main(*sys.argv[1:]))
