"""The programs that the benches run."""

import os
import pathlib
import subprocess

CRATES = pathlib.Path(__file__).resolve().parent.parent / "crates"


def program(name):
    """The path of a program: the one that an environment variable of its name in capitals names, or the one that was
    built last, which is built where there is none."""
    named = os.environ.get(name.upper())
    if named:
        return named
    built = CRATES / name / "out" / name
    if not built.exists():
        subprocess.run(["rt", "run", "--", "--help"], cwd=CRATES / name, check=True, stdout=subprocess.DEVNULL)
    return str(built)
