"""Lets `rt lib` take what `rt ci` has proved on this machine: python3 proved.py CRATE..

The kit keeps each library that `rt ci` proved, in whatever checkout, under a sum of all that the proof read: the kit, HANDLES,
the crate's line of crates.txt, its sources, and the libraries below it as they were built. Of each crate below those that are
named, this takes the library that is kept under the sum of the sources as they stand, and writes the sum by which `rt lib` knows
it. A library that has this sum already stays as it is. What isn't kept, `rt lib` proves. An older kit, as 13b, keeps nothing: it
says so, and `rt lib` proves all.
"""

import importlib.machinery
import importlib.util
import pathlib
import shutil
import subprocess
import sys

TOP = pathlib.Path(__file__).resolve().parent.parent
kit = pathlib.Path(subprocess.run(["rt", "doc"], capture_output=True, text=True, check=True).stdout.strip()).parent
loader = importlib.machinery.SourceFileLoader("rt", str(kit / "bin" / "rt"))
rt = importlib.util.module_from_spec(importlib.util.spec_from_loader("rt", loader))
loader.exec_module(rt)  # the kit's own code

if not hasattr(rt, "Kept"):
    print("        this kit keeps nothing of rt ci: rt lib proves what has changed")
    sys.exit()

rt.Crate.allowed = rt.handles_of(str(TOP))
every = rt.crates_of(str(TOP))  # lowest first
wanted = {below for crate in every if crate.name in sys.argv[1:] for below in crate.below()}
rt.rtlib.lock(wanted)  # no gate works in them until this ends
kept = rt.Kept(every)
for crate in every:
    if crate not in wanted:
        continue
    library = pathlib.Path(crate.rlib).parent
    if not crate.is_built():
        shutil.rmtree(library, ignore_errors=True)
        if kept.give(crate, False, kept.key(crate)):
            (library / "stamp").write_text(crate.stamp())
            print(f"        {crate.name}: as rt ci has proved it")
    kept.is_built(crate)
