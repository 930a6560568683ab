"""Makes each call of the tree, the script, the clock, out and err fail in turn, in memory.

The examples of outside.py are written with a header that has one call of one object fail, and run by `md_examples`: once
for each call that is reached, and once with a call that fails after the last.
"""

import pathlib
import subprocess
import sys
import tempfile

from examples import TOP
from outside import EXAMPLES, NO_CLOCK, NO_SCRIPT

# The bytes that a call of the script gives, and that a call of out or err takes, at most.
PIECE = 16


def variants(failing):
    """Each object and call that fails, the lines of a header for it, and what is wanted."""
    example = failing.example
    script_calls = (len(example.script) + PIECE - 1) // PIECE + 1 if failing.script else 0
    by_object = {
        "tree": failing.tree,
        "script": [NO_SCRIPT] * script_calls,
        "clock": [NO_CLOCK] * failing.clock,
    }
    for name, wanted in by_object.items():
        for call, outcome in enumerate([*wanted, example.wanted]):
            yield f"{name}-{call}", f"gives script {PIECE}\nfails {name} {call}\n", outcome
    for stream in ("out", "err"):
        yield f"{stream}-each", f"takes {stream} {PIECE}\nfails {stream} each\n", example.wanted


def results():
    """A fault or None for each call that fails."""
    crate = TOP / "crates/md_examples"
    program = crate / "out/md_examples"
    # It builds the program; where that is run says nothing here.
    subprocess.run(["rt", "run"], cwd=crate, stdout=subprocess.DEVNULL, stderr=subprocess.DEVNULL)
    if not program.exists():
        sys.exit("md_examples could not be built")
    with tempfile.TemporaryDirectory() as folder:
        # The program reads tables first, and goes on to the examples where there are none.
        (pathlib.Path(folder) / "tables").mkdir()
        names = []
        for failing in EXAMPLES:
            topic = pathlib.Path(folder) / "examples" / failing.name.replace("/", "-")
            topic.mkdir(parents=True)
            for name, settings, wanted in variants(failing):
                (topic / f"{name}.txt").write_bytes(failing.example.failing(settings, wanted))
                names.append(f"{topic.name}/{name}")
        ran = subprocess.run([program], cwd=folder, stdout=subprocess.PIPE, text=True)
        passed = set(ran.stdout.splitlines())
        for name in names:
            yield None if f"{name} ok" in passed else f"{name}: not as wanted"
        if not {f"{name} ok" for name in names} <= passed:
            print(ran.stdout)
