"""Makes each call of the system fail in turn, in the program that is shipped, over a folder and pipes.

Each run of the examples of outside.py has to end as it would where one call of the tree, the script or the clock failed,
or where out or err took a prefix of its text, or as the example wants: some calls, as those that only tell how long a
file is, may fail. Each end of a failing tree, script and clock, and status 4, has to come.
"""

import pathlib
import tempfile

import refusals
from examples import TOP
from outside import EXAMPLES, NO_CLOCK, NO_SCRIPT


def is_cut(ended, wanted):
    """Whether a write failed: err has a prefix of its text, and where that is not whole, out has nothing."""
    whole = ended.err == wanted.err
    return ended.status == 4 and wanted.err.startswith(ended.err) and (wanted.out.startswith(ended.out) if whole else not ended.out)


def results_of(shim, program, failing):
    example = failing.example
    command = [program, *example.words]
    due = {*failing.tree, *[NO_SCRIPT] * failing.script, *[NO_CLOCK] * failing.clock}
    with tempfile.TemporaryDirectory() as folder:
        example.write_files(pathlib.Path(folder))
        options = {"input": example.script, "cwd": folder}
        whole, calls = shim.counted(command, **options)
        yield None if whole == example.wanted else f"{failing.name}: {whole}"
        seen, cut = set(), 0
        for number, ended in shim.each(command, "system", calls.system, **options):
            seen.add(ended)
            cut += is_cut(ended, example.wanted)
            fits = ended in due or ended == example.wanted or is_cut(ended, example.wanted)
            yield None if fits else f"{failing.name}, call {number} of the system fails: {ended}"
        for outcome in due - seen:
            yield f"{failing.name}: no call of the system that fails gives {outcome}"
        yield None if cut else f"{failing.name}: no run ends with status 4"


def results():
    """A fault or None for each call that fails."""
    program = TOP / "crates/mdserve/out/mdserve"
    with refusals.Shim() as shim:
        for failing in EXAMPLES:
            yield from results_of(shim, program, failing)
