"""Refuses memory to the program that is shipped: worked examples and one run of each command, one call after the other.

Each run has to end with status 5 and nothing printed, or as the example wants; and some have to end with status 5.
"""

import pathlib
import tempfile

import refusals
from examples import TOP, Example, Outcome

EXAMPLES = [
    "readme/first-run",
    "parts/of-two-hits",
    "searches/of-400-files-counted",
    "searches/by-a-name-and-a-text",
    "mdls/raw-values",
    "mdls/two-files",
    "mdimport/files-and-folders",
    "mdimport/the-importers",
    "mdimport/the-attributes",
    "imports/files-with-faults-and-absent-ones",
    "clients/shows-of-imported-files",
    "generated-runs/ten-files",
    "refused-words/no-word",
    "refused-scripts/an-unknown-word",
    "refused-searches/65-groups",
]

REFUSED = (5, b"", b"")


# Two workers on two puts of a path: the commits come in either order.
WORKERS = [b"live", b"--workers", b"2"]
TWO_PUTS = b"put a.txt one\nput a.txt two\n"
TICKETS = b"1 ticket 1 a.txt\n2 ticket 2 a.txt\n"
IN_ORDER = Outcome(0, TICKETS + b"3 committed 1 1\n4 committed 2 2\n", b"")
LATE = Outcome(0, TICKETS + b"3 committed 2 1\n4 superseded 1 2\n", b"")


def refusals_of(shim, name, command, wanted, **options):
    """The run in which no call fails, and then each in which one does. `wanted` has the ends that are right without one."""
    whole, calls = shim.counted(command, **options)
    yield None if whole in wanted else f"{name}: {whole}"
    refused = 0
    for number, ended in shim.each(command, "memory", calls.memory, **options):
        refused += ended == REFUSED
        yield None if ended in (REFUSED, *wanted) else f"{name}, call {number} of malloc or realloc refused: {ended}"
    yield None if refused else f"{name}: no run ends with status 5"


def results():
    """A fault or None for each call that is refused."""
    program = TOP / "crates/mdserve/out/mdserve"
    with refusals.Shim() as shim, tempfile.TemporaryDirectory() as top:
        for number, example in enumerate(map(Example, EXAMPLES)):
            folder = pathlib.Path(top) / str(number)
            folder.mkdir()
            example.write_files(folder)
            command = [program, *example.words]
            yield from refusals_of(shim, example.name, command, [example.wanted], input=example.script, cwd=folder)
        # A program without workers does not understand the words.
        if shim.run([program, *WORKERS], {}, input=b"").status == 0:
            yield from refusals_of(shim, "two workers", [program, *WORKERS], [IN_ORDER, LATE], input=TWO_PUTS)
