"""What each example of `EXAMPLES` is to print where one call of the outside fails, by the rules of docs/FORMATS.md."""

import dataclasses

from examples import Example, Outcome

NO_SCRIPT = Outcome(3, b"", b"mdserve: script could not be read\n")

NO_CLOCK = Outcome(3, b"", b"mdserve: clock could not be read\n")


@dataclasses.dataclass
class Failing:
    """An example, what is printed where each call of its tree fails, and whether it asks for the script and the clock."""

    name: str
    tree: list = dataclasses.field(default_factory=list)
    script: bool = False
    clock: bool = False

    def __post_init__(self):
        self.example = Example(self.name)


def failed(out, *err):
    return Outcome(3, out, b"".join(line + b"\n" for line in err))


def failing_search():
    """The folder is listed and its four files are read."""
    plan, fault = b"docs/plan.json\0", b"docs/list.json: not a JSON object"
    return [
        failed(b"", b"docs: could not be listed"),
        failed(plan, b"docs/budget.csv: could not be read", fault),
        failed(plan, b"docs/list.json: could not be read"),
        failed(b"", fault, b"docs/plan.json: could not be read"),
        failed(plan, fault, rb"docs/two\nlines.txt: could not be read"),
    ]


def failing_attributes():
    """Each of five files is found, and each but the absent one is read."""
    fault, absent = b"bad.json: wrong kind of value for kMDItemTitle", b"no.json: not found"
    unread = {name: name + b".json: could not be read" for name in (b"bad", b"y", b"no")}
    both = b"t\0t"
    return [
        *[failed(both, unread[b"bad"], absent, fault)] * 2,
        *[failed(b"t", fault, unread[b"y"], absent, fault)] * 2,
        failed(both, fault, unread[b"no"], fault),
        *[failed(b"t", fault, absent, unread[b"y"], fault)] * 2,
        *[failed(both, fault, absent, unread[b"bad"])] * 2,
    ]


def failing_imports():
    """Files are found and read; what is no file is listed, and three of the four files below it are read."""
    first, even, line, scan = [
        b"a.txt: 10 attributes\n",
        b"t/even.csv: 13 attributes\n",
        b"t/u/new\\nline.txt: 10 attributes\n",
        b"t/v.pdf: 9 attributes\n",
    ]
    below, fault, absent = even + line + scan, b"t/odd.csv: record 3 has another number of fields", b"no: not found"
    last = below + first
    return [
        *[failed(last, b"a.txt: could not be read", fault, absent)] * 2,
        failed(first + first, b"t: could not be read", absent),
        failed(first + first, b"t: could not be listed", absent),
        failed(first + line + scan + first, b"t/even.csv: could not be read", fault, absent),
        failed(first + last, b"t/odd.csv: could not be read", absent),
        failed(first + even + scan + first, fault, rb"t/u/new\nline.txt: could not be read", absent),
        failed(first + last, fault, b"no: could not be read"),
        failed(first + last, fault, b"no: could not be listed"),
        failed(first + last, fault, absent, b"none: could not be read"),
        failed(first + last, fault, absent, b"none: could not be listed"),
        *[failed(first + below, fault, absent, b"a.txt: could not be read")] * 2,
    ]


def failing_script(wanted):
    """Each of four files is found, and those that are there are read."""
    first, none, put, folder = wanted.err.splitlines()
    unread = b"docs/list.json: could not be read"
    return [
        *[failed(wanted.out, unread, none, put, folder)] * 2,
        failed(wanted.out, first, b"none.txt: could not be read", put, folder),
        failed(wanted.out, first, none, put, b"docs: could not be read"),
        *[failed(wanted.out.replace(b"committed 5 1", b"closed 5"), *wanted.err.splitlines(), b"a.txt: could not be read")] * 2,
    ]


SCRIPT = Example("imports/files-with-faults-and-absent-ones")

EXAMPLES = [
    Failing("searches/by-a-name-and-a-text", failing_search(), clock=True),
    Failing("mdls/raw-files-with-faults", failing_attributes()),
    Failing("mdimport/files-and-folders", failing_imports()),
    Failing("mdimport/the-importers"),
    Failing("mdimport/the-attributes"),
    Failing(SCRIPT.name, failing_script(SCRIPT.wanted), script=True, clock=True),
    Failing("generated-runs/ten-files"),
    Failing("refused-words/no-word"),
]
