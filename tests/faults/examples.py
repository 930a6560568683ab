"""The examples of crates/md_examples, read for runs that fail: docs/TESTING.md has their format."""

import collections
import pathlib
import re

TOP = pathlib.Path(__file__).resolve().parents[2]

FOLDER = TOP / "crates/md_examples/data/examples"

PLAIN = {b"n": b"\n", b"r": b"\r", b"t": b"\t", b"0": b"\0", b"\\": b"\\", b"\n": b""}

ESCAPE = re.compile(rb"\\(?:x([0-9a-f]{2})|\{(\d+) ((?:[^}\\]|\\.)*)\}|([nrt0\\\n]))", re.S)

Outcome = collections.namedtuple("Outcome", "status out err")


def unescaped(text):
    def said(found):
        byte, count, repeated, plain = found.groups()
        if byte:
            return bytes.fromhex(byte.decode())
        return unescaped(repeated) * int(count) if count else PLAIN[plain]

    return ESCAPE.sub(said, text)


class Example:
    """What the program is given: words, files by their paths and a script; and what is wanted of it."""

    def __init__(self, name):
        self.name = name
        self.words, self.files, self.script = [], {}, b""
        wanted = {"out": b"", "err": b"", "status": b"0"}
        head, *sections = re.split(rb"(?m)^-- (.*) --\n", (FOLDER / f"{name}.txt").read_bytes())
        self.text = b"".join([b"# A call that fails.\n", *re.findall(rb"(?m)^(?:clock|folder|changed|size) .*\n", head)])
        self.folders = [line.decode() for line in re.findall(rb"(?m)^folder (.*)\n", head)]
        for title, content in zip(sections[::2], sections[1::2]):
            kind, _, path = title.removesuffix(b" escaped").partition(b" ")
            read = unescaped if title.endswith(b" escaped") else bytes
            if kind == b"words":
                self.words = [read(line) for line in content.removesuffix(b"\n").split(b"\n")] if content else []
            elif kind == b"file":
                self.files[read(path)] = read(content)
            elif kind == b"files":
                numbers, path = path.split(b" ", 1)
                first, last = numbers.split(b"..")
                for number in range(int(first), int(last) + 1):
                    self.files[read(path).replace(b"#", b"%d" % number)] = read(content)
            elif kind == b"script":
                self.script = read(content)
            else:
                wanted[kind.decode()] = read(content)
            if kind not in (b"out", b"err", b"status"):
                self.text += b"-- " + title + b" --\n" + content
        self.wanted = Outcome(int(wanted["status"]), wanted["out"], wanted["err"])

    def write_files(self, folder):
        """Writes the files below a folder."""
        for path in self.folders:
            (folder / path).mkdir(parents=True, exist_ok=True)
        for path, content in self.files.items():
            file = folder / path.decode()
            file.parent.mkdir(parents=True, exist_ok=True)
            file.write_bytes(content)

    def failing(self, settings, wanted):
        """The text of an example that is given the same, under these lines of its header, and of which this is wanted."""
        head, sections = self.text.split(b"\n-- ", 1)
        parts = [head, b"\n", settings.encode(), b"\n-- ", sections]
        for name, text in (("out", wanted.out), ("err", wanted.err), ("status", b"%d" % wanted.status)):
            parts += [b"-- %s escaped --\n" % name.encode(), escaped(text), b"\\\n"]
        return b"".join(parts)


def escaped(text):
    """A text as it stands in a section that ends in `escaped`."""
    return text.replace(b"\\", b"\\\\").replace(b"\0", b"\\0")
