"""Data files of crates/md_examples: tables of calls, as docs/TESTING.md says under "Tables"."""

import pathlib

FOLDER = pathlib.Path(__file__).resolve().parents[2] / "crates" / "md_examples" / "data" / "tables"

PLAIN = {"\t": r"\t", "\n": r"\n", "\r": r"\r", "\0": r"\0", "\\": r"\\"}


def character(c):
    if c in PLAIN:
        return PLAIN[c]
    # What no editor shows, or joins with its neighbours, is written by its number.
    return c if " " <= c <= "~" or (c.isalnum() and ord(c) < 0x250) else f"\\u{{{ord(c):x}}}"


def field(value):
    """A text, bytes or a number, as a field of a row."""
    if isinstance(value, bytes):
        return "".join(character(chr(b)) if b < 0x80 else f"\\x{b:02x}" for b in value)
    return "".join(character(c) for c in str(value))


class Written(str):
    """A field that has its escapes already."""


def line(row):
    text = "\t".join(value if isinstance(value, Written) else field(value) for value in row)
    return "\\x23" + text[1:] if text.startswith("#") else text


def table(name, script, columns, notes, rows):
    """The name and the text of a table that this script writes. The notes are lines on where its wanted values come from."""
    head = [f"# {columns}", *(f"# {note}" for note in notes), f"# Written by {script}."]
    return name, "".join(text + "\n" for text in [*head, *(line(row) for row in rows)])


def write(tables):
    for name, text in tables:
        (FOLDER / f"{name}.txt").write_text(text, encoding="utf-8", newline="")
        print(f"{name}: {sum(not row.startswith('#') for row in text.splitlines())} rows, {len(text.encode())} bytes")
