#!/usr/bin/env python3
"""Writes the tables of names, paths and kinds of files, by rules that are written here anew."""

import random
import re

import rows

SCRIPT = "bench/oracles/values.py"

NAMES = ["kMDItemTitle", "_", "__a9", "9a", "a-b", "a b", " a", "a\n", "", "\u00e9", "a\u00e9", "a\u0661", "\uff41", "A.b"]

PATHS = [
    "", ".", "a.txt", "a//b/./c/", "./a/...", "/a", "../x", "a/../b", "a\0b", "stra\u00dfe/\u00e9", "/", "//", "./", "./.", "..",
    "...", "a/..", "a/..b", "a/b..", ".a", "a/./", "\0", "a\n/b", " ", " /a", "a\\..\\b", "~", "a/ ./b",
]

LONG = [
    (rows.Written(r"\{4096 a}"), rows.Written(r"\{4096 a} / \{4096 a}")),
    (rows.Written(r"\{4097 a}"), "bad"),
    (rows.Written(r"\{4096 /}a"), "bad"),
    (rows.Written(r"\{8192 ./}a"), "a / a"),
    (rows.Written(r"b\{8192 /}a"), "b/a / a"),
    (rows.Written(r"\{2048 a/}"), rows.Written(r"\{2047 a/}a / a")),
    (rows.Written(r"\{2048 a/}aa"), "bad"),
    (rows.Written(r"\{2048 \xc3\xa9}"), rows.Written(r"\{2048 \xc3\xa9} / \{2048 \xc3\xa9}")),
    (rows.Written(r"\{2048 \xc3\xa9}a"), "bad"),
]

KINDS = [
    ("a.txt", "text"), ("b/.TxT", "text"), ("a.JSON", "json"), ("\u00e9.cSv", "csv"), ("a.json.csv", "csv"), ("a.txt/b", "other"),
    ("atxt", "other"), ("txt", "other"), ("a.json.gz", "other"), ("", "other"), ("a.tx\u0165", "other"), ("a.\uff54xt", "other"),
]


def name_rows():
    draw = random.Random(4)
    texts = NAMES + [chr(c) for c in range(256)] + ["a" + chr(c) for c in range(256)]
    texts += ["".join(draw.choice("aZ_09-\u00e9") for _ in range(draw.randrange(1, 6))) for _ in range(300)]
    for text in texts:
        yield text, text if re.fullmatch("[A-Za-z_][A-Za-z0-9_]*", text) else "bad"


def path(text):
    """The components of a path, or None where it is refused."""
    parts = text.split("/")
    if text.startswith("/") or ".." in parts or "\0" in text:
        return None
    kept = [part for part in parts if part not in ("", ".")]
    return kept if len("/".join(kept).encode()) <= 4096 else None


def drawn_path(draw):
    return "/".join(draw.choice(["", ".", "a", "b", "..", "a.txt", "\u00e9", " ", "...", "ab"]) for _ in range(draw.randrange(1, 6)))


def path_rows():
    draw = random.Random(5)
    yield from LONG
    for text in PATHS + [drawn_path(draw) for _ in range(1500)]:
        parts = path(text)
        yield text, "bad" if parts is None else f"{'/'.join(parts)} / {parts[-1] if parts else ''}"


def folder_rows():
    draw = random.Random(6)
    chosen = [("docs/a.txt", "docs"), ("docs2/a.txt", "docs"), ("docs", "docs"), ("docs", ""), ("", ""), ("", "docs"), ("a/b/c", "a/b")]
    drawn = [(drawn_path(draw), drawn_path(draw)) for _ in range(3000)]
    for text, folder in chosen + drawn:
        parts, above = path(text), path(folder)
        if parts is not None and above is not None:
            inside = not above or (len(above) < len(parts) and parts[: len(above)] == above)
            yield text, folder, "yes" if inside else "no"


def tables():
    source = "The wanted values follow from the rules of docs/FORMATS.md."
    yield rows.table("names", SCRIPT, "text, name or bad", ["The wanted values are those of Python's re."], name_rows())
    yield rows.table("paths", SCRIPT, "text, path and last component with / between them, or bad", [source], path_rows())
    yield rows.table("folders", SCRIPT, "path, folder, whether the path is inside the folder", [source], folder_rows())
    yield rows.table("kinds", SCRIPT, "path, kind", [source], KINDS)


if __name__ == "__main__":
    rows.write(tables())
