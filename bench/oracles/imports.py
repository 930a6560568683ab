#!/usr/bin/env python3
"""Writes the tables of imports, by Python's json and csv and the rules of docs/FORMATS.md."""

import csv
import io
import json
import math
import pathlib
import random
import re

import rows
import time_forms

SCRIPT = "bench/oracles/imports.py"

FORMATS = pathlib.Path(__file__).resolve().parents[2] / "docs" / "FORMATS.md"

# 2024-03-15 10:00:00 in UTC.
CHANGED = 1_710_496_800

MOST_BYTES = 16_777_216

CONTENT = "kMDItemTextContent"

KINDS = {
    ".txt": ("Plain Text Document", "public.plain-text"),
    ".json": ("JSON Document", "public.json"),
    ".csv": ("Comma-Separated Values Document", "public.comma-separated-values-text"),
}


def schema():
    """The rows of the document's table of attributes: name, type, values, who sets it."""
    for line in FORMATS.read_text().splitlines():
        found = re.fullmatch(r"\| ((?:kMDItem|md_)[\w, ]*) \| (text|number|date|flag) \| (one|many) \| (.*) \|", line)
        if found:
            for name in found[1].split(", "):
                yield name, found[2], found[3], found[4]


SCHEMA = {name: (kind, many == "many", maker == "the file") for name, kind, many, maker in schema()}

FROM_FILES = sorted(name for name, rule in SCHEMA.items() if rule[2])


class Fault(Exception):
    """The first thing that is wrong with a file."""


def shown_value(value):
    if isinstance(value, bool):
        return str(value).lower()
    if isinstance(value, tuple):
        return f"@{value[0]}"
    return f"'{value}" if isinstance(value, str) else str(value)


def shown(attributes):
    return "".join(f"{name}={'|'.join(map(shown_value, values))};" for name, values in sorted(attributes.items()))


def date(name, text, offset):
    moment = time_forms.iso(text, offset)
    if moment is None:
        raise Fault(f"bad date {name}")
    return (moment,)


class Real(float):
    """A number that is written with a `.` or an exponent, or is no whole number of 64 bits."""


def whole(text):
    number = int(text)
    if text == "-0" or not -(2**63) <= number < 2**64:
        return real(text)
    return number


def real(text):
    number = Real(text)
    if math.isinf(number):
        raise ValueError
    return number


def refuse(_):
    raise ValueError


def all_strings(value):
    """All strings that are no keys, members by ascending key."""
    if isinstance(value, str):
        yield value
    for inner in value if isinstance(value, list) else [value[key] for key in sorted(value)] if isinstance(value, dict) else []:
        yield from all_strings(inner)


def whole_characters(value):
    """The value, where no string of it has half a surrogate pair."""
    if any("\ud800" <= c <= "\udfff" for c in json.dumps(value, ensure_ascii=False)):
        raise ValueError
    return value


def members(pairs):
    """The last value of each key; those before it are read too."""
    return dict(whole_characters(pairs))


def read_json(text):
    """The value, or a fault. Python reads halves of surrogate pairs, and numbers of any size; this format does not."""
    try:
        value = json.loads(text, parse_int=whole, parse_float=real, parse_constant=refuse, object_pairs_hook=members)
        return whole_characters(value)
    except (ValueError, RecursionError):
        raise Fault("not json") from None


def json_value(name, value, offset):
    kind = SCHEMA[name][0]
    if not isinstance(value, int if kind == "number" else str) or isinstance(value, bool):
        if kind == "number" and isinstance(value, float):
            raise Fault(f"bad number {name}")
        raise Fault(f"bad kind {name}")
    if kind == "number" and not -(2**63) <= value < 2**63:
        raise Fault(f"bad number {name}")
    return date(name, value, offset) if kind == "date" else value


def json_attributes(text, offset):
    value = read_json(text)
    if not isinstance(value, dict):
        raise Fault("not object")
    attributes = {}
    for name in FROM_FILES:
        given, many = value.get(name), SCHEMA[name][1]
        if isinstance(given, list) and not many:
            raise Fault(f"not single {name}")
        values = [one for one in (given if isinstance(given, list) else [given]) if one is not None]
        if values:
            attributes[name] = [json_value(name, one, offset) for one in values]
    attributes[CONTENT] = [" ".join(all_strings(value))]
    return attributes


def csv_value(name, text, offset):
    kind = SCHEMA[name][0]
    if kind == "date":
        return date(name, text, offset)
    if kind == "text":
        return text
    if not re.fullmatch("-?[0-9]+", text) or not -(2**63) <= int(text) < 2**63:
        raise Fault(f"bad number {name}")
    return int(text)


def csv_attributes(text, offset):
    # The reader of records drops one byte order mark too.
    text = text.removeprefix("\ufeff")
    records = [record for record in csv.reader(io.StringIO(text, newline="")) if record]
    header, later = (records[0], records[1:]) if records else ([], [])
    for number, record in enumerate(records, 1):
        if len(record) != len(header):
            raise Fault(f"uneven {number}")
    attributes = {}
    for name in FROM_FILES:
        values = [field for record in later for column, field in zip(header, record) if column == name and field]
        if len(values) > 1 and not SCHEMA[name][1]:
            raise Fault(f"not single {name}")
        if values:
            attributes[name] = [csv_value(name, value, offset) for value in values]
    attributes["md_csv_columns"], attributes["md_csv_rows"] = [len(header)], [len(later)]
    attributes[CONTENT] = [" ".join(field for record in records for field in record)]
    return attributes


def file_attributes(path, size, content, offset):
    name = path.rsplit("/")[-1]
    ending = next((ending for ending in KINDS if re.search(re.escape(ending) + r"\Z", name, re.ASCII | re.IGNORECASE)), None)
    words, kind = KINDS.get(ending, ("Document", "public.data"))
    attributes = {}
    if ending:
        if max(size, len(content)) > MOST_BYTES:
            raise Fault(f"too large {max(size, len(content))}")
        try:
            text = content.decode()
        except UnicodeDecodeError as error:
            raise Fault(f"not utf-8 {error.start}") from None
        text = text.removeprefix("\ufeff")
        read = {".txt": lambda text, _: {CONTENT: [text]}, ".json": json_attributes, ".csv": csv_attributes}[ending]
        attributes = read(text, offset)
    above = ["public.text", "public.data", "public.item", "public.content"] if ending else ["public.item"]
    return attributes | {
        "kMDItemContentType": [kind], "kMDItemContentTypeTree": [kind, *above], "kMDItemDisplayName": [name], "kMDItemFSName": [name],
        "kMDItemFSContentChangeDate": [(CHANGED,)], "kMDItemFSSize": [min(size, 2**63 - 1)], "kMDItemKind": [words], "kMDItemPath": [path],
        "md_imported": [bool(ending)],
    }


def answer(read, *given):
    try:
        return shown(read(*given))
    except Fault as fault:
        return str(fault)


OFFSETS = [0, 0, 330, -1439]

DATES = ["2024-02-29", "2024-02-30", "2024-03-15T11:00:00+0100", "2024-03-15T11:00:00", "0001-01-01", "", "9999-12-31T23:59:59Z"]

NUMBERS = ["0", "5", "-12", "-0", "1.0", "1e2", "4.5", "9223372036854775807", "9223372036854775808", "-9223372036854775808",
           "-9223372036854775809", "18446744073709551615", "18446744073709551616", "1e999", "123456789012345678901234567890", "01", "+1", "1.", ".5", "-"]

STRINGS = ['"x"', '""', '"\u00e9"', r'"\u00e9"', r'"\ud83d\ude00"', r'"\ud800"', r'"\n\t\"\\\/"', '"a b"', r'"\q"', '"\u2028"', "'x'", '"x']

KEYS = [*FROM_FILES, *FROM_FILES, "kMDItemPath", "md_csv_rows", "a", "b", "notes"]


def drawn_json(draw, depth):
    kind = draw.randrange(12)
    if kind < 4:
        return draw.choice(STRINGS)
    if kind < 6:
        return draw.choice(NUMBERS)
    if kind == 6:
        return json.dumps(draw.choice(DATES))
    if kind == 7 or depth == 0:
        return draw.choice(["null", "null", "true", "false", "nul", "NaN"])
    if kind < 10:
        return "[" + draw.choice([",", ", "]).join(drawn_json(draw, depth - 1) for _ in range(draw.randrange(4))) + draw.choice(["]"] * 12 + [",]", ""])
    return drawn_object(draw, depth)


def fitting(draw, name):
    """A value that the attribute can have, mostly."""
    kind, many, _ = SCHEMA.get(name, ("text", False, False))
    if kind == "number":
        return draw.choice(NUMBERS[:9])
    if kind == "date":
        return json.dumps(draw.choice(DATES[:3]))
    one = lambda: draw.choice([*STRINGS[:5], '"Ann"', '"plan"', "null"])
    return f"[{', '.join(one() for _ in range(draw.randrange(4)))}]" if many and draw.randrange(2) else one()


def drawn_object(draw, depth):
    members = []
    for _ in range(draw.randrange(5)):
        name = draw.choice(KEYS)
        value = fitting(draw, name) if draw.randrange(4) else drawn_json(draw, depth - 1)
        members.append(f"{json.dumps(name)}{draw.choice(['', ' '])}:{draw.choice(['', ' ', chr(10)])}{value}")
    return "{" + draw.choice([",", ", "]).join(members) + "}"


def json_rows():
    draw = random.Random(10)
    for _ in range(2200):
        text = drawn_json(draw, 3) if draw.randrange(12) == 0 else drawn_object(draw, 3)
        text = draw.choice([""] * 8 + [" ", "\n", "\ufeff"]) + text + draw.choice([""] * 8 + ["\r\n", " x"])
        offset = draw.choice(OFFSETS)
        yield text, offset, answer(json_attributes, text, offset)


FIELDS = ["", "", "x", "Ann", "\u00e9", '"a,b"', '"a\nb"', '"say ""hi"""', 'a"b', '"a"b', " x ", '""', "7"]


def drawn_field(draw, name):
    kind = SCHEMA.get(name, ("text", False, False))[0]
    if draw.randrange(5) == 0:
        return draw.choice(FIELDS)
    if kind == "number":
        return draw.choice(["", *NUMBERS[:4], "007", "+5", " 5", "--5", "5.0", "9223372036854775807", "9223372036854775808"])
    return draw.choice(["", *DATES]) if kind == "date" else draw.choice(FIELDS)


def csv_rows():
    draw = random.Random(11)
    for _ in range(2200):
        header = [draw.choice(KEYS) for _ in range(draw.randrange(1, 4))]
        lines = [",".join(header)]
        for _ in range(draw.choice([0, 1, 1, 1, 2, 3])):
            record = [drawn_field(draw, name) for name in header]
            if draw.randrange(12) == 0:
                record.append("")
            lines.append(",".join(record))
        text = draw.choice([""] * 8 + ["\n", "\r\n\r\n", "\ufeff"])
        text += "".join(line + draw.choice(["\n", "\n", "\r\n", "\r", "\n\n"]) for line in lines)
        text = text if draw.randrange(4) else text.rstrip("\r\n")
        text += draw.choice([""] * 12 + ['"', ",", '"a\n'])
        offset = draw.choice(OFFSETS)
        yield text, offset, answer(csv_attributes, text, offset)


def whole_object():
    """An object with each attribute of the schema; no file sets the last ones."""
    given = {"kMDItemTitle": "title", "kMDItemStarRating": 5, "kMDItemRecipients": ["Fay", "Gus"], "kMDItemPublishers": ["Eva"],
             "kMDItemNumberOfPages": -12, "kMDItemLanguages": "en", "kMDItemKeywords": ["red", "blue"], "kMDItemDueDate": "2024-03-15",
             "kMDItemDescription": "description", "kMDItemCreator": "creator", "kMDItemCopyright": "copyright",
             "kMDItemContentCreationDate": "2024-03-15T11:00:00+0100", "kMDItemComment": "comment", "kMDItemAuthors": ["Ann", "Bob"]}
    return json.dumps(given | {name: 1 if name.startswith("kMD") else name for name in SCHEMA if name not in FROM_FILES}).encode()


def whole_table():
    """A table with a column for each attribute of the schema."""
    first = {"number": "5", "date": "2024-03-15", "text": "one"}
    lines = [SCHEMA, (first.get(kind, "1") for kind, *_ in SCHEMA.values()), ("two" if many else "" for _, many, _ in SCHEMA.values())]
    return "".join(",".join(line) + "\n" for line in lines).encode()


MARK = "\ufeff".encode()

FILES = [
    ("d/a.txt", 2, b"hi", 0), ("a.json", MOST_BYTES, MARK + b'{"kMDItemTitle":"t"}', 0), ("a.csv", 2, b"a\n", 0),
    ("a.bin", 2**64 - 1, b"\xff", 0), ("a.TXT", 0, b"", 0), ("d/b.Json", 5, b"{}", 330), ("b/a.json", 0, whole_object(), 0),
    ("b/a.csv", 0, whole_table(), 330),
    *(("a.txt", 0, text, 0) for text in (MARK + b"x", MARK + MARK + b"x", b"x" + MARK, MARK)),
    *(("a.json", 0, text, 0) for text in (MARK + b'{"a": "x"}', MARK + MARK + b'{"a": "x"}')),
    *(("a.csv", 0, mark + b"x\n", 0) for mark in (MARK, MARK + MARK, MARK + MARK + MARK)),
    ("a.json", MOST_BYTES + 2, b"\xff", 0), ("a.json", MOST_BYTES, b"{\xff", 0), ("a.json", 0, b"\xff{}", 0), ("a.json", 9, b'"\xc3\xa9\xc3', 0),
    ("a.json", 0, MARK + b"\xff", 0), ("a.txt", MOST_BYTES + 1, b"", 0), ("a.csv", 0, b"a,b\nc\n", 0), ("a.csv", 0, b"\xed\xa0\x80", 0),
    ("a.txt", 0, b"\xf4\x90\x80\x80", 0), ("a.txt", 0, b"ab\xc0\x80", 0), ("a.txt", 0, b"a\xf0\x9f\x98", 0), ("a.json", 0, b"[]", 0),
]


def file_rows():
    for path, size, content, offset in FILES:
        yield path, size, content, offset, answer(file_attributes, path, size, content, offset)
    # A text of the greatest size, and one that is a byte longer.
    for more in ("", "a"):
        written = rows.Written(r"\{1048576 aaaaaaaaaaaaaaaa}" + more)
        yield "a.json", 0, written, 0, answer(file_attributes, "a.json", 0, b"a" * (MOST_BYTES + len(more)), 0)


def schema_rows():
    for name, kind, many, maker in schema():
        yield name, f"{kind} {many} {'file' if maker == 'the file' else 'server'}"
    for name in ("kMDItemtitle", "kMDItem", "md_csv", "_"):
        yield name, "none"


def tables():
    yield rows.table("schema", SCRIPT, "name, kind, how many values, who sets it", ["The wanted values are those of the table in docs/FORMATS.md."], schema_rows())
    yield rows.table("files", SCRIPT, "path, size, bytes, offset in minutes, attributes or the first fault", [
        "The wanted values are computed by Python from the rules of docs/FORMATS.md; each file was changed at 2024-03-15 10:00:00.",
    ], file_rows())
    yield rows.table("drawn_json", SCRIPT, "text, offset in minutes, attributes or the first fault", [
        "The wanted values are those of Python's json, read by the rules of docs/FORMATS.md.",
    ], json_rows())
    yield rows.table("drawn_csv", SCRIPT, "text, offset in minutes, attributes or the first fault", [
        "The wanted values are those of Python's csv, read by the rules of docs/FORMATS.md.",
    ], csv_rows())


if __name__ == "__main__":
    rows.write(tables())
