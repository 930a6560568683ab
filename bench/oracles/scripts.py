#!/usr/bin/env python3
"""Writes the table of drawn scripts, by the grammar of docs/FORMATS.md, which is written here anew."""

import pathlib
import random
import re

import expressions
import rows

SCRIPT = "bench/oracles/scripts.py"

FIRST_RUN = pathlib.Path(__file__).resolve().parents[2] / "examples/first-run.txt"

ESCAPES = {"s": " ", "t": "\t", "n": "\n", "r": "\r", "\\": "\\"}

VERBS = ["gather", "poll", "disable", "enable", "stop", "show"]

NUMBERED = {"first": 1, "progress": 1, "update": 1, "ms": 0}

MOST = 2**32 - 1


class Bad(Exception):
    """The line is not in the grammar."""


def number(text, most=MOST, least=0):
    if not re.fullmatch("[0-9]+", text) or not least <= int(text) <= most:
        raise Bad
    return int(text)


def unescaped(text):
    if re.search(r"\\(?![stnr\\])", re.sub(r"\\\\", "", text)):
        raise Bad
    return re.sub(r"\\(.)", lambda found: ESCAPES[found[1]], text)


def folder(text):
    text = unescaped(text)
    parts = text.split("/")
    if text.startswith("/") or ".." in parts or "\0" in text:
        raise Bad
    return "/".join(part for part in parts if part not in ("", "."))


def path(text):
    found = folder(text)
    if not found or " " in text:
        raise Bad
    return found


def put(rest):
    where, _, content = rest.partition(" ")
    return f"put [{path(where)}] [{unescaped(content)}]"


def options(words):
    given, keys = {}, []
    for word in words:
        name, equals, value = word.partition("=")
        if not equals:
            raise Bad
        if name == "by":
            key = value.removeprefix("-")
            if not re.fullmatch("[A-Za-z_][A-Za-z0-9_]*", key) or key == "kMDItemTextContent":
                raise Bad
            keys.append(value)
            continue
        if name in given or name not in {"in", *NUMBERED}:
            raise Bad
        given[name] = folder(value) if name == "in" else number(value, least=NUMBERED[name])
    if len(keys) > 8:
        raise Bad
    numbers = "".join(f" {name}={given[name]}" for name in NUMBERED if name in given)
    return f"in=[{given.get('in', '')}]{numbers}{''.join(f' by={key}' for key in keys)}"


def query(client, rest):
    words = rest.split(" ")
    if "where" not in words[1:]:
        raise Bad
    place = words.index("where", 1)
    tree = expressions.read(" ".join(words[place + 1 :]))
    if isinstance(tree, str):
        raise Bad
    return f"c{client} query {number(words[0])} {options(words[1:place])} where {expressions.spelled(tree)}"


def client_line(client, rest):
    if rest == "vacuum":
        return f"c{client} vacuum"
    verb, space, rest = rest.partition(" ")
    if verb == "query" and space:
        return query(client, rest)
    if verb not in VERBS:
        raise Bad
    return f"c{client} {verb} {number(rest)}"


def said(line):
    """What a line says, at the moment of the last `at`."""
    word, space, rest = line.partition(" ")
    if not space:
        raise Bad
    if word == "put":
        return put(rest)
    if word in ("import", "remove"):
        return f"{word} [{path(rest)}]"
    if word.startswith("c"):
        return client_line(number(word[1:], 255), rest)
    raise Bad


def lines_of(script):
    """The lines; a carriage return before a line feed is dropped."""
    *lines, last = script.split(b"\n")
    return [line.removesuffix(b"\r") for line in lines] + ([last] if last else [])


def answer(script):
    shown, moment = "", 0
    for place, line in enumerate(lines_of(script), 1):
        try:
            text = line.decode()
            if text.startswith("at "):
                moment = number(text[3:])
            elif text and not text.startswith("#"):
                shown += f"{place} at {moment}: {said(text)}\n"
        except (Bad, UnicodeDecodeError):
            return f"bad line {place}"
    return shown


PATHS = ["a.txt", "./b//c.csv", r"a\sb\t", "docs/a.json", "\u00e9", "a", "a", ".", "../a", "/a", r"a\q", "", "d\\"]

CONTENTS = ["one", "", "two words ", r"x\ny\\\s", '{"kMDItemStarRating": 4}', r"\q", "#", "\t"]

NUMBERS = ["1", "1", "007", "0", "255", "4294967295", "4294967296", "-1", "+1", ""]

TEXTS = ["a == 1", "  a='x'c", "where == 1", 'kMDItemFSName == "a where b"', "!(a==1)||InRange(b,-1.50,$time.today)", "a", "", "a == 1 && b"]

OPTIONS = ["first=2", "progress=3", "update=2", "ms=500", "ms=0", "by=a", "by=-kMDItemStarRating", "in=docs", "in=", r"in=./a\sb/"]

BAD_OPTIONS = ["", "first=0", "update=0", "first", "=1", "by=", "by=--a", "by=kMDItemTextContent", "in=../a", "last=1", "First=1", "first=1=1"]


def mostly(draw, good, all_of):
    return draw.choice(good if draw.randrange(30) else all_of)


def drawn_line(draw):
    kind = draw.randrange(11)
    if kind == 0:
        return draw.choice(["", "#", "# note", "\r"])
    if kind == 1:
        return f"at {mostly(draw, ['0', '007', '250', '4294967295'], NUMBERS)}"
    if kind < 5:
        where = mostly(draw, PATHS[:7], PATHS)
        rest = draw.choice(["", " " + mostly(draw, CONTENTS[:5], CONTENTS)])
        return draw.choice([f"put {where}{rest}", f"import {where}", f"remove {where}"])
    client = f"c{mostly(draw, ['0', '00', '9', '255'], ['256', '', '-1', 'x'])}"
    if kind < 8:
        return f"{client} {mostly(draw, VERBS, ['vacuum', 'Poll', ''])} {mostly(draw, NUMBERS[:6], NUMBERS)}"
    if kind == 8:
        return f"{client} {mostly(draw, ['vacuum'], ['vacuum ', 'Vacuum', 'stop'])}"
    words = draw.sample(OPTIONS, draw.randrange(4)) + [mostly(draw, OPTIONS, BAD_OPTIONS) for _ in range(draw.randrange(4) == 0)]
    return " ".join([client, "query", mostly(draw, NUMBERS[:6], NUMBERS), *words, "where", mostly(draw, TEXTS[:5], TEXTS)])


def spoiled(draw, script):
    place = draw.randrange(len(script) + 1)
    return script[:place] + draw.choice([b"", b" ", b"\\", b"\n", b"\r", b"\xff", b"x", b"0"]) + script[place + draw.randrange(2) :]


def cut_rows():
    """The first run's script, cut off after each of its bytes."""
    script = FIRST_RUN.read_bytes()
    for length in range(len(script) + 1):
        yield script[:length], answer(script[:length])


def script_rows():
    draw = random.Random(14)
    for _ in range(900):
        lines = [drawn_line(draw) for _ in range(draw.randrange(1, 7))]
        script = "".join(line + draw.choice(["\n", "\n", "\n", "\r\n"]) for line in lines).encode()
        script = draw.choice([script, script, script[:-1]])
        if draw.randrange(5) == 0:
            script = spoiled(draw, script)
        yield script, answer(script)


def tables():
    yield rows.table("drawn_scripts", SCRIPT, "script, its lines or why it is refused", [
        "The wanted values follow from the grammar of docs/FORMATS.md, as this script and bench/oracles/expressions.py have it.",
        "An answer has a line for each line that says something: its number, its moment in milliseconds and what it says.",
        "The last rows are the script of examples/first-run.txt, cut off after each of its bytes.",
    ], [*script_rows(), *cut_rows()])


if __name__ == "__main__":
    rows.write(tables())
