#!/usr/bin/env python3
"""Writes the tables of drawn expressions, search texts and filters, by expressions.py."""

import random

import expressions
import rows

SCRIPT = "bench/oracles/expression_tables.py"

SOURCE = "The wanted values are those of bench/oracles/expressions.py, which reads, spells and tests by the rules of docs/EXPRESSIONS.md."

NAMES = ["a", "kMDItemTitle", "kMDItemAuthors", "kMDItemStarRating", "kMDItemDueDate", "md_imported", "InRange", "_x9"]

LETTERS = ["a", "b", "A", "\u00e9", "e\u0301", "\u00df", "SS", " ", "*", '"', "'", "\\", "x", "\u03a3", "\u03c2", "|"]

OPERATORS = ["==", "!=", "<", ">", "<=", ">="]

# Friday 2024-03-15 10:00:00 UTC.
NOW = 1_710_496_800

SPACES = ["", "", "", " ", " ", "  ", "\t", "\n", "\r\n"]

ISO_TEXTS = ["2024-03-15", "2024-03-15T11:00:00+0100", "2024-02-29T23:59:59-00:30", "0001-01-01", "9999-12-31T23:59:59Z", "9999-12-31T23:59:59-0001"]


def drawn_words(draw):
    pieces = tuple("".join(draw.choice(LETTERS[:-1]) for _ in range(draw.randrange(4))) for _ in range(draw.choice([1, 1, 1, 2, 3])))
    return expressions.Words(pieces, draw.choice(["-", "-", "c", "d", "cd"]))


def drawn_number(draw):
    parts = draw.choice([0, draw.randint(-6, 6) * 10**9, draw.randint(-12, 12) * 5 * 10**8, draw.randint(-(10**10), 10**10)])
    parts = draw.choice([parts, parts, parts, expressions.LEAST, expressions.MOST])
    return expressions.Number(parts)


def drawn_time(draw, far):
    if draw.randrange(5) == 0:
        return expressions.Iso(draw.choice(ISO_TEXTS))
    unit = draw.choice(["now", "day", "week", "month", "year"])
    most = {"now": 400_000, "day": 5, "week": 2, "month": 2, "year": 1}[unit]
    count = draw.choice([0, draw.randint(-most, most)])
    return expressions.Form(unit, draw.choice([-(2**63), 2**63 - 1, 10**6, -(10**12)]) if far and draw.randrange(12) == 0 else count)


def drawn_bound(draw, far):
    return draw.choice([drawn_number, lambda draw: drawn_time(draw, far)])(draw)


def drawn_comparison(draw, far):
    name = draw.choice(NAMES)
    kind = draw.randrange(10)
    if kind == 0:
        return expressions.Range(name, drawn_bound(draw, far), drawn_bound(draw, far))
    if kind == 1:
        return expressions.Range(name, *sorted((drawn_number(draw), drawn_number(draw)), key=lambda number: number.parts))
    subject = "*" if draw.randrange(4) == 0 else name
    if kind == 2:
        return expressions.Compare(subject, draw.choice(["==", "!="]), "*")
    literal = draw.choice([drawn_words, drawn_words, drawn_number, lambda draw: drawn_time(draw, far)])(draw)
    return expressions.Compare(subject, draw.choice(OPERATORS), literal)


def drawn_tree(draw, depth, far):
    """A tree as one that is read: a chain has two members or more."""
    kind = draw.randrange(8)
    if depth == 0 or kind < 4:
        return drawn_comparison(draw, far)
    if kind == 4:
        return expressions.Not(drawn_tree(draw, depth - 1, far))
    members = tuple(drawn_tree(draw, depth - 1, far) for _ in range(draw.choice([2, 2, 3])))
    return expressions.Chain(draw.choice(["&&", "||"]), members)


class Writer:
    """One of the many texts that are read as a tree."""

    def __init__(self, draw):
        self.draw = draw

    def space(self):
        return self.draw.choice(SPACES)

    def literal(self, literal):
        draw = self.draw
        if literal == "*":
            return "*"
        if isinstance(literal, expressions.Words):
            quote = draw.choice("\"'")
            escaped = "\\*" + quote
            pieces = ("".join("\\" + c if c in escaped or (c in "\"'" and draw.randrange(3) == 0) else c for c in piece) for piece in literal.pieces)
            modifiers = literal.modifiers.strip("-")
            return quote + "*".join(pieces) + quote + draw.choice([modifiers, modifiers[::-1]])
        if isinstance(literal, expressions.Number):
            text = expressions.spelled_literal(literal)
            sign, digits = ("-", text[1:]) if text.startswith("-") else (draw.choice(["", "", "-"]) if text == "0" else "", text)
            digits = draw.choice(["", "", "0", "00"]) + digits
            return sign + (digits + draw.choice(["", "0"]) if "." in digits and len(digits.split(".")[1]) < 9 else digits + draw.choice(["", "", ".0", ".000"]) if "." not in digits else digits)
        if isinstance(literal, expressions.Iso):
            return f"$time.iso({literal.text})"
        if literal == expressions.Form("day", -1) and draw.randrange(2):
            return "$time.yesterday"
        word = "$time." + expressions.WORDS[literal.unit]
        if literal.count == 0 and draw.randrange(2):
            return word
        sign = "-" if literal.count < 0 else draw.choice(["", "+", "-"] if literal.count == 0 else ["", "+"])
        return f"{word}({sign}{draw.choice(['', '', '0'])}{abs(literal.count)})"

    def text(self, tree):
        space, draw = self.space, self.draw
        if draw.randrange(10) == 0:
            return f"({space()}{self.bare(tree)}{space()})"
        return self.bare(tree)

    def bare(self, tree):
        space = self.space
        if isinstance(tree, expressions.Compare):
            operator = self.draw.choice(["==", "="]) if tree.operator == "==" else tree.operator
            return f"{tree.subject}{space()}{operator}{space()}{self.literal(tree.literal)}"
        if isinstance(tree, expressions.Range):
            parts = [tree.name, self.literal(tree.least), self.literal(tree.greatest)]
            return f"InRange{space()}({','.join(space() + part + space() for part in parts)})"
        if isinstance(tree, expressions.Not):
            return f"!{space()}({space()}{self.text(tree.inner)}{space()})"
        grouped = ("&&", "||") if tree.sign == "&&" else ("||",)
        members = (
            f"({self.text(member)})" if isinstance(member, expressions.Chain) and member.sign in grouped else self.text(member)
            for member in tree.members
        )
        return f"{space()}{tree.sign}{space()}".join(members)


def spoiled(draw, text):
    """The text with one character taken out, put in or changed."""
    place = draw.randrange(len(text) + 1)
    put = draw.choice(["", *"()!&|=<>*\"'\\,.-+$c d0a_:T", "\u00e9"])
    return text[:place] + put + text[place + draw.randrange(2) :]


def answer(text):
    tree = expressions.read(text)
    return tree if isinstance(tree, str) else expressions.spelled(tree)


def expression_rows():
    draw = random.Random(7)
    for _ in range(1000):
        tree = drawn_tree(draw, 3, True)
        text = Writer(draw).space() + Writer(draw).text(tree) + Writer(draw).space()
        assert expressions.read(text) == tree, (text, tree)
        yield text, expressions.spelled(tree)
        text = spoiled(draw, Writer(draw).text(drawn_comparison(draw, True)))
        yield text, answer(text)


def search_text(draw):
    return "".join(draw.choice(["a", "plan", "\u00e9", "*", '"', "\\", "'", "(", "=", " ", " ", "  ", "\t", "\n", "\r", "\u00a0", "\u2003", "\v"]) for _ in range(draw.randrange(9)))


def plain_answer(text):
    tree = expressions.plain(text)
    return tree if isinstance(tree, str) else expressions.spelled(tree)


def drawn_row(draw):
    """Attributes by name, each a list of pairs of a kind and a value."""
    row = {}
    for name in draw.sample(NAMES, draw.randrange(5)):
        kind = draw.choice(["text", "text", "number", "flag", "moment"])
        row[name] = [(kind, drawn_value(draw, kind)) for _ in range(draw.choice([1, 1, 2, 3]))]
    return dict(sorted(row.items()))


def drawn_value(draw, kind):
    if kind == "text":
        return "".join(draw.choice(LETTERS[:-1]) for _ in range(draw.randrange(5)))
    if kind == "number":
        return draw.choice([draw.randint(-6, 6), draw.randint(-6, 6), -(2**63), 2**63 - 1])
    if kind == "flag":
        return draw.choice([False, True])
    return draw.choice([NOW, 1_710_460_800, NOW - 86_400, NOW + draw.randint(-400_000, 400_000), expressions.time_forms.LOW, expressions.time_forms.HIGH])


def shown_value(pair):
    kind, value = pair
    return {"text": f"'{value}", "number": f"{value}", "flag": f"{value}".lower(), "moment": f"@{value}"}[kind]


def shown_row(row):
    return "".join(f"{name}={'|'.join(map(shown_value, values))};" for name, values in row.items())


def filter_rows():
    draw = random.Random(8)
    for _ in range(2000):
        tree, row = drawn_tree(draw, 2, draw.randrange(4) == 0), drawn_row(draw)
        now = draw.choice([NOW, NOW, NOW, expressions.time_forms.LOW, expressions.time_forms.HIGH])
        offset = draw.choice([0, 0, 330, -1439])
        folder, path = draw.choice(["", "", "", "", "d", "d/e", "dd"]), draw.choice(["d/a.txt", "d/e/f", "d"])
        out = expressions.first_out(tree, now, offset)
        if out is not None:
            want = f"form {out}"
        else:
            inside = not folder or path.startswith(folder + "/")
            want = "yes" if inside and expressions.holds(tree, row, now, offset) else "no"
        yield expressions.spelled(tree), now, offset, folder, path, shown_row(row), want


def tables():
    yield rows.table("drawn_expressions", SCRIPT, "text, canonical spelling or why it is refused", [SOURCE], expression_rows())
    draw = random.Random(9)
    searches = [search_text(draw) for _ in range(400)]
    yield rows.table("drawn_plain_texts", SCRIPT, "search text, canonical spelling or why it is refused", [SOURCE], ((text, plain_answer(text)) for text in searches))
    yield rows.table("name_texts", SCRIPT, "what a name is to have in it, canonical spelling of the test", [SOURCE], (
        (text, expressions.spelled(expressions.named(text))) for text in ["plan", "", " a *\t\"b\" ", *searches[:100]]
    ))
    yield rows.table("drawn_filters", SCRIPT, "expression, now, offset in minutes, folder, path, attributes, whether the row passes or the first form out of range", [SOURCE], filter_rows())


if __name__ == "__main__":
    rows.write(tables())
