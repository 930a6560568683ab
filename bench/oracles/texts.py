#!/usr/bin/env python3
"""Writes the tables of keys and patterns, by Python's own tables of Unicode."""

import random
import re
import unicodedata

import rows
import time_forms

SCRIPT = "bench/oracles/texts.py"

SOURCE = f"The wanted values are those of Python's unicodedata, Unicode {unicodedata.unidata_version}."

TEXTS = [
    "Stra\u00dfe.TXT",
    "STRASSE \u1e9e",
    "R\u00e9sum\u00e9",
    "re\u0301sume\u0301",
    "\u039f\u0394\u03a5\u03a3\u03a3\u0395\u038e\u03a3",
    "\u1f48\u03b4\u03c5\u03c3\u03c3\u03b5\u03cd\u03c2",
    "\u0130\u0131Ii",
    "\ufb01\ufb02\ufb00\ufb03\ufb05",
    "\u1fb3\u1fbc \u0345\u0301",
    "\ud55c\uae00 \uac01",
    "\u1112\u1161\u11ab\u1100\u1173\u11af",
    "\u212b\u00c5A\u030a",
    "q\u0307\u0323Q\u0323\u0307",
    "\u0915\u093e\u094d",
    "\u0301a*b",
    "Quick BROWN fox 09",
    "",
]

MATCHES = [
    ("STRASSE|", "c", "stra\u00dfe.txt"),
    ("STRASSE|", "-", "stra\u00dfe.txt"),
    ("resume", "d", "r\u00e9sum\u00e9"),
    ("resume", "d", "re\u0301sume\u0301"),
    ("resume", "-", "r\u00e9sum\u00e9"),
    ("resume", "cd", "R\u00c9SUM\u00c9"),
    ("a|b", "-", "ab"),
    ("a|b", "-", "axbx"),
    ("a|b", "-", "ba"),
    ("a|b|", "-", "ab"),
    ("a|b|", "-", "axbx"),
    ("a|b|", "-", "ba"),
    ("a*b", "-", "a*b"),
    ("a*b", "-", "axb"),
    ("", "-", ""),
    ("", "-", "x"),
    ("|", "-", ""),
    ("||", "-", "x"),
    ("e|\u0301x", "-", "\u00e9x"),
    ("e|\u0301x", "d", "ex"),
    ("e|\u0301x", "-", "ex"),
    ("aba|aba", "-", "ababa"),
    ("aba|aba", "-", "abaaba"),
    ("|ab|b", "-", "abab"),
    ("|ab|ab", "-", "abb"),
    ("|aab|", "-", "aaaab"),
    ("a|b|c", "-", "axcxb"),
    ("a|b|c", "-", "abbcc"),
    ("\u039f\u0394\u03a5\u03a3\u03a3\u0395\u03a5\u03a3", "cd", "\u03bf\u03b4\u03c5\u03c3\u03c3\u03b5\u03cd\u03c2"),
    ("\u1112\u1161|\u1100\u1173\u11af", "-", "\ud55c\uae00"),
    ("\ud55c|", "-", "\ud558"),
]

ORDERS = [
    ("a", "b", "-"),
    ("b", "ab", "-"),
    ("ab", "a", "-"),
    ("Z", "a", "-"),
    ("Z", "a", "c"),
    ("\u00e9", "f", "-"),
    ("\u00e9", "e", "d"),
    ("\ufb01", "fj", "c"),
    ("\U0001f600", "\uff5e", "-"),
]

MODIFIERS = ["-", "c", "d", "cd"]

# What texts are drawn from: letters with and without case, marks of several classes, signs that are neither.
ALPHABET = "abcABCxyz019 .*_-" + "\u00df\u00e9\u00c9\u0130\u0131\u01c5\u0390\u03a3\u03c2\u1e9b\u1fb3\u1ffc\u212b\ufb03" + (
    "\u0300\u0301\u0307\u0323\u0327\u0345\u05b0\u0653\u093c\u094d\u0e38\u1dce\u20d0\u3099\U0001d165"
) + "\uac00\uac01\ud7a3\u1100\u1161\u11a8\u4e00\uf900\U00010400\U0001f600\ufffd"


def key(text, modifiers):
    """The canonical decomposition; folded as D145 of the Unicode Standard says; without nonspacing marks."""
    made = unicodedata.normalize("NFD", text)
    if "c" in modifiers:
        made = unicodedata.normalize("NFD", made.casefold())
    if "d" in modifiers:
        made = "".join(c for c in made if unicodedata.category(c) != "Mn")
    return made


def matches(pieces, modifiers, text):
    pattern = ".*".join(re.escape(key(piece, modifiers)) for piece in pieces)
    return re.fullmatch(pattern, key(text, modifiers), re.DOTALL) is not None


def order(left, right, modifiers):
    left, right = key(left, modifiers), key(right, modifiers)
    return "less" if left < right else "greater" if left > right else "equal"


def drawn(draw, most):
    return "".join(draw.choice(ALPHABET) for _ in range(draw.randrange(most)))


def key_rows():
    draw = random.Random(1)
    texts = TEXTS + [drawn(draw, 16) for _ in range(400)]
    return [(text, modifiers, key(text, modifiers)) for text in texts for modifiers in MODIFIERS]


# Nonspacing marks up to Unicode 15.1, spacing ones from 16.0 on.
CHANGED = {"\U0001171e"}


def is_compared(c):
    """Assigned in Python's tables, so in later ones too; no surrogate, and none whose category changed later."""
    return unicodedata.category(c) not in ("Cn", "Cs") and c not in CHANGED


def character_rows():
    """Each character that some key changes; of the Hangul syllables, whose decomposition is computed, each 53rd."""
    for c in map(chr, range(0x110000)):
        if not is_compared(c) or ("\uac00" <= c <= "\ud7a3" and (ord(c) - 0xAC00) % 53):
            continue
        seen = {c}
        for modifiers in MODIFIERS:
            want = key(c, modifiers)
            if want not in seen:
                seen.add(want)
                yield c, modifiers, want


def ranges():
    """The first and the last of characters that are compared and stand side by side, but for private ones."""
    first = last = None
    for number in range(0x110001):
        kept = number < 0x110000 and is_compared(chr(number)) and unicodedata.category(chr(number)) != "Co"
        if kept:
            first, last = number if first is None else first, number
        elif first is not None:
            yield first, last
            first = None


def range_rows():
    """Of long ranges, which are ideographs and Hangul syllables, only both ends."""
    for first, last in ranges():
        for low, high in [(first, last)] if last - first < 2000 else [(first, first + 499), (last - 499, last)]:
            keys = (key(chr(number), modifiers) for number in range(low, high + 1) for modifiers in MODIFIERS)
            yield low, high, f"{time_forms.fnv(''.join(one + chr(10) for one in keys)):016x}"


def pattern_rows():
    draw = random.Random(2)
    for pieces, modifiers, text in MATCHES:
        yield pieces, modifiers, text, "yes" if matches(pieces.split("|"), modifiers, text) else "no"
    for _ in range(2000):
        modifiers = draw.choice(MODIFIERS)
        short = "abA\u00e9e\u0301" if draw.randrange(2) else ALPHABET
        pieces = ["".join(draw.choice(short) for _ in range(draw.randrange(4))) for _ in range(draw.randrange(1, 5))]
        gaps = ["".join(draw.choice(short) for _ in range(draw.randrange(3))) for _ in range(len(pieces) - 1)]
        text = "".join(piece + gap for piece, gap in zip(pieces, [*gaps, ""]))
        if draw.randrange(3) == 0 and text:
            place = draw.randrange(len(text))
            text = text[:place] + draw.choice(["", draw.choice(short)]) + text[place + 1 :]
        if draw.randrange(3) == 0:
            text = text.swapcase()
        yield "|".join(pieces), modifiers, text, "yes" if matches(pieces, modifiers, text) else "no"


def order_rows():
    draw = random.Random(3)
    for left, right, modifiers in ORDERS:
        yield left, right, modifiers, order(left, right, modifiers)
    for _ in range(600):
        left = drawn(draw, 8)
        right = draw.choice([drawn(draw, 8), left + drawn(draw, 3), left.swapcase(), left[:-1]])
        modifiers = draw.choice(MODIFIERS)
        yield left, right, modifiers, order(left, right, modifiers)


def tables():
    compared = "Only characters that Python's tables assign are compared: decompositions and foldings of those never change."
    yield rows.table("keys", SCRIPT, "text, modifiers, key", [SOURCE], key_rows())
    yield rows.table("characters", SCRIPT, "text, modifiers, key", [
        SOURCE, compared, f"Not compared, since its category changed in Unicode 16.0: U+{ord(min(CHANGED)):X}.",
        "Each character whose key is not itself, with each set of modifiers that gives another key.",
    ], character_rows())
    yield rows.table("character_ranges", SCRIPT, "number of the first character, of the last, FNV-1a of 64 bits over their keys", [
        SOURCE, compared, f"Not compared, since its category changed in Unicode 16.0: U+{ord(min(CHANGED)):X}.",
        "The keys are those without modifiers, with c, with d and with cd, each with a line feed.",
    ], range_rows())
    yield rows.table("patterns", SCRIPT, "pieces with | between them, modifiers, text, whether it matches", [
        SOURCE, "Matches are those of Python's re over the keys.",
    ], pattern_rows())
    yield rows.table("key_orders", SCRIPT, "left, right, modifiers, how the left key compares", [SOURCE], order_rows())


if __name__ == "__main__":
    rows.write(tables())
