"""Expressions by the rules of docs/EXPRESSIONS.md: read, spelled and tested on rows. Shares nothing with the crates."""

import dataclasses
import re

import texts
import time_forms

LEAST, MOST = -(2**63) * 10**9, (2**63 - 1) * 10**9

UNITS = {"now": "now", "today": "day", "this_week": "week", "this_month": "month", "this_year": "year"}

WORDS = {unit: word for word, unit in UNITS.items()}

SPACE = " \t\n\r"

NAME = re.compile(r"[A-Za-z_][A-Za-z0-9_]*", re.ASCII)

NUMBER = re.compile(r"(-?)(\d+)(?:\.(\d{1,9}))?", re.ASCII)

TIME = re.compile(r"\$time\.(now|today|this_week|this_month|this_year|yesterday)(?![A-Za-z0-9_])", re.ASCII)

COUNT = re.compile(r"\(([-+]?\d+)\)", re.ASCII)

ISO = re.compile(r"\$time\.iso\(([-0-9T:Z+]*)\)", re.ASCII)

SIGNS = ["&&", "||", "==", "!=", "<=", ">=", "=", "<", ">", "!", "(", ")", ",", "*"]


class Refused(Exception):
    """The text is not in the grammar."""


@dataclasses.dataclass(frozen=True)
class Words:
    pieces: tuple
    modifiers: str


@dataclasses.dataclass(frozen=True)
class Number:
    parts: int


@dataclasses.dataclass(frozen=True)
class Form:
    unit: str
    count: int


@dataclasses.dataclass(frozen=True)
class Iso:
    text: str


@dataclasses.dataclass(frozen=True)
class Compare:
    subject: str
    operator: str
    literal: object


@dataclasses.dataclass(frozen=True)
class Range:
    name: str
    least: object
    greatest: object


@dataclasses.dataclass(frozen=True)
class Not:
    inner: object


@dataclasses.dataclass(frozen=True)
class Chain:
    sign: str
    members: tuple


def end_of(text, at):
    """The place, where no letter, digit or `_` stands at it."""
    if at < len(text) and re.match(r"[A-Za-z0-9_]", text[at], re.ASCII):
        raise Refused
    return at


def string(text, at):
    """The string whose quote stands there, and the place behind it."""
    quote, at = text[at], at + 1
    pieces = [""]
    while True:
        if at == len(text):
            raise Refused
        c, at = text[at], at + 1
        if c == quote:
            break
        if c == "*":
            pieces.append("")
            continue
        if c == "\\":
            if at == len(text) or text[at] not in "\"'\\*":
                raise Refused
            c, at = text[at], at + 1
        pieces[-1] += c
    modifiers = ""
    while at < len(text) and text[at] in "cd" and text[at] not in modifiers:
        modifiers, at = modifiers + text[at], at + 1
    return Words(tuple(pieces), "".join(sorted(modifiers)) or "-"), end_of(text, at)


def number(text, at):
    found = NUMBER.match(text, at)
    if not found:
        raise Refused
    sign, whole, decimals = found.groups()
    parts = int(whole) * 10**9 + int((decimals or "").ljust(9, "0"))
    parts = -parts if sign else parts
    if not LEAST <= parts <= MOST:
        raise Refused
    return Number(parts), end_of(text, found.end())


def time(text, at):
    found = ISO.match(text, at)
    if found:
        if time_forms.iso_second(found[1], 0) is None:
            raise Refused
        return Iso(found[1]), end_of(text, found.end())
    found = TIME.match(text, at)
    if not found:
        raise Refused
    if found[1] == "yesterday":
        return Form("day", -1), end_of(text, found.end())
    count = COUNT.match(text, found.end())
    if not count:
        return Form(UNITS[found[1]], 0), end_of(text, found.end())
    if not -(2**63) <= int(count[1]) < 2**63:
        raise Refused
    return Form(UNITS[found[1]], int(count[1])), end_of(text, count.end())


def tokens(text):
    """The signs, names and literals of the text."""
    at, made = 0, []
    while at < len(text):
        c = text[at]
        if c in SPACE:
            at += 1
            continue
        if c in "\"'":
            token, at = string(text, at)
        elif c == "$":
            token, at = time(text, at)
        elif c in "-0123456789":
            token, at = number(text, at)
        elif found := NAME.match(text, at):
            token, at = ("name", found[0]), found.end()
        else:
            token = next((sign for sign in SIGNS if text.startswith(sign, at)), None)
            if token is None:
                raise Refused
            at += len(token)
        made.append(token)
    return made


class Reader:
    """A descent over the tokens, which counts open groups and comparisons."""

    def __init__(self, given):
        self.left = given[::-1]
        self.open = self.deepest = self.comparisons = 0

    def next(self):
        return self.left[-1] if self.left else None

    def take(self, *wanted):
        if not self.left or (wanted and self.left[-1] not in wanted):
            raise Refused
        return self.left.pop()

    def chain(self, sign, member):
        members = [member()]
        while self.next() == sign:
            self.take()
            members.append(member())
        return members[0] if len(members) == 1 else Chain(sign, tuple(members))

    def any(self):
        return self.chain("||", self.all)

    def all(self):
        return self.chain("&&", self.unit)

    def unit(self):
        if self.next() == "!":
            self.take()
            return Not(self.group())
        return self.group() if self.next() == "(" else self.comparison()

    def group(self):
        self.take("(")
        self.open += 1
        self.deepest = max(self.deepest, self.open)
        inner = self.any()
        self.take(")")
        self.open -= 1
        return inner

    def comparison(self):
        self.comparisons += 1
        subject = self.take()
        if subject == ("name", "InRange") and self.next() == "(":
            return self.range()
        if subject != "*" and not (isinstance(subject, tuple) and subject[0] == "name"):
            raise Refused
        operator = self.take("==", "=", "!=", "<", ">", "<=", ">=")
        operator = "==" if operator == "=" else operator
        literal = self.take()
        if literal == "*" and operator not in ("==", "!="):
            raise Refused
        if literal != "*" and not isinstance(literal, (Words, Number, Form, Iso)):
            raise Refused
        return Compare(subject if subject == "*" else subject[1], operator, literal)

    def range(self):
        self.take("(")
        name = self.take()
        if not (isinstance(name, tuple) and name[0] == "name"):
            raise Refused
        bounds = []
        for end in (",", ")"):
            self.take(",")
            bound = self.take()
            if not isinstance(bound, (Number, Form, Iso)):
                raise Refused
            bounds.append(bound)
        self.take(")")
        return Range(name[1], *bounds)


def read(text):
    """The tree of the text, or why it is refused."""
    if len(text.encode()) > 65_536:
        return "too long"
    try:
        reader = Reader(tokens(text))
        tree = reader.any()
        if reader.left:
            raise Refused
    except Refused:
        return "not an expression"
    if reader.deepest > 64:
        return "too deep"
    return "too many" if reader.comparisons > 4_096 else tree


def spelled_literal(literal):
    if literal == "*":
        return "*"
    if isinstance(literal, Words):
        pieces = (re.sub(r'(["\\*])', r"\\\1", piece) for piece in literal.pieces)
        return '"' + "*".join(pieces) + '"' + literal.modifiers.strip("-")
    if isinstance(literal, Number):
        whole, decimals = divmod(abs(literal.parts), 10**9)
        text = f"{whole}.{decimals:09}".rstrip("0").rstrip(".")
        return "-" + text if literal.parts < 0 else text
    if isinstance(literal, Iso):
        return f"$time.iso({literal.text})"
    return f"$time.{WORDS[literal.unit]}" + (f"({literal.count})" if literal.count else "")


def spelled(tree):
    """The canonical spelling."""
    if isinstance(tree, Compare):
        return f"{tree.subject} {tree.operator} {spelled_literal(tree.literal)}"
    if isinstance(tree, Range):
        return f"InRange({tree.name}, {spelled_literal(tree.least)}, {spelled_literal(tree.greatest)})"
    if isinstance(tree, Not):
        return f"!({spelled(tree.inner)})"
    grouped = ("&&", "||") if tree.sign == "&&" else ("||",)
    members = (
        f"({spelled(member)})" if isinstance(member, Chain) and member.sign in grouped else spelled(member)
        for member in tree.members
    )
    return f" {tree.sign} ".join(members)


def literals(tree):
    """The literals in reading order."""
    if isinstance(tree, Compare):
        return [tree.literal]
    if isinstance(tree, Range):
        return [tree.least, tree.greatest]
    if isinstance(tree, Not):
        return literals(tree.inner)
    return [literal for member in tree.members for literal in literals(member)]


def moment(literal, now, offset):
    if isinstance(literal, Iso):
        return time_forms.iso(literal.text, offset)
    return time_forms.form(literal.unit, literal.count, now, offset)


def first_out(tree, now, offset):
    """The number from 1 of the first form of time whose moment is out of range."""
    forms = [literal for literal in literals(tree) if isinstance(literal, (Form, Iso))]
    return next((place for place, form in enumerate(forms, 1) if moment(form, now, offset) is None), None)


def ordered(operator, left, right):
    return {"<": left < right, ">": left > right, "<=": left <= right, ">=": left >= right, "==": left == right}[operator]


def meets(value, operator, literal, now, offset):
    """Whether one value, a pair of its kind and itself, meets a comparison that is not `!=`."""
    kind, value = value
    if literal == "*":
        return True
    if isinstance(literal, Words):
        if kind != "text":
            return False
        if operator == "==":
            return texts.matches(list(literal.pieces), literal.modifiers, value)
        return ordered(operator, texts.key(value, literal.modifiers), texts.key("*".join(literal.pieces), literal.modifiers))
    if isinstance(literal, Number):
        return kind in ("number", "flag") and ordered(operator, int(value) * 10**9, literal.parts)
    return kind == "moment" and ordered(operator, value, moment(literal, now, offset))


def holds(tree, row, now, offset):
    """Whether the attributes, a dict of lists of values, satisfy the expression."""
    if isinstance(tree, Not):
        return not holds(tree.inner, row, now, offset)
    if isinstance(tree, Chain):
        results = [holds(member, row, now, offset) for member in tree.members]
        return all(results) if tree.sign == "&&" else any(results)
    if isinstance(tree, Range):
        return any(
            meets(value, ">=", tree.least, now, offset) and meets(value, "<=", tree.greatest, now, offset)
            for value in row.get(tree.name, [])
        )
    if tree.operator == "!=":
        return not holds(dataclasses.replace(tree, operator="=="), row, now, offset)
    values = [value for name in (row if tree.subject == "*" else [tree.subject]) for value in row.get(name, [])]
    return any(meets(value, tree.operator, tree.literal, now, offset) for value in values)


def plain(text):
    """The expression of a search text, or why it is refused."""
    if len(text.encode()) > 65_536:
        return "too long"
    words = [word for word in re.split("[ \t\n\r]+", text) if word]
    if not words:
        return "not an expression"
    if len(words) > 4_096:
        return "too many"
    tests = tuple(Compare("*", "==", Words(("", word, ""), "cd")) for word in words)
    return tests[0] if len(tests) == 1 else Chain("&&", tests)


def named(text):
    return Compare("kMDItemFSName", "==", Words(("", text, ""), "cd"))
