#!/usr/bin/env python3
"""Writes the table of drawn orders, by Python's stable sort."""

import random

import rows

SCRIPT = "bench/oracles/orders.py"

NAMES = ["x", "y", "z"]

RANKS = ["text", "number", "flag", "moment"]

VALUES = {
    "text": ["", "a", "A", "ab", "b", "\u00e9", "e\u0301", "z", "\uff5e", "\U0001f600"],
    "number": [0, 1, -1, 2, 10, -(2**63), 2**63 - 1],
    "flag": [False, True],
    "moment": [0, 7, -1, 1_710_496_800],
}


def shown(pair):
    kind, value = pair
    return {"text": f"'{value}", "flag": f"{value}".lower(), "moment": f"@{value}"}.get(kind, str(value))


def drawn_row(draw):
    attributes = {}
    for name in draw.sample(NAMES, draw.randrange(4)):
        kind = draw.choice(["text", "text", "number", "number", "flag", "moment"])
        attributes[name] = [(kind, draw.choice(VALUES[kind])) for _ in range(draw.choice([1, 1, 2]))]
    return draw.choice(["a", "b", "c", "d/e", "d.e", "B", "\u00e9", "f", "g", "h"]), attributes


def drawn_order(draw):
    return [(draw.choice(NAMES), draw.randrange(2) == 1) for _ in range(draw.choice([0, 1, 1, 2, 2, 3]))]


def sorted_paths(table, order):
    """By path, and then by the keys from the last on: rows that tie stay as they are. What has no value comes last."""
    paths = sorted(table, key=str.encode)
    for name, descending in reversed(order):
        def value(path):
            kind, value = table[path][name][0]
            return RANKS.index(kind), value

        valued = sorted((path for path in paths if name in table[path]), key=value, reverse=descending)
        paths = valued + [path for path in paths if name not in table[path]]
    return "".join(path + " " for path in paths)


def order_rows():
    draw = random.Random(12)
    for _ in range(1200):
        first, second = drawn_order(draw), drawn_order(draw)
        drawn = [drawn_row(draw) for _ in range(draw.randrange(9))]
        table = dict(drawn)
        text = "".join(f"{path} {''.join(f'{name}=' + '|'.join(map(shown, values)) + ';' for name, values in row.items())}\n" for path, row in drawn)
        words = [" ".join("-" * descending + name for name, descending in order) for order in (first, second)]
        yield words[0], text, words[1], f"{sorted_paths(table, first)}/ {sorted_paths(table, second)}"


def tables():
    yield rows.table("drawn_orders", SCRIPT, "order, rows a line each, another order, paths in the one / and in the other", [
        "The wanted values are those of Python's sort: texts by code points, then numbers, flags and moments, what has no value last, ties by path.",
    ], order_rows())


if __name__ == "__main__":
    rows.write(tables())
