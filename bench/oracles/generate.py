#!/usr/bin/env python3
"""Test files and a script, made from a number.

    generate.py START N

prints each file's path, size, time of change and content (as a Python text), then the script.
It is written from the rules alone and shares nothing with the server's code:

- The state begins as START. draw(k) sets it to (state * 6364136223846793005 + 1442695040888963407) modulo 2^64,
  and answers state / 2^33, rounded down, modulo k.
- For each file from 0 to N - 1 are drawn, in this order: the ending (3), two words (8 each), a rating (6).
- The script imports the first half of the files, lets eight clients ask and gather a query each, then imports
  the others one by one, each followed by a removal, a poll, a disable or an enable that is drawn, and ends with
  a poll of each client.
"""
import sys

WORDS = ["red", "blue", "tax", "plan", "note", "draft", "final", "budget"]

EXPRESSIONS = [
    'kMDItemFSName == "*.txt"',
    "kMDItemStarRating >= 3",
    'kMDItemKeywords == "red"c || kMDItemTitle == "red"c',
    '* == "*budget*"cd',
    '!(kMDItemContentType == "public.json")',
    "InRange(kMDItemFSSize, 8, 20)",
    'md_csv_rows == 1 && kMDItemKeywords != "tax"',
    "kMDItemFSContentChangeDate >= $time.today",
]


class Draws:
    """The sequence of numbers that is drawn from."""

    def __init__(self, start):
        self.state = start

    def draw(self, below):
        self.state = (self.state * 6364136223846793005 + 1442695040888963407) % 2**64
        return self.state // 2**33 % below


def file(draws, i):
    """The path and the content of the i-th file."""
    ending = draws.draw(3)
    first = WORDS[draws.draw(8)]
    second = WORDS[draws.draw(8)]
    rating = draws.draw(6)
    if ending == 0:
        return f"g/f{i}.txt", f"{first} {second}"
    if ending == 1:
        return f"g/f{i}.json", f'{{"kMDItemTitle":"{first}","kMDItemStarRating":{rating}}}'
    return f"g/f{i}.csv", f"kMDItemKeywords,notes\n{first},{second}\n"


def query(client):
    """The line by which a client asks its query."""
    options = "update=5 " if client >= 4 else ""
    return f"c{client} query 1 {options}where {EXPRESSIONS[client]}"


def script(draws, files):
    """The lines of the script."""
    half = len(files) // 2
    lines = [f"import {path}" for path, _ in files[:half]]
    for client in range(8):
        lines += [query(client), f"c{client} gather 1"]
    for i in range(half, len(files)):
        lines.append(f"import {files[i][0]}")
        action = draws.draw(4)
        if action == 0:
            lines.append(f"remove {files[draws.draw(i + 1)][0]}")
        else:
            verb = {1: "poll", 2: "disable", 3: "enable"}[action]
            lines.append(f"c{draws.draw(8)} {verb} 1")
    return lines + [f"c{client} poll 1" for client in range(8)]


def main():
    start, count = int(sys.argv[1]), int(sys.argv[2])
    if not (0 <= start < 2**64 and 1 <= count <= 10000):
        sys.exit("START is from 0 to 2^64 - 1, and N from 1 to 10000")
    draws = Draws(start)
    files = [file(draws, i) for i in range(count)]
    for path, content in files:
        print(path, len(content), 0, repr(content))
    for line in script(draws, files):
        print(line)


if __name__ == "__main__":
    main()
