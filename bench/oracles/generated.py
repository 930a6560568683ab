#!/usr/bin/env python3
"""Writes the tables of generated files and scripts, by generate.py."""

import generate
import rows
import time_forms

SCRIPT = "bench/oracles/generated.py"

SOURCE = "The wanted values are those of bench/oracles/generate.py, which is written from the rules alone."

GREATEST = 2**64 - 1

SMALL = [(0, 1), (1, 1), (2, 1), (3, 1), (GREATEST, 1), (7, 2), (7, 10), (GREATEST // 3, 11)]

LARGE = [(start, count) for start in (0, 1, 7, 2**32, 2**63, GREATEST) for count in (1, 2, 3, 17, 100, 999)] + [(3, 10_000)]


def text(start, count):
    draws = generate.Draws(start)
    files = [generate.file(draws, i) for i in range(count)]
    shown = "".join(f"{path} {len(content)} 0 {content}\n" for path, content in files)
    return shown + "".join(line + "\n" for line in generate.script(draws, files))


def sums():
    for start, count in LARGE:
        made = text(start, count)
        yield start, count, f"{len(made)} {time_forms.fnv(made):016x}"


def tables():
    notes = [SOURCE, "The text is each file's path, size, time of change and content in turn, and then the script."]
    yield rows.table("generated_files", SCRIPT, "start, number of files, text", notes, ((*given, text(*given)) for given in SMALL))
    yield rows.table("generated_sums", SCRIPT, "start, number of files, bytes of the text and FNV-1a of 64 bits over them", notes, sums())


if __name__ == "__main__":
    rows.write(tables())
