#!/usr/bin/env python3
"""Times `live` on scripts of 1,000, 10,000 and 90,000 lines: puts, 8 queries, gathers and polls.

Prints for each script its lines, the lines of its journal and the seconds. Each run is one process, from its
start to its end; the program is built before.
"""
import pathlib
import subprocess
import sys
import time

TOP = pathlib.Path(__file__).resolve().parents[2]
QUERIES = 8


def script(lines):
    """Puts of files n0.txt and so on; each eighth file is put again; a poll after each hundred lines."""
    out = [f'c{c} query 1 where kMDItemFSName == "n{c * 7}.txt"' for c in range(QUERIES)]
    out += [f"c{c} gather 1" for c in range(QUERIES)]
    number = 0
    while len(out) < lines:
        if len(out) % 100 == 99:
            out.append(f"c{(len(out) // 100) % QUERIES} poll 1")
        elif number % 8 == 7:
            out.append(f"put n{number // 8}.txt again {number}")
            number += 1
        else:
            out.append(f"put n{number}.txt content {number}")
            number += 1
    return "\n".join(out) + "\n"


def main():
    program = TOP / "mdserve"
    subprocess.run([program, "live"], input=b"", check=True)
    sizes = [int(word) for word in sys.argv[1:]] or [1_000, 10_000, 90_000]
    for lines in sizes:
        text = script(lines).encode()
        begin = time.monotonic()
        run = subprocess.run([program, "live"], input=text, stdout=subprocess.PIPE, check=True)
        seconds = time.monotonic() - begin
        print(f"{lines} lines, {run.stdout.count(10)} lines of journal: {seconds:.2f} s")


main()
