#!/usr/bin/env python3
"""Times `mdimport` on a folder of 10,000 files of 2 KiB: half texts, a quarter JSON, a quarter CSV.

Beside it: `cat` of the same files into nothing, and Python's reading of them (UTF-8, json, csv). Prints the seconds
of each, the greatest memory of `mdimport`, and that on a folder of 1,000 of the files, which should differ by little
more than the text that is printed. The last line is `ok`, or what is over 4 times `cat` and Python.
"""
import csv
import fcntl
import io
import json
import os
import pathlib
import random
import select
import subprocess
import sys
import tempfile
import time

TOP = pathlib.Path(__file__).resolve().parents[2]
WORDS = "red blue tax plan note draft final budget rent total".split()
SIZE = 2048
F_SETPIPE_SZ = 1031


def text(draw, size):
    """Words, to this size."""
    made = ""
    while len(made) < size:
        made += draw.choice(WORDS) + " "
    return made[:size]


def content(draw, number):
    """A file's ending and its content of 2 KiB."""
    if number % 4 == 0:
        value = {"kMDItemTitle": f"Plan {number}", "kMDItemStarRating": draw.randrange(6), "kMDItemKeywords": ["red", "tax"], "notes": ""}
        value["notes"] = text(draw, SIZE - len(json.dumps(value)))
        return ".json", json.dumps(value)
    if number % 4 == 1:
        made = "kMDItemKeywords,notes\n"
        while len(made) < SIZE - 40:
            made += f"{draw.choice(WORDS)},{draw.choice(WORDS)} {draw.randrange(1000)}\n"
        return ".csv", made
    return ".txt", text(draw, SIZE)


def fill(folder, count):
    draw = random.Random(7)
    for number in range(count):
        place = folder / f"d{number % 100}"
        place.mkdir(parents=True, exist_ok=True)
        ending, made = content(draw, number)
        (place / f"f{number}{ending}").write_text(made)


def timed(words, folder, out):
    """The seconds that a process takes."""
    begin = time.monotonic()
    subprocess.run(words, cwd=folder, stdout=out, check=True)
    return time.monotonic() - begin


def peak(program, folder):
    """The greatest memory of `mdimport` over the folder, in kilobytes, and the bytes that it prints.

    All is printed at the end, through a pipe that is full after the first page; the memory is read then.
    """
    reader, writer = os.pipe()
    fcntl.fcntl(writer, F_SETPIPE_SZ, 4096)
    run = subprocess.Popen([program, "mdimport", "."], cwd=folder, stdout=writer)
    os.close(writer)
    select.select([reader], [], [])
    status = pathlib.Path(f"/proc/{run.pid}/status").read_text()
    most = int(next(line for line in status.splitlines() if line.startswith("VmHWM")).split()[1])
    with os.fdopen(reader, "rb") as pipe:
        printed = len(pipe.read())
    if run.wait():
        sys.exit(f"mdimport ended with {run.returncode}")
    return most, printed


def parse(folder):
    """What Python takes to read and to parse the files."""
    begin = time.monotonic()
    for path in sorted(folder.rglob("*.*")):
        made = path.read_bytes().decode()
        if path.suffix == ".json":
            json.loads(made)
        elif path.suffix == ".csv":
            list(csv.reader(io.StringIO(made, newline="")))
    return time.monotonic() - begin


def main():
    program = TOP / "mdserve"
    subprocess.run([program, "live"], input=b"", check=True)
    program = TOP / "crates" / "mdserve" / "out" / "mdserve"
    with tempfile.TemporaryDirectory() as work:
        large, small = pathlib.Path(work) / "large", pathlib.Path(work) / "small"
        fill(large, 10_000)
        fill(small, 1_000)
        timed(["sh", "-c", "cat */* > /dev/null"], large, None)
        cat = min(timed(["sh", "-c", "cat */* > /dev/null"], large, None) for _ in range(3))
        ours = min(timed([program, "mdimport", "."], large, subprocess.DEVNULL) for _ in range(3))
        python = min(parse(large) for _ in range(3))
        (most, printed), (fewer, little) = peak(program, large), peak(program, small)
        print(f"mdimport {ours:.2f} s, cat {cat:.2f} s, Python {python:.2f} s: {ours / (cat + python):.2f} times both")
        print(f"memory: {most} kB for 10,000 files and {printed} bytes printed, {fewer} kB for 1,000 files and {little} bytes")
        print("ok" if ours <= 4 * (cat + python) else "over 4 times cat and Python")


main()
