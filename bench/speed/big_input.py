#!/usr/bin/env python3
"""Gives big input to the program: expressions, scripts, files and folders at their limits.

    big_input.py [WORD..]           the inputs whose names have all these words, or all inputs

Each run has to end with its status and its output in 5 processor seconds and 1 GiB. Prints a line for each with its
status, its processor seconds (and the seconds that went by), the most memory that it held, and what is wrong with it; at
last 'N passed, M failed'. The program is built before. Needs 300 MB below the folder for temporary files.
"""
import dataclasses
import os
import pathlib
import subprocess
import sys
import tempfile
import time

TOP = pathlib.Path(__file__).resolve().parents[2]
MOST_SECONDS = 5
MOST_BYTES = 2**30
PATIENCE = 60  # seconds until a run is ended
FILE = 16 * 2**20  # the most bytes of a file that is imported
SCRIPT = 64 * 2**20  # the most bytes of a script
DEEP = "/".join(["d"] * 500) + "/a.txt"


@dataclasses.dataclass
class Run:
    words: list
    file: str = ""  # the path of the file that is there, if any
    content: bytes = b""
    script: bytes = b""
    status: int = 0
    out: bytes = b""  # what is printed, or a part of it


def expression():
    """65,536 bytes with 4,096 comparisons and 64 groups that are open at one place."""
    text = "(" * 64 + "||".join(['*=="*a*b"cd'] * 4096) + ")" * 64
    return Run(["mdfind", text.replace("(*", "(" + " " * (65_536 - len(text)) + "*", 1)], "c.txt", b"c")


def puts(lines):
    """A script of 64 MiB, or some bytes less: puts with as much content as fits."""
    each = SCRIPT // lines
    heads = (b"put n%d.txt " % number for number in range(lines))
    script = b"".join(head + b"x" * (each - len(head) - 1) + b"\n" for head in heads)
    return Run(["live"], script=script, out=b"\n%d committed %d %d\n" % (2 * lines, lines, lines))


def imported(name, content, attributes):
    return Run(["mdimport", name], name, content, out=b"%s: %d attributes\n" % (name.encode(), attributes))


def json(head, repeated, tail):
    """A JSON file of 16 MiB, or some bytes less."""
    return head + repeated * ((FILE - len(head) - len(tail)) // len(repeated)) + tail


def matched(content, out):
    return Run(["mdfind", 'kMDItemTextContent == "' + "*a" * 30_000 + '"'], "a.txt", content, out=out)


RUNS = {
    "an expression of 65,536 bytes, 4,096 comparisons and 64 groups": expression,
    "a script of 64 MiB: 4 puts": lambda: puts(4),
    "a script of 64 MiB: 100,000 puts": lambda: puts(100_000),
    "a script of 64 MiB: a comment": lambda: Run(["live"], script=b"#" * SCRIPT),
    "a script of 64 MiB and a byte": lambda: Run(["live"], script=b"#" * (SCRIPT + 1), status=6),
    "JSON of 16 MiB: an array of numbers": lambda: imported("a.json", json(b'{"a":[', b"1,", b"1]}"), 10),
    "JSON of 16 MiB: an array of texts": lambda: imported("a.json", json(b'{"a":[', b'"x",', b'"x"]}'), 10),
    "JSON of 16 MiB: an array of authors": lambda: imported("a.json", json(b'{"kMDItemAuthors":[', b'"x",', b'"x"]}'), 11),
    "JSON of 16 MiB: a text": lambda: imported("a.json", json(b'{"a":"', b"x", b'"}'), 10),
    "JSON of 16 MiB: a key": lambda: imported("a.json", json(b'{"', b"x", b'":1}'), 10),
    "JSON of 16 MiB: 1,398,000 keys": lambda: imported("a.json", b"{" + b",".join(b'"%07d":1' % n for n in range(1_398_000)) + b"}", 10),
    "CSV of 16 MiB: a record of a field": lambda: imported("a.csv", b"x" * FILE, 12),
    "CSV of 16 MiB: a record of 8,388,608 fields": lambda: imported("a.csv", b"a," * (FILE // 2 - 1) + b"a\n", 12),
    "CSV of 8,000,000 records of a letter": lambda: imported("a.csv", b"a\n" * 8_000_000, 12),
    "CSV of 8,000,000 keywords of a letter": lambda: imported("a.csv", b"kMDItemKeywords\n" + b"a\n" * 8_000_000, 13),
    "a text of 16 MiB without a line feed": lambda: imported("a.txt", b"x" * FILE, 10),
    "a pattern of 30,000 *a on 16 MiB that it matches": lambda: matched(b"a" * FILE, b"a.txt\n"),
    "a pattern of 30,000 *a on 16 MiB that it does not match": lambda: matched(b"ab" * (FILE // 2), b""),
    "mdfind over a folder 500 deep": lambda: Run(["mdfind", "x"], DEEP, b"x", out=DEEP.encode() + b"\n"),
    "mdimport of a folder 500 deep": lambda: Run(["mdimport", "d"], DEEP, b"x", out=DEEP.encode() + b": 10 attributes\n"),
    "mdls of a file 500 deep": lambda: Run(["mdls", DEEP], DEEP, b"x", out=DEEP.encode()),
}


def peak_of(process):
    """The most bytes that a process has held so far, or 0 where it has ended."""
    try:
        lines = pathlib.Path(f"/proc/{process}/status").read_text().splitlines()
    except OSError:
        return 0
    return max((int(line.split()[1]) * 1024 for line in lines if line.startswith("VmHWM")), default=0)


def measured(command, folder, script, out):
    """The status, the processor seconds, the seconds and the most bytes of a run."""
    begin = time.monotonic()
    with open(script, "rb") as source, open(out, "wb") as sink:
        process = subprocess.Popen(command, cwd=folder, stdin=source, stdout=sink, stderr=subprocess.DEVNULL)
    peak, ended = 0, 0
    while not ended:
        peak = max(peak, peak_of(process.pid))
        if time.monotonic() - begin > PATIENCE:
            process.kill()
        time.sleep(0.005)
        ended, status, usage = os.wait4(process.pid, os.WNOHANG)
    process.returncode = os.waitstatus_to_exitcode(status)
    return process.returncode, usage.ru_utime + usage.ru_stime, time.monotonic() - begin, peak


def faults_of(run, top):
    """What a run's line says, and what is wrong with it."""
    folder, out = top / "folder", top / "out"
    (folder / run.file).parent.mkdir(parents=True, exist_ok=True)
    folder.mkdir(exist_ok=True)
    if run.file:
        (folder / run.file).write_bytes(run.content)
    (top / "script").write_bytes(run.script)
    program = TOP / "crates/mdserve/out/mdserve"
    status, busy, seconds, peak = measured([program, *run.words], folder, top / "script", out)
    printed = out.read_bytes()
    checks = {
        f"status {run.status} is wanted": status == run.status,
        f"{run.out[-60:]} is wanted": run.out in printed if run.out else not printed,
        f"over {MOST_SECONDS} s": busy <= MOST_SECONDS,
        "over 1 GiB": peak <= MOST_BYTES,
    }
    return f"status {status}, {busy:.2f} s ({seconds:.2f} s), {peak / 2**20:.0f} MiB", [fault for fault, fine in checks.items() if not fine]


def main():
    subprocess.run([TOP / "build"], check=True)
    chosen = [name for name in RUNS if all(word in name for word in sys.argv[1:])]
    failed = 0
    for name in chosen:
        with tempfile.TemporaryDirectory() as top:
            line, faults = faults_of(RUNS[name](), pathlib.Path(top))
        failed += bool(faults)
        print(f"{name}: {line}: {', '.join(faults) or 'ok'}", flush=True)
    print(f"{len(chosen) - failed} passed, {failed} failed")
    return 1 if failed else 0


sys.exit(main())
