#!/usr/bin/env python3
"""Times imports: 10,000 JSON files of 1 KiB, and one CSV file of 16 MiB, beside Python's `json` and `csv` with the same
extraction. Python neither tests kinds and dates nor makes the attributes that every file has.

Builds a program over imp_kind in a temporary folder with `rt`, makes both folders, and runs program and Python in turn over
each, three times. Prints the number of attributes, which have to agree, the seconds and MB/s, each with the reading of the
files, and the seconds of a processor. Needs `rt` in the path and about ten minutes."""

import csv
import io
import json
import pathlib
import random
import resource
import subprocess
import tempfile
import time

import programs

USED = ["imp_kind", "md_source", "md_value"]
BASE = 9

PROGRAM = """//! Imports the files below the folder that it works in.
#![tactic(auto)]

use imp_kind::{Imported, import};
use md_source::{Entry, Folder, Tree};
use md_value::{HIGH, LOW, Path};
use std::alloc::Global;
use std::time::Instant;

fn count(alloc: Global, entry: &Entry, bytes: &[u8]) -> usize {
    if entry.changed < LOW || entry.changed > HIGH {
        return 0;
    }
    match import(alloc, entry, bytes, 0) {
        Imported::Attrs(attrs) => attrs.len(),
        Imported::Fault(_) => 0,
        Imported::Memory => 0,
    }
}

fn main(rt: HostRuntime) -> anyhow::Result<()> {
    let alloc = rt.alloc();
    let start = Instant::now(&rt)?;
    let mut tree = Folder::new(rt.clone()?);
    let mut attributes = 0usize;
    let mut files = 0usize;
    if let Ok(entries) = tree.list(alloc, &Path::root(alloc)) {
        for entry in &entries {
            if let Ok(bytes) = tree.read(alloc, &entry.path, 16_777_217) {
                files = files.saturating_add(1);
                attributes = attributes.saturating_add(count(alloc, entry, &bytes));
            }
        }
    }
    let spent = start.elapsed(&rt)?.as_micros();
    println!(rt; "{files} {attributes} {spent}")?;
    Ok(())
}
"""


def make_json(folder):
    folder.mkdir()
    draw = random.Random(7)
    words = ["red", "blue", "tax", "plan", "note", "draft", "final", "budget"]
    for number in range(10_000):
        text = {
            "kMDItemTitle": f"File {number}",
            "kMDItemStarRating": number % 6,
            "kMDItemKeywords": draw.sample(words, 3),
            "kMDItemDueDate": "2024-03-15T10:00:00Z",
            "parts": [],
        }
        while len(json.dumps(text)) < 1_000:
            text["parts"].append({"name": draw.choice(words), "size": draw.randrange(1000), "tags": draw.sample(words, 2)})
        (folder / f"f{number}.json").write_text(json.dumps(text))


def make_csv(folder):
    folder.mkdir()
    draw = random.Random(7)
    words = ["red", "blue", "tax", "plan", "note", "draft", "final", "budget"]
    with open(folder / "table.csv", "w", newline="") as file:
        size = file.write("kMDItemKeywords,notes,place\n")
        while size < 16_777_216 - 100:
            size += file.write(f'{draw.choice(words)},"{draw.choice(words)}, {draw.choice(words)}",{draw.randrange(10**9)}\n')


def strings(value):
    if isinstance(value, str):
        return [value]
    if isinstance(value, list):
        return [text for item in value for text in strings(item)]
    if isinstance(value, dict):
        return [text for key in sorted(value) for text in strings(value[key])]
    return []


KNOWN = ["kMDItemDueDate", "kMDItemKeywords", "kMDItemStarRating", "kMDItemTitle"]


def python_json(folder):
    attributes = 0
    for path in sorted(folder.iterdir()):
        value = json.loads(path.read_bytes().decode())
        found = {key: value[key] for key in KNOWN if key in value}
        found["kMDItemTextContent"] = " ".join(strings(value))
        attributes += len(found) + BASE
    return attributes


def python_csv(folder):
    attributes = 0
    for path in sorted(folder.iterdir()):
        rows = list(csv.reader(io.StringIO(path.read_bytes().decode(), newline="")))
        width = len(rows[0])
        assert all(len(row) == width for row in rows)
        found = {name: [row[at] for row in rows[1:] if row[at]] for at, name in enumerate(rows[0]) if name.startswith("kMDItem")}
        found["md_csv_columns"] = width
        found["md_csv_rows"] = len(rows) - 1
        found["kMDItemTextContent"] = " ".join(field for row in rows for field in row)
        attributes += len(found) + BASE
    return attributes


def spent_by(program, folder):
    """What the program prints over the folder, and its processor seconds."""
    before = resource.getrusage(resource.RUSAGE_CHILDREN)
    ran = subprocess.run([program], cwd=folder, check=True, stdout=subprocess.PIPE)
    after = resource.getrusage(resource.RUSAGE_CHILDREN)
    spent = after.ru_utime + after.ru_stime - before.ru_utime - before.ru_stime
    return map(int, ran.stdout.split()), spent


def compare(program, folder, extract):
    size = sum(path.stat().st_size for path in folder.iterdir()) / 1e6
    for _ in range(3):
        (files, attributes, spent), processor = spent_by(program, folder)
        ours = spent / 1e6
        begin, work = time.monotonic(), time.process_time()
        expected = extract(folder)
        seconds, worked = time.monotonic() - begin, time.process_time() - work
        assert attributes == expected, (attributes, expected)
        print(f"{folder.name}: {files} files, {attributes} attributes: {ours:.2f} s ({size / ours:.0f} MB/s), {processor:.2f} s of a processor; "
              f"Python {seconds:.2f} s ({size / seconds:.0f} MB/s), {worked:.2f} s of a processor")


def main():
    with tempfile.TemporaryDirectory() as folder:
        top = pathlib.Path(folder)
        program = programs.build(top, USED, PROGRAM)
        make_json(top / "json")
        make_csv(top / "csv")
        compare(program, top / "json", python_json)
        compare(program, top / "csv", python_csv)


if __name__ == "__main__":
    main()
