"""Refuses memory to imports, one call after the other.

Builds a program over imp_kind in a temporary folder, and runs it on files of each kind, with faults and without, once for
each call of `malloc` or `realloc` that it makes; this call is refused. Where the call is an import's, this import has to
answer want of memory, and all other lines have to be as they were; where it is the program's own, the lines before it have
to be.
"""

import pathlib
import sys
import tempfile

import refusals
from examples import TOP

sys.path.append(str(TOP / "bench/speed"))
import programs

USED = ["imp_kind", "md_source", "md_value"]

PROGRAM = """//! Imports the files below the folder that it works in, and prints what each gives.
#![tactic(auto)]

use imp_kind::{Imported, import};
use md_source::{Entry, Folder, Tree};
use md_value::{Attrs, HIGH, LOW, Path, Value};
use std::alloc::{AllocError, Global};

fn shown_value(alloc: Global, value: &Value) -> Result<String, AllocError> {
    match value {
        Value::Text(text) => format!(in alloc; " '{}'", text.as_str()),
        Value::Number(number) => format!(in alloc; " {number}"),
        Value::Flag(flag) => format!(in alloc; " {flag}"),
        Value::Moment(moment) => format!(in alloc; " @{moment}"),
    }
}

fn shown_attrs(alloc: Global, attrs: &Attrs) -> Result<String, AllocError> {
    let mut shown = String::new(alloc);
    for place in 0..attrs.len() {
        if let Some((name, values)) = attrs.at(place) {
            shown.push_str(name.as_str())?;
            for value in values {
                shown.push_str(&shown_value(alloc, value)?)?;
            }
            shown.push_str("; ")?;
        }
    }
    Ok(shown)
}

fn shown(alloc: Global, imported: &Imported) -> Result<String, AllocError> {
    match imported {
        Imported::Attrs(attrs) => shown_attrs(alloc, attrs),
        Imported::Fault(fault) => format!(in alloc; "{fault:?}"),
        Imported::Memory => String::from_str(alloc, "memory"),
    }
}

fn imported(alloc: Global, entry: &Entry, bytes: &[u8]) -> Option<Imported> {
    if entry.changed < LOW || entry.changed > HIGH {
        return None;
    }
    Some(import(alloc, entry, bytes, 0))
}

fn main(rt: HostRuntime) -> anyhow::Result<()> {
    let alloc = rt.alloc();
    let mut tree = Folder::new(rt.clone()?);
    if let Ok(entries) = tree.list(alloc, &Path::root(alloc)) {
        for entry in &entries {
            let Ok(bytes) = tree.read(alloc, &entry.path, 16_777_217) else {
                return Ok(());
            };
            let Some(imported) = imported(alloc, entry, &bytes) else {
                return Ok(());
            };
            let shown = shown(alloc, &imported)?;
            println!(rt; "{}: {}", entry.path.as_str(), shown.as_str())?;
        }
    }
    Ok(())
}
"""

FILES = {
    "a.txt": b"some words",
    "b.json": b"""{"kMDItemTitle": "title", "kMDItemStarRating": 5, "kMDItemKeywords": ["red", null, "blue"],
        "kMDItemDueDate": "2024-03-15", "other": {"a": ["x", {"b": "y"}], "c": 1.5, "d": true}}""",
    "c.json": b'{"kMDItemTitle": 7}',
    "d.json": b'{"kMDItemStarRating": 4.5}',
    "e.json": b'{"kMDItemDueDate": "soon"}',
    "f.json": b'{"kMDItemTitle": ["x"]}',
    "g.json": b'{"kMDItemTitle": "x"',
    "h.json": b"[1]",
    "i.csv": b'kMDItemKeywords,kMDItemStarRating,kMDItemDueDate,notes\nred,5,2024-03-15,"a, ""b"""\nblue,,,c\n',
    "j.csv": b"a,b\nc\n",
    "k.csv": b"kMDItemStarRating\nfive\n",
    "l.csv": b"kMDItemTitle\nx\ny\n",
    "m.csv": b"kMDItemDueDate\nsoon\n",
    "n.txt": b"\xff",
    "o.bin": b"\xff",
}


def one_memory(lines, whole):
    """Whether these are the whole's lines but for one, which is want of memory."""
    if len(lines) != len(whole):
        return False
    other = [(line, was) for line, was in zip(lines, whole) if line != was]
    return len(other) == 1 and other[0][0] == other[0][1].split(b":")[0] + b": memory"


def is_right(ended, whole):
    """Whether nothing changed, one import wanted memory, or the program ended early."""
    lines = ended.out.splitlines()
    if ended.status == 0 and (lines == whole or one_memory(lines, whole)):
        return True
    return ended.status in (0, 1) and lines == whole[:len(lines)]


def results():
    """A fault or None for each call that is refused."""
    with tempfile.TemporaryDirectory() as folder:
        top = pathlib.Path(folder)
        program = programs.build(top, USED, PROGRAM)
        files = top / "files"
        files.mkdir()
        for name, content in FILES.items():
            (files / name).write_bytes(content)
        wanting = 0
        with refusals.Shim() as shim:
            first, calls = shim.counted([program], cwd=files)
            whole = first.out.splitlines()
            yield None if first.status == 0 and len(whole) == len(FILES) else f"imports: {first}"
            for number, ended in shim.each([program], "memory", calls.memory, cwd=files):
                wanting += one_memory(ended.out.splitlines(), whole)
                yield None if is_right(ended, whole) else f"imports, call {number} refused: {ended}"
        yield None if wanting else "imports: no import wanted memory"
