#!/usr/bin/env python3
"""Times an index of attributes and the plans over it: builds a program over md_index and md_plan in a temporary folder with
`rt`, and runs it; then asks SQLite the same of a table in memory with an index for each column.

Prints a line for each measure, on 100,000 rows with the ten values of every file and three of its content, or so many as the
first argument says. Needs `rt` in the path, Python's `sqlite3`, half a gigabyte of memory, and about ten minutes."""

import os
import pathlib
import sqlite3
import subprocess
import sys
import tempfile
import time

import programs

USED = ["md_plan", "md_index", "md_text", "md_world", "md_value", "sqlite_items"]

PROGRAM = """//! Times an index.
#![tactic(auto)]

use md_index::{Edge, Index, Mark, Probe};
use md_plan::Plan;
use md_text::Key;
use md_value::{Attrs, Name, Path, Text, Value};
use md_world::Row;
use sqlite_items::Items;
use std::alloc::Global;
use std::env;
use std::time::Instant;

fn put(alloc: Global, attrs: &mut Attrs, name: &str, value: Value) -> anyhow::Result<()> {
    if matches!(&value, Value::Moment(_)) {
        return Ok(());
    }
    let Ok(name) = Name::read(alloc, name) else {
        return Ok(());
    };
    let mut values = Vec::new(alloc);
    values.push(value)?;
    let _ = attrs.put(name, values);
    Ok(())
}

fn put_text(alloc: Global, attrs: &mut Attrs, name: &str, text: &str) -> anyhow::Result<()> {
    put(alloc, attrs, name, Value::Text(Text::of(alloc, text)?))
}

fn put_number(alloc: Global, attrs: &mut Attrs, name: &str, number: u64) -> anyhow::Result<()> {
    put(alloc, attrs, name, Value::Number((number % 1_000_000_000) as i64))
}

fn attrs(alloc: Global, number: u64, rating: u64) -> anyhow::Result<Attrs> {
    let mut attrs = Attrs::new(alloc);
    let name = format!(in alloc; "file {number}.txt")?;
    let path = format!(in alloc; "folder {}/file {number}.txt", number % 100)?;
    let title = format!(in alloc; "Minutes of meeting {number}")?;
    put_text(alloc, &mut attrs, "kMDItemContentType", "public.plain-text")?;
    put_text(alloc, &mut attrs, "kMDItemContentTypeTree", "public.text")?;
    put_text(alloc, &mut attrs, "kMDItemDisplayName", name.as_str())?;
    put_number(alloc, &mut attrs, "kMDItemFSContentChangeDate", number.wrapping_mul(61))?;
    put_text(alloc, &mut attrs, "kMDItemFSName", name.as_str())?;
    put_number(alloc, &mut attrs, "kMDItemFSSize", number.wrapping_mul(7_919) % 65_536)?;
    put_text(alloc, &mut attrs, "kMDItemKind", "Plain Text Document")?;
    put_text(alloc, &mut attrs, "kMDItemPath", path.as_str())?;
    put_number(alloc, &mut attrs, "kMDItemStarRating", rating)?;
    put_text(alloc, &mut attrs, "kMDItemTitle", title.as_str())?;
    put_text(alloc, &mut attrs, "kMDItemCreator", "Minutes of all")?;
    Ok(attrs)
}

fn row(alloc: Global, number: u64, rating: u64) -> anyhow::Result<Option<Row>> {
    let attrs = attrs(alloc, number, rating)?;
    let text = format!(in alloc; "folder {}/file {number}.txt", number % 100)?;
    match Path::read(alloc, text.as_str()) {
        Ok(path) => Ok(Some(Row { path, attrs })),
        Err(_) => Ok(None),
    }
}

// The rating 5 for ten rows alone.
fn rating(number: u64) -> u64 {
    if number % 10_000 == 17 { 5 } else { number % 4 }
}

fn rows(alloc: Global, count: u64) -> anyhow::Result<Vec<Row>> {
    let mut all = Vec::new(alloc);
    for number in 0..count {
        if let Some(row) = row(alloc, number, rating(number))? {
            all.push(row)?;
        }
    }
    Ok(all)
}

fn change(index: &mut Index, place: u32, old: Option<&Row>, new: Option<&Row>) -> anyhow::Result<()> {
    let ready = index.ready(place, old, new)?;
    index.apply(ready);
    Ok(())
}

fn fill(index: &mut Index, rows: &[Row]) -> anyhow::Result<()> {
    let mut place = 0u32;
    for row in rows {
        change(index, place, None, Some(row))?;
        place = place.wrapping_add(1);
    }
    Ok(())
}

fn probe(alloc: Global, name: &str, low: Edge, high: Edge) -> anyhow::Result<Plan> {
    let Ok(name) = Name::read(alloc, name) else {
        return Ok(Plan::All);
    };
    Ok(Plan::Probe(Probe { name, fold: true, marks: true, low, high }))
}

fn of_text(alloc: Global, name: &str, text: &str) -> anyhow::Result<Plan> {
    let low = Edge::With(Mark::Text(Key::of(alloc, text, true, true)?));
    let high = Edge::With(Mark::Text(Key::of(alloc, text, true, true)?));
    probe(alloc, name, low, high)
}

fn rated(alloc: Global) -> anyhow::Result<Plan> {
    let low = Edge::With(Mark::Number(5_000_000_000));
    let high = Edge::With(Mark::Number(5_000_000_000));
    probe(alloc, "kMDItemStarRating", low, high)
}

fn large(alloc: Global) -> anyhow::Result<Plan> {
    let low = Edge::Without(Mark::Number(30_000_000_000_000));
    probe(alloc, "kMDItemFSSize", low, Edge::None)
}

fn least(alloc: Global, first: Plan, second: Plan) -> anyhow::Result<Plan> {
    let mut plans = Vec::new(alloc);
    plans.push(first)?;
    plans.push(second)?;
    Ok(Plan::Least(Items::from_vec(plans)))
}

fn find(rt: &HostRuntime, index: &Index, text: &str, plan: &Plan) -> anyhow::Result<()> {
    let start = Instant::now(rt)?;
    let found = plan.find(rt.alloc(), index)?;
    let spent = start.elapsed(rt)?.as_micros();
    println!(rt; "plan of {text}: {} places, {spent} us", found.len())?;
    Ok(())
}

fn find_all(rt: &HostRuntime, index: &Index) -> anyhow::Result<()> {
    let alloc = rt.alloc();
    find(rt, index, "rating = 5", &rated(alloc)?)?;
    find(rt, index, "size > 30000 and rating = 5", &least(alloc, large(alloc)?, rated(alloc)?)?)?;
    find(rt, index, "rating = 5 and size > 30000", &least(alloc, rated(alloc)?, large(alloc)?)?)?;
    find(rt, index, "size > 30000", &large(alloc)?)?;
    find(rt, index, "kind = Plain Text Document, folded", &of_text(alloc, "kMDItemKind", "plain text document")?)?;
    find(rt, index, "name = file 77.txt, folded", &of_text(alloc, "kMDItemFSName", "FILE 77.txt")?)?;
    find(rt, index, "all rows", &Plan::All)
}

// Has the index make the keys of names, folded.
fn want(rt: &HostRuntime, index: &mut Index) -> anyhow::Result<()> {
    let plan = of_text(rt.alloc(), "kMDItemFSName", "")?;
    let start = Instant::now(rt)?;
    plan.want(index)?;
    let spent = start.elapsed(rt)?.as_micros();
    println!(rt; "keys of names, folded: {spent} us")?;
    Ok(())
}

// Changes the rating of rows, and back, with all else as it was.
fn rate(rt: &HostRuntime, index: &mut Index, rows: &[Row], count: u64) -> anyhow::Result<()> {
    let alloc = rt.alloc();
    let mut others = Vec::new(alloc);
    for number in 0..count {
        others.push(row(alloc, number, rating(number).wrapping_add(1))?)?;
    }
    let start = Instant::now(rt)?;
    let mut place = 0u32;
    for (old, new) in rows.iter().zip(&others) {
        change(index, place, Some(old), new.as_ref())?;
        place = place.wrapping_add(1);
    }
    let spent = start.elapsed(rt)?.as_nanos();
    println!(rt; "rating changed of {place} rows: {} ns each", spent.checked_div(u128::from(place)).unwrap_or(0))?;
    Ok(())
}

fn measure(rt: &HostRuntime, rows: &[Row]) -> anyhow::Result<()> {
    let alloc = rt.alloc();
    let mut index = Index::new(alloc);
    let start = Instant::now(rt)?;
    fill(&mut index, rows)?;
    let spent = start.elapsed(rt)?.as_micros();
    println!(rt; "index of {} rows: {spent} us", rows.len())?;
    find_all(rt, &index)?;
    want(rt, &mut index)?;
    for _ in 0..3 {
        find_all(rt, &index)?;
    }
    rate(rt, &mut index, rows, 1_000)
}

fn main(rt: HostRuntime) -> anyhow::Result<()> {
    let mut count = 100_000u64;
    let mut is_bare = false;
    for word in env::args(&rt)?.skip(1) {
        match word.parse::<u64>() {
            Ok(number) => count = number,
            Err(_) => is_bare = true,
        }
    }
    let rows = rows(rt.alloc(), count)?;
    if is_bare {
        println!(rt; "{} rows", rows.len())?;
        return Ok(());
    }
    measure(&rt, &rows)
}
"""

COLUMNS = ["type", "tree", "display", "date", "name", "size", "kind", "path", "rating", "title", "creator"]


def values(number):
    """The values of a row, as the program has them."""
    name, path = f"file {number}.txt", f"folder {number % 100}/file {number}.txt"
    rating = 5 if number % 10_000 == 17 else number % 4
    return ("public.plain-text", "public.text", name, number * 61 % 1_000_000_000, name, number * 7_919 % 65_536, "Plain Text Document", path, rating,
            f"Minutes of meeting {number}", "Minutes of all")


def time_sqlite(count):
    """What SQLite takes for the same rows, look-ups and changes."""
    base = sqlite3.connect(":memory:")
    base.execute(f"create table rows (place integer primary key, {', '.join(COLUMNS)})")
    for column in COLUMNS:
        base.execute(f"create index by_{column} on rows ({column})")
    base.execute("create index folded on rows (name collate nocase)")
    rows = [(number, *values(number)) for number in range(count)]
    start = time.perf_counter()
    for row in rows:
        base.execute(f"insert into rows values ({', '.join('?' * len(row))})", row)
    print(f"sqlite: index of {count} rows: {(time.perf_counter() - start) * 1e6:.0f} us")
    for where in ("rating = 5", "size > 30000 and rating = 5", "rating = 5 and size > 30000", "size > 30000", "kind = 'Plain Text Document'",
                  "name = 'file 77.txt' collate nocase"):
        spent = []
        for _ in range(3):
            start = time.perf_counter()
            found = base.execute(f"select place from rows where {where}").fetchall()
            spent.append(time.perf_counter() - start)
        print(f"sqlite: {where}: {len(found)} places, {min(spent) * 1e6:.0f} us")
    start = time.perf_counter()
    for place in range(1_000):
        base.execute("update rows set rating = rating + 1 where place = ?", (place,))
    print(f"sqlite: rating changed of 1000 rows: {(time.perf_counter() - start) * 1e6:.0f} ns each")


def peak(command):
    """Runs the command, and answers how many bytes it had at most."""
    ran = subprocess.Popen(command)
    _, status, used = os.wait4(ran.pid, 0)
    if status:
        sys.exit(f"{command[0]} ended with {status}")
    return used.ru_maxrss * 1024


def main():
    count = sys.argv[1] if len(sys.argv) > 1 else "100000"
    with tempfile.TemporaryDirectory() as folder:
        program = programs.build(pathlib.Path(folder), USED, PROGRAM)
        bare = peak([program, count, "bare"])
        whole = peak([program, count])
        print(f"rows: {bare} bytes at most, with the index {whole}")
    time_sqlite(int(count))


main()
