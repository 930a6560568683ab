#!/usr/bin/env python3
"""Times the store of versions: builds a program over md_store in a temporary folder with `rt`, and runs it.

Prints a line for each measure: the milliseconds of 100,000 commits of distinct paths with three attributes, each ticket drawn
just before its commit, and with all tickets drawn first; the milliseconds of a vacuum of 100,000 rows of which half go; the
nanoseconds of a pin with its unpin over 1,000 and 1,000,000 rows; and the bytes that the store takes for a row beyond those of
the row's path and attributes. Needs `rt` in the path, Python 3 on Linux, half a gigabyte of memory, and some minutes."""

import os
import pathlib
import subprocess
import sys
import tempfile

import programs

USED = ["md_store", "md_world", "md_value"]

PROGRAM = """//! Times a store of versions.
#![tactic(auto)]

use md_store::Store;
use md_value::{Attrs, Copied, Name, Path, Text, Value};
use md_world::{Change, Limits, Row};
use std::alloc::Global;
use std::env;
use std::time::Instant;

fn put(alloc: Global, attrs: &mut Attrs, name: &str, value: Value) -> anyhow::Result<()> {
    let Ok(name) = Name::read(alloc, name) else {
        return Ok(());
    };
    let mut values = Vec::new(alloc);
    values.push(value)?;
    if !values.iter().any(|value| matches!(value, Value::Moment(_))) {
        let _ = attrs.put(name, values);
    }
    Ok(())
}

fn attrs(alloc: Global, number: usize) -> anyhow::Result<Attrs> {
    let mut attrs = Attrs::new(alloc);
    let title = format!(in alloc; "The title of file {number}")?;
    put(alloc, &mut attrs, "kMDItemTitle", Value::Text(Text::of(alloc, title.as_str())?))?;
    put(alloc, &mut attrs, "kMDItemKind", Value::Text(Text::of(alloc, "Plain text")?))?;
    put(alloc, &mut attrs, "kMDItemStarRating", Value::Number((number % 1_000) as i64))?;
    Ok(attrs)
}

fn rows(alloc: Global, count: usize, is_full: bool) -> anyhow::Result<Vec<Row>> {
    let mut rows = Vec::with_capacity(alloc, count)?;
    for number in 0..count {
        let text = format!(in alloc; "folder/file-{number}.txt")?;
        if let Ok(path) = Path::read(alloc, text.as_str()) {
            let attrs = if is_full { attrs(alloc, number)? } else { Attrs::new(alloc) };
            rows.push(Row { path, attrs })?;
        }
    }
    Ok(rows)
}

fn changes(alloc: Global, rows: &[Row]) -> anyhow::Result<Vec<Change>> {
    let mut changes = Vec::with_capacity(alloc, rows.len())?;
    for row in rows {
        changes.push(Change::Put(row.attrs.copy(alloc)?))?;
    }
    Ok(changes)
}

fn draw(store: &mut Store, path: &Path) -> u32 {
    store.draw_ticket(path).unwrap_or(0)
}

fn commit(store: &mut Store, ticket: u32, change: &Change) {
    if let Ok(ready) = store.ready(ticket, change) {
        store.apply(ready);
    }
}

fn fill(store: &mut Store, rows: &[Row], changes: &[Change]) {
    for (row, change) in rows.iter().zip(changes) {
        let ticket = draw(store, &row.path);
        commit(store, ticket, change);
    }
}

fn fill_by_tickets(store: &mut Store, tickets: &[u32], changes: &[Change]) {
    for (ticket, change) in tickets.iter().zip(changes) {
        commit(store, *ticket, change);
    }
}

fn draw_all(alloc: Global, store: &mut Store, rows: &[Row]) -> anyhow::Result<Vec<u32>> {
    let mut tickets = Vec::new(alloc);
    for row in rows {
        tickets.push(draw(store, &row.path))?;
    }
    Ok(tickets)
}

fn time_commits(rt: &HostRuntime, count: usize) -> anyhow::Result<()> {
    let alloc = rt.alloc();
    let rows = rows(alloc, count, true)?;
    let changes = changes(alloc, &rows)?;
    let mut store = Store::new(alloc, Limits::STANDARD);
    let start = Instant::now(rt)?;
    fill(&mut store, &rows, &changes);
    let spent = start.elapsed(rt)?.as_millis();
    println!(rt; "{} commits: {spent} ms, {} rows", store.version(), store.kept())?;
    let mut store = Store::new(alloc, Limits::STANDARD);
    let start = Instant::now(rt)?;
    let tickets = draw_all(alloc, &mut store, &rows)?;
    fill_by_tickets(&mut store, &tickets, &changes);
    let spent = start.elapsed(rt)?.as_millis();
    println!(rt; "{} commits of tickets drawn before: {spent} ms, {} rows", store.version(), store.kept())?;
    Ok(())
}

fn time_vacuum(rt: &HostRuntime, count: usize) -> anyhow::Result<()> {
    let alloc = rt.alloc();
    let rows = rows(alloc, count, true)?;
    let changes = changes(alloc, &rows)?;
    let mut store = Store::new(alloc, Limits::STANDARD);
    fill(&mut store, &rows, &changes);
    fill(&mut store, &rows, &changes);
    let before = store.kept();
    let start = Instant::now(rt)?;
    let given = store.vacuum();
    let spent = start.elapsed(rt)?.as_micros();
    println!(rt; "a vacuum of {before} rows, of which {given} go: {spent} us")?;
    Ok(())
}

fn pin_newest(store: &mut Store) -> bool {
    let newest = store.version();
    if store.pin(newest).is_err() {
        return false;
    }
    store.unpin(newest);
    true
}

fn time_pins(rt: &HostRuntime, count: usize) -> anyhow::Result<()> {
    let alloc = rt.alloc();
    let rows = rows(alloc, count, false)?;
    let changes = changes(alloc, &rows)?;
    let mut store = Store::new(alloc, Limits::STANDARD);
    fill(&mut store, &rows, &changes);
    let start = Instant::now(rt)?;
    for _ in 0..10_000 {
        if !pin_newest(&mut store) {
            break;
        }
    }
    let spent = start.elapsed(rt)?.as_micros() / 10;
    println!(rt; "a pin and its unpin over {} rows: {spent} ns", store.kept())?;
    Ok(())
}

// Copies of rows, made one by one, as a store makes them.
fn copies(alloc: Global, count: usize) -> anyhow::Result<usize> {
    let mut rows = Vec::with_capacity(alloc, count)?;
    for number in 0..count {
        let text = format!(in alloc; "folder/file-{number}.txt")?;
        if let Ok(path) = Path::read(alloc, text.as_str()) {
            let row = Row { path, attrs: attrs(alloc, number)? };
            rows.push(row.copy(alloc)?)?;
        }
    }
    Ok(rows.len())
}

fn stored(alloc: Global, count: usize) -> anyhow::Result<usize> {
    let mut store = Store::new(alloc, Limits::STANDARD);
    for number in 0..count {
        let text = format!(in alloc; "folder/file-{number}.txt")?;
        if let Ok(path) = Path::read(alloc, text.as_str()) {
            let change = Change::Put(attrs(alloc, number)?);
            let ticket = draw(&mut store, &path);
            commit(&mut store, ticket, &change);
        }
    }
    Ok(store.kept())
}

fn main(rt: HostRuntime) -> anyhow::Result<()> {
    for word in env::args(&rt)?.skip(1) {
        if word.as_str() == "rows" {
            let count = copies(rt.alloc(), 100_000)?;
            println!(rt; "{count}")?;
            return Ok(());
        }
        if word.as_str() == "store" {
            let count = stored(rt.alloc(), 100_000)?;
            println!(rt; "{count}")?;
            return Ok(());
        }
    }
    time_commits(&rt, 100_000)?;
    time_vacuum(&rt, 50_000)?;
    time_pins(&rt, 1_000)?;
    time_pins(&rt, 1_000_000)?;
    Ok(())
}
"""

# what a row takes beside its path and attributes in a plain list
ROW = 48


def memory(command):
    """The greatest memory of a process in bytes."""
    child = subprocess.Popen(command, stdout=subprocess.DEVNULL)
    _, status, usage = os.wait4(child.pid, 0)
    if status:
        sys.exit(f"{command} ended with {status}")
    return usage.ru_maxrss * 1024


def main():
    with tempfile.TemporaryDirectory() as folder:
        program = programs.build(pathlib.Path(folder), USED, PROGRAM)
        subprocess.run([program], check=True)
        beyond = (memory([program, "store"]) - memory([program, "rows"])) / 100_000 + ROW
        print(f"a row of the store takes {beyond:.0f} bytes beyond those of its path and attributes")


if __name__ == "__main__":
    main()
