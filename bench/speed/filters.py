#!/usr/bin/env python3
"""Times filters: builds a program over md_match in a temporary folder with `rt`, and the same tests in plain Rust with
`rustc -O`, and runs both.

Prints a line for each measure, three times: how many of 1,000,000 rows pass, and in how many microseconds. Needs `rt` and
`rustc` in the path, a gigabyte of memory, and about ten minutes."""

import programs

USED = ["md_match", "md_expr", "md_world", "md_value"]

PROGRAM = """//! Times filters.
#![tactic(auto)]

use md_expr::read;
use md_match::Filter;
use md_value::{Attrs, Name, Path, Text, Value};
use md_world::Row;
use std::alloc::Global;
use std::time::Instant;

const ROWS: u64 = 1_000_000;

fn put(alloc: Global, attrs: &mut Attrs, name: &str, value: Value) -> anyhow::Result<()> {
    if matches!(&value, Value::Moment(_)) {
        return Ok(());
    }
    let Ok(name) = Name::read(alloc, name) else {
        return Ok(());
    };
    let mut values = Vec::new(alloc);
    values.push(value)?;
    let _ = attrs.put(name, values);
    Ok(())
}

fn row(alloc: Global, number: u64) -> anyhow::Result<Option<Row>> {
    let mut attrs = Attrs::new(alloc);
    let word = match number % 4 {
        0 => "Budget",
        1 => "Annual report",
        2 => "Rosebuds",
        _ => "Minutes of the meeting",
    };
    put(alloc, &mut attrs, "kMDItemFSSize", Value::Number((number % 20) as i64))?;
    put(alloc, &mut attrs, "kMDItemStarRating", Value::Number((number % 6) as i64))?;
    let title = format!(in alloc; "{word} number {number}, draft")?;
    put(alloc, &mut attrs, "kMDItemTitle", Value::Text(Text::of(alloc, title.as_str())?))?;
    let text = format!(in alloc; "files/{number}.txt")?;
    match Path::read(alloc, text.as_str()) {
        Ok(path) => Ok(Some(Row { path, attrs })),
        Err(_) => Ok(None),
    }
}

fn rows(alloc: Global) -> anyhow::Result<Vec<Row>> {
    let mut all = Vec::new(alloc);
    for number in 0..ROWS {
        if let Some(row) = row(alloc, number)? {
            all.push(row)?;
        }
    }
    Ok(all)
}

fn filter(alloc: Global, text: &str) -> Option<Filter> {
    let expr = read(alloc, text).ok()?;
    Filter::new(alloc, &expr, 0, 0, &Path::root(alloc)).ok()
}

fn passing(alloc: Global, filter: &Filter, rows: &[Row]) -> anyhow::Result<u64> {
    let mut passed = 0u64;
    for row in rows {
        if filter.test(alloc, row)? {
            passed = passed.saturating_add(1);
        }
    }
    Ok(passed)
}

fn time(rt: &HostRuntime, text: &str, rows: &[Row]) -> anyhow::Result<()> {
    let Some(filter) = filter(rt.alloc(), text) else {
        println!(rt; "{text}: not read")?;
        return Ok(());
    };
    let start = Instant::now(rt)?;
    let passed = passing(rt.alloc(), &filter, rows)?;
    let spent = start.elapsed(rt)?.as_micros();
    println!(rt; "filter {text}: {passed} rows pass, {spent} us")?;
    Ok(())
}

fn main(rt: HostRuntime) -> anyhow::Result<()> {
    let rows = rows(rt.alloc())?;
    for _ in 0..3 {
        time(&rt, "kMDItemTitle == \\"*bud*\\"cd", &rows)?;
        time(&rt, "kMDItemFSSize > 10 && kMDItemStarRating >= 3", &rows)?;
    }
    Ok(())
}
"""

PLAIN = """// The same tests in plain Rust.
use std::time::Instant;

const ROWS: u64 = 1_000_000;

enum Value {
    Text(String),
    Number(i64),
}

struct Row {
    path: String,
    attrs: Vec<(String, Vec<Value>)>,
}

fn put(attrs: &mut Vec<(String, Vec<Value>)>, name: &str, value: Value) {
    let mut values = Vec::new();
    values.push(value);
    attrs.push((name.to_string(), values));
}

fn row(number: u64) -> Row {
    let word = match number % 4 {
        0 => "Budget",
        1 => "Annual report",
        2 => "Rosebuds",
        _ => "Minutes of the meeting",
    };
    let mut attrs = Vec::new();
    put(&mut attrs, "kMDItemFSSize", Value::Number((number % 20) as i64));
    put(&mut attrs, "kMDItemStarRating", Value::Number((number % 6) as i64));
    let title = format!("{word} number {number}, draft");
    put(&mut attrs, "kMDItemTitle", Value::Text(title.clone()));
    Row { path: format!("files/{number}.txt"), attrs }
}

fn values<'a>(row: &'a Row, name: &str) -> &'a [Value] {
    row.attrs.iter().find(|(other, _)| other == name).map_or(&[], |(_, values)| values)
}

fn has_word(value: &Value, word: &str) -> bool {
    match value {
        // Only ASCII titles are made here.
        Value::Text(text) => text.is_ascii() && text.to_ascii_lowercase().contains(word),
        Value::Number(_) => false,
    }
}

fn is_number(value: &Value, test: impl Fn(i64) -> bool) -> bool {
    match value {
        Value::Text(_) => false,
        Value::Number(number) => test(*number),
    }
}

fn is_inside(row: &Row, folder: &str) -> bool {
    folder.is_empty() || row.path.strip_prefix(folder).is_some_and(|rest| rest.starts_with('/'))
}

fn time(text: &str, rows: &[Row], test: impl Fn(&Row) -> bool) {
    let folder = std::env::args().nth(1).unwrap_or_default();
    let start = Instant::now();
    let passed = rows.iter().filter(|row| is_inside(row, &folder) && test(row)).count();
    println!("plain {text}: {passed} rows pass, {} us", start.elapsed().as_micros());
}

fn main() {
    let rows: Vec<Row> = (0..ROWS).map(row).collect();
    for _ in 0..3 {
        time("kMDItemTitle == \\"*bud*\\"cd", &rows, |row| {
            values(row, "kMDItemTitle").iter().any(|value| has_word(value, "bud"))
        });
        time("kMDItemFSSize > 10 && kMDItemStarRating >= 3", &rows, |row| {
            values(row, "kMDItemFSSize").iter().any(|value| is_number(value, |n| n > 10))
                && values(row, "kMDItemStarRating").iter().any(|value| is_number(value, |n| n >= 3))
        });
    }
}
"""


if __name__ == "__main__":
    programs.compare(USED, PROGRAM, PLAIN)
