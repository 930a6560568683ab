#!/usr/bin/env python3
"""Times sorted rows: builds a program over md_sort in a temporary folder with `rt`, and the same over Rust's `BTreeMap` with
`rustc -O`, and runs both.

Prints a line for each measure, three times: how many microseconds it took to set rows one by one, and then to look all of them
up by their paths, one by one. Needs `rt` and `rustc` in the path, and some minutes."""

import programs

USED = ["md_sort", "md_world", "md_value"]

PROGRAM = """//! Times sorted rows.
#![tactic(auto)]

use md_sort::Sorted;
use md_value::{Attrs, Name, Path, Value};
use md_world::{Order, Row, SortKey};
use std::alloc::Global;
use std::time::Instant;

const RATING: &str = "kMDItemStarRating";

fn put(attrs: &mut Attrs, name: Name, values: Vec<Value>) -> anyhow::Result<()> {
    if !values.iter().any(|value| matches!(value, Value::Moment(_))) {
        let _ = attrs.put(name, values);
    }
    Ok(())
}

fn attrs(alloc: Global, number: u64) -> anyhow::Result<Attrs> {
    let mut attrs = Attrs::new(alloc);
    if let Ok(name) = Name::read(alloc, RATING) {
        let mut values = Vec::new(alloc);
        values.push(Value::Number((number % 1_000) as i64))?;
        put(&mut attrs, name, values)?;
    }
    Ok(attrs)
}

// The rows of the numbers, shuffled where the step is not 1.
fn rows(alloc: Global, count: u64, step: u64) -> anyhow::Result<Vec<Row>> {
    let mut all = Vec::new(alloc);
    let mut number = 0u64;
    for _ in 0..count {
        number = number.wrapping_add(step) % 100_000;
        let text = format!(in alloc; "files/{number}.txt")?;
        if let Ok(path) = Path::read(alloc, text.as_str()) {
            let attrs = attrs(alloc, number)?;
            all.push(Row { path, attrs })?;
        }
    }
    Ok(all)
}

fn order(alloc: Global, is_keyed: bool) -> anyhow::Result<Order> {
    if is_keyed {
        if let Ok(name) = Name::read(alloc, RATING) {
            let mut keys = Vec::new(alloc);
            keys.push(SortKey { name, descending: true })?;
            if let Ok(order) = Order::of(keys) {
                return Ok(order);
            }
        }
    }
    Ok(Order::by_path(alloc))
}

fn time(rt: &HostRuntime, name: &str, is_keyed: bool, count: u64, step: u64) -> anyhow::Result<()> {
    let alloc = rt.alloc();
    let given = rows(alloc, count, step)?;
    let asked = rows(alloc, count, step)?;
    let mut sorted = Sorted::new(alloc, order(alloc, is_keyed)?);
    let start = Instant::now(rt)?;
    for row in given {
        sorted.reserve(1)?;
        sorted.insert(row);
    }
    let set = start.elapsed(rt)?.as_micros();
    let start = Instant::now(rt)?;
    let mut found = 0u64;
    for row in &asked {
        if sorted.place_of(&row.path).is_some() {
            found = found.wrapping_add(1);
        }
    }
    let looked = start.elapsed(rt)?.as_micros();
    println!(rt; "sorted {name}: {found} rows set in {set} us, looked up in {looked} us")?;
    Ok(())
}

fn main(rt: HostRuntime) -> anyhow::Result<()> {
    for _ in 0..3 {
        time(&rt, "by path, in shuffled order", false, 100_000, 7_919)?;
        time(&rt, "by rating, in shuffled order", true, 100_000, 7_919)?;
    }
    Ok(())
}
"""

PLAIN = """// The same over ordered maps of Rust's library.
use std::cmp::Reverse;
use std::collections::{BTreeMap, HashMap};
use std::time::Instant;

type Attrs = Vec<(String, Vec<i64>)>;

fn rows(count: u64, step: u64) -> Vec<(String, Attrs)> {
    let mut number = 0u64;
    (0..count)
        .map(|_| {
            number = (number + step) % 100_000;
            let attrs = vec![("kMDItemStarRating".to_string(), vec![(number % 1_000) as i64])];
            (format!("files/{number}.txt"), attrs)
        })
        .collect()
}

fn by_path(name: &str, count: u64, step: u64) {
    let given = rows(count, step);
    let asked = rows(count, step);
    let mut map = BTreeMap::new();
    let start = Instant::now();
    for (path, attrs) in given {
        map.insert(path, attrs);
    }
    let set = start.elapsed().as_micros();
    let start = Instant::now();
    let found = asked.iter().filter(|(path, _)| map.contains_key(path)).count();
    println!("plain {name}: {found} rows set in {set} us, looked up in {} us", start.elapsed().as_micros());
}

// With a second map that finds the key of a path.
fn by_rating(name: &str, count: u64, step: u64) {
    let given = rows(count, step);
    let asked = rows(count, step);
    let mut map = BTreeMap::new();
    let mut keys = HashMap::new();
    let start = Instant::now();
    for (path, attrs) in given {
        let key = (Reverse(attrs[0].1[0]), path.clone());
        if let Some(old) = keys.insert(path, key.clone()) {
            map.remove(&old);
        }
        map.insert(key, attrs);
    }
    let set = start.elapsed().as_micros();
    let start = Instant::now();
    let found = asked.iter().filter(|(path, _)| keys.get(path).is_some_and(|key| map.contains_key(key))).count();
    println!("plain {name}: {found} rows set in {set} us, looked up in {} us", start.elapsed().as_micros());
}

fn main() {
    for _ in 0..3 {
        by_path("by path, in shuffled order", 100_000, 7_919);
        by_rating("by rating, in shuffled order", 100_000, 7_919);
    }
}
"""


if __name__ == "__main__":
    programs.compare(USED, PROGRAM, PLAIN)
