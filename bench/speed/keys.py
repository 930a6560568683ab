#!/usr/bin/env python3
"""Times keys and patterns: builds a program over md_text in a temporary folder with `rt`, and runs it.

Prints a line for each measure. Needs `rt` in the path, and about a minute."""

import pathlib
import tempfile

import programs

USED = ["md_text", "md_value"]

PROGRAM = """//! Times keys and patterns.
#![tactic(auto)]

use md_text::{Key, Pattern};
use md_value::Text;
use std::alloc::{AllocError, Global};
use std::time::Instant;

const MEBIBYTE: usize = 1 << 20;

fn repeated(alloc: Global, part: &str, bytes: usize) -> Result<String, AllocError> {
    let mut text = String::new(alloc);
    for _ in 0..bytes {
        if text.len() >= bytes {
            break;
        }
        text.push_str(part)?;
    }
    Ok(text)
}

fn pieces(alloc: Global, words: &str) -> Result<Vec<Text>, AllocError> {
    let mut made = Vec::new(alloc);
    for word in words.split('*') {
        made.push(Text::of(alloc, word)?)?;
    }
    Ok(made)
}

fn time_key(rt: &HostRuntime, name: &str, part: &str, mebibytes: usize, fold: bool, marks: bool) -> anyhow::Result<()> {
    let alloc = rt.alloc();
    let text = repeated(alloc, part, mebibytes.saturating_mul(MEBIBYTE))?;
    let start = Instant::now(rt)?;
    let key = Key::of(alloc, text.as_str(), fold, marks)?;
    let spent = start.elapsed(rt)?.as_millis();
    println!(rt; "key of {} bytes {name}, fold {fold}, marks {marks}: {spent} ms, {} characters", text.len(), key.as_slice().len())?;
    Ok(())
}

fn time_match(rt: &HostRuntime, name: &str, words: &str, part: &str, bytes: usize) -> anyhow::Result<()> {
    let alloc = rt.alloc();
    let text = repeated(alloc, part, bytes)?;
    let words = pieces(alloc, words)?;
    if words.is_empty() {
        return Ok(());
    }
    let pattern = Pattern::of(alloc, &words, true, true)?;
    let start = Instant::now(rt)?;
    let found = pattern.matches(alloc, text.as_str(), true, true)?;
    let spent = start.elapsed(rt)?.as_micros();
    println!(rt; "{name}, with the key of {} bytes: {found}, {spent} us", text.len())?;
    Ok(())
}

fn main(rt: HostRuntime) -> anyhow::Result<()> {
    let ascii = "The quick brown fox jumps over the lazy dog. 0123456789 ";
    let mixed = "Los r\\u{e9}sum\\u{e9}s fran\\u{e7}ais, \\u{39f}\\u{3b4}\\u{3c5}\\u{3c3}\\u{3c3}\\u{3b5}\\u{3cd}\\u{3c2} \\u{d55c}\\u{ae00} \\u{c0ac}\\u{c6a9}. ";
    for fold in [false, true] {
        for marks in [false, true] {
            time_key(&rt, "of ASCII", ascii, 64, fold, marks)?;
            time_key(&rt, "of mixed text", mixed, 16, fold, marks)?;
        }
    }
    time_match(&rt, "one word in ASCII without it", "*zebra*", ascii, 64 * MEBIBYTE)?;
    time_match(&rt, "one word in mixed text without it", "*zebra*", mixed, 16 * MEBIBYTE)?;
    time_match(&rt, "four pieces in 16 MiB, the last not in it", "the quick*brown*lazy*zebra*", ascii, 16 * MEBIBYTE)?;
    let letters = "a*a*a*a*a*a*a*a*a*a*a*a*a*a*a*a*a*a*a*a*a*a*a*a*a*";
    let alloc = rt.alloc();
    let hundred = format!(in alloc; "{letters}{letters}{letters}{letters}")?;
    let all = format!(in alloc; "{hundred}a")?;
    let none = format!(in alloc; "{hundred}b")?;
    let inner = format!(in alloc; "{hundred}b*")?;
    time_match(&rt, "100 letters and the same last in a million of that letter", all.as_str(), "a", 1_000_000)?;
    time_match(&rt, "100 letters and another last in a million of that letter", none.as_str(), "a", 1_000_000)?;
    time_match(&rt, "100 letters and another within in a million of that letter", inner.as_str(), "a", 1_000_000)?;
    time_match(&rt, "aaaaaaaaab in a million of a", "*aaaaaaaaab*", "a", 1_000_000)?;
    let long = repeated(alloc, "a", 10_000)?;
    let long = format!(in alloc; "*{long}b*")?;
    for _ in 0..2 {
        time_match(&rt, "10,000 of a and b in that letter", long.as_str(), "a", 16 * MEBIBYTE)?;
    }
    Ok(())
}
"""


def main():
    with tempfile.TemporaryDirectory() as folder:
        programs.run(pathlib.Path(folder), USED, PROGRAM)


if __name__ == "__main__":
    main()
