#!/usr/bin/env python3
"""Times the server's commits: builds a program over md_hub in a temporary folder with `rt`, and runs it.

Prints, for 1,000, 100,000 and 1,000,000 rows of three attributes and for 0, 8 and 64 finished queries that no row passes, the
nanoseconds of a commit that puts such a row again, whose ticket was drawn before: at the same 1,000 paths in each of 20 rounds,
and at paths that no earlier round had; and the nanoseconds of a `Create` and its `Stop`. The argument `small` leaves the million rows out. Needs `rt` in the path, Python 3, two gigabytes of memory, and some minutes."""

import pathlib
import subprocess
import sys
import tempfile

import programs

USED = ["md_hub", "md_machine", "md_world", "md_value", "md_expr"]

PROGRAM = """//! Times a server.
#![tactic(auto)]

ghost use Rattle.std.specs.Prelude.{◌≡◌, ◌<◌};

use md_expr::read;
use md_hub::Hub;
use md_machine::{Batch, Event, Spec};
use md_value::{Attrs, Name, Path, Text, Value};
use md_world::{Change, Limits, Order, Steps};
use std::alloc::Global;
use std::env;
use std::marker::Brand;
use std::sync::ledger::{Blank, Ledger};
use std::time::Instant;

// How many paths are put again in a round, and how many rounds a measure has.
const COMMITS: u32 = 1_000;
const ROUNDS: u32 = 20;

// Paths that follow one another in a round lie so many places apart.
const APART: u64 = 7_919;

// A server with a counter of the rows that it reads.
#[derive(Drop)]
struct Server<L: Ledger> {
    hub: Hub,
    steps: Steps<L>,
}

impl<L: Ledger> Server<L> {
    fn step(&mut self, alloc: Global, event: &Event) {
        self.hub.step(alloc, event, &mut self.steps);
    }
}

fn draw(alloc: Global, number: usize) -> anyhow::Result<Event> {
    let text = format!(in alloc; "folder/file-{number}.txt")?;
    let Ok(path) = Path::read(alloc, text.as_str()) else {
        return Ok(Event::Vacuum { client: 0 });
    };
    Ok(Event::Draw { path })
}

fn set(alloc: Global, attrs: &mut Attrs, name: &str, value: Value) -> anyhow::Result<()> {
    let Ok(name) = Name::read(alloc, name) else {
        return Ok(());
    };
    let mut values = Vec::new(alloc);
    values.push(value)?;
    if !values.iter().any(|value| matches!(value, Value::Moment(_))) {
        let _ = attrs.put(name, values);
    }
    Ok(())
}

fn attrs(alloc: Global, number: u32) -> anyhow::Result<Attrs> {
    let mut attrs = Attrs::new(alloc);
    let title = format!(in alloc; "The title of file {number}")?;
    set(alloc, &mut attrs, "kMDItemTitle", Value::Text(Text::of(alloc, title.as_str())?))?;
    set(alloc, &mut attrs, "kMDItemKind", Value::Text(Text::of(alloc, "Plain text")?))?;
    set(alloc, &mut attrs, "kMDItemPageCount", Value::Number((number % 1_000) as i64))?;
    Ok(attrs)
}

fn put(alloc: Global, ticket: u32) -> anyhow::Result<Event> {
    let attrs = attrs(alloc, ticket)?;
    Ok(Event::Commit { ticket, change: Change::Put(attrs) })
}

fn create(alloc: Global, number: u32) -> anyhow::Result<Event> {
    let Ok(expr) = read(alloc, "kMDItemStarRating == 5") else {
        return Ok(Event::Vacuum { client: 0 });
    };
    let spec = Spec {
        expr,
        now: 0,
        offset: 0,
        scope: Path::root(alloc),
        order: Order::by_path(alloc),
        batch: Batch::NONE,
    };
    Ok(Event::Create { client: 0, number, spec })
}

fn fill<L: Ledger>(alloc: Global, server: &mut Server<L>, rows: u32) -> anyhow::Result<()> {
    for number in 0..rows {
        server.step(alloc, &draw(alloc, number as usize)?);
        server.step(alloc, &put(alloc, number.saturating_add(1))?);
    }
    Ok(())
}

fn finish<L: Ledger>(alloc: Global, server: &mut Server<L>, from: u32, to: u32) -> anyhow::Result<()> {
    for number in from..to {
        server.step(alloc, &create(alloc, number)?);
        server.step(alloc, &Event::Gather { client: 0, number, now_ms: 0 });
    }
    Ok(())
}

// The commits of a measure: their first ticket, the rows that there are, and whether each round has other paths.
#[derive(Clone, Copy)]
struct Measure {
    first: u32,
    rows: u32,
    is_wide: bool,
}

// The path of a commit of a round.
fn path_of(measure: Measure, round: u32, number: u32) -> usize {
    let before = if measure.is_wide { round.saturating_mul(COMMITS) } else { 0 };
    let place = u64::from(before.saturating_add(number)).wrapping_mul(APART);
    place.checked_rem(u64::from(measure.rows)).unwrap_or(0) as usize
}

fn ticket_of(measure: Measure, round: u32, number: u32) -> u32 {
    measure.first.saturating_add(round.saturating_mul(COMMITS)).saturating_add(number)
}

// Draws the tickets of a round, and makes its commits.
fn round_of<L: Ledger>(alloc: Global, server: &mut Server<L>, measure: Measure, round: u32) -> anyhow::Result<Vec<Event>> {
    let mut events = Vec::new(alloc);
    for number in 0..COMMITS {
        server.step(alloc, &draw(alloc, path_of(measure, round, number))?);
        events.push(put(alloc, ticket_of(measure, round, number))?)?;
    }
    Ok(events)
}

fn commit<L: Ledger>(alloc: Global, server: &mut Server<L>, events: &[Event]) {
    for event in events {
        server.step(alloc, event);
    }
}

// The nanoseconds of a commit, over all rounds.
fn time_rounds<L: Ledger>(rt: &HostRuntime, server: &mut Server<L>, measure: Measure) -> anyhow::Result<u128> {
    let mut spent: u128 = 0;
    for round in 0..ROUNDS {
        let events = round_of(rt.alloc(), server, measure, round)?;
        let start = Instant::now(rt)?;
        commit(rt.alloc(), server, &events);
        spent = spent.saturating_add(start.elapsed(rt)?.as_nanos());
    }
    Ok(spent / u128::from(COMMITS * ROUNDS))
}

fn time_commits<L: Ledger>(rt: &HostRuntime, server: &mut Server<L>, rows: u32, queries: u32, first: u32) -> anyhow::Result<()> {
    let same = time_rounds(rt, server, Measure { first, rows, is_wide: false })?;
    let first = first.saturating_add(COMMITS * ROUNDS);
    let wide = time_rounds(rt, server, Measure { first, rows, is_wide: true })?;
    println!(rt; "a commit over {rows} rows and {queries} finished queries: {same} ns at 1,000 paths, {wide} ns at paths all over")?;
    Ok(())
}

fn time_queries<L: Ledger>(rt: &HostRuntime, server: &mut Server<L>, rows: u32) -> anyhow::Result<()> {
    let alloc = rt.alloc();
    let event = create(alloc, 100)?;
    let stop = Event::Stop { client: 0, number: 100 };
    let start = Instant::now(rt)?;
    for _ in 0..1_000u32 {
        server.step(alloc, &event);
        server.step(alloc, &stop);
    }
    let spent = start.elapsed(rt)?.as_nanos() / 1_000;
    println!(rt; "a create and its stop over {rows} rows: {spent} ns")?;
    Ok(())
}

fn time_counted<L: Ledger>(rt: &HostRuntime, rows: u32, blank: Blank) -> anyhow::Result<()>
    requires name { blank.name ≡ L.name }
    requires parts { (blank.parts ≡ L.parts) × (0 < L.parts) }
{
    let alloc = rt.alloc();
    let mut server = Server {
        hub: Hub::new(alloc, Limits::STANDARD),
        steps: Steps::<L>::open(blank),
    };
    fill(alloc, &mut server, rows)?;
    let first = rows.saturating_add(1);
    time_commits(rt, &mut server, rows, 0, first)?;
    time_queries(rt, &mut server, rows)?;
    finish(alloc, &mut server, 0, 8)?;
    time_commits(rt, &mut server, rows, 8, first.saturating_add(COMMITS * ROUNDS * 2))?;
    finish(alloc, &mut server, 8, 64)?;
    time_commits(rt, &mut server, rows, 64, first.saturating_add(COMMITS * ROUNDS * 4))?;
    Ok(())
}

fn time(rt: &HostRuntime, rows: u32) -> anyhow::Result<()> {
    time_counted::<Brand>(rt, rows, Blank::new(1))
}

fn main(rt: HostRuntime) -> anyhow::Result<()> {
    time(&rt, 1_000)?;
    time(&rt, 100_000)?;
    for word in env::args(&rt)?.skip(1) {
        if word.as_str() == "large" {
            time(&rt, 1_000_000)?;
        }
    }
    Ok(())
}
"""

# The counter of row reads is named by the one blank that it is made of.
PROOFS = {
    "time/Invariants.antt": """use Rattle.speed.proofs.time.Given as goal

abbrev pub ghosts-time_counted : goal.ghosts-time_counted
ghosts-time_counted a = record { name = a.blank.name; parts = 1 }
""",
}


def main():
    with tempfile.TemporaryDirectory() as folder:
        program = programs.build(pathlib.Path(folder), USED, PROGRAM, PROOFS)
        subprocess.run([program] if "small" in sys.argv else [program, "large"], check=True)


if __name__ == "__main__":
    main()
