"""Refuses memory to a server that is run event by event, one call after the other.

Builds a program over md_hub in a temporary folder. It sends the events of two runs to a server, and each event that is
answered `Memory` once more, and prints the journal. Where the refused call is the server's, the event has to be answered
as if the refusal had not been: the journal is that of the run without it. Where it is the program's own, it ends early.
"""

import pathlib
import sys
import tempfile

import refusals
from examples import TOP, Example

sys.path.append(str(TOP / "bench/speed"))
import programs

USED = ["md_hub", "md_expr", "md_machine", "md_render", "md_value", "md_world"]

# The events of these examples' scripts, one server behind the other.
EXAMPLES = ["readme/first-run", "parts/of-two-hits"]

PROGRAM = r"""//! Sends events to servers, each again where it is answered `Memory`, and prints their journals.
#![tactic(auto)]

ghost use Rattle.std.specs.Prelude.{◌≡◌, ◌<◌};

use md_expr::read;
use md_hub::Hub;
use md_machine::{Batch, Event, Reply, Spec};
use md_render::push_entry;
use md_value::{Attrs, Name, Path, Text, Value};
use md_world::{Change, Limits, Order, Steps};
use std::alloc::{AllocError, Global};
use std::io;
use std::marker::Brand;
use std::sync::ledger::{Blank, Ledger};

fn path(alloc: Global, text: &str) -> Result<Path, AllocError> {
    match Path::read(alloc, text) {
        Ok(path) => Ok(path),
        Err(_) => Err(AllocError),
    }
}

fn set(alloc: Global, attrs: &mut Attrs, name: &str, text: &str) -> Result<(), AllocError> {
    let values = vec![in alloc; Value::Text(Text::of(alloc, text)?)]?;
    let Ok(name) = Name::read(alloc, name) else {
        return Err(AllocError);
    };
    match attrs.put(name, values) {
        Ok(()) => Ok(()),
        Err(_) => Err(AllocError),
    }
}

// The drawing of a ticket for a file, and its commit.
fn push_put(
    alloc: Global,
    events: &mut Vec<Event>,
    ticket: u32,
    file: &str,
    content: &str,
) -> Result<(), AllocError> {
    let path = path(alloc, file)?;
    events.push(Event::Draw { path })?;
    let mut attrs = Attrs::new(alloc);
    set(alloc, &mut attrs, "kMDItemFSName", file)?;
    set(alloc, &mut attrs, "kMDItemTextContent", content)?;
    let change = Change::Put(attrs);
    events.push(Event::Commit { ticket, change })?;
    Ok(())
}

fn create(alloc: Global, text: &str, batch: Batch) -> Result<Event, AllocError> {
    let Ok(expr) = read(alloc, text) else {
        return Err(AllocError);
    };
    Ok(Event::Create {
        client: 0,
        number: 1,
        spec: Spec {
            expr,
            now: 0,
            offset: 0,
            scope: Path::root(alloc),
            order: Order::by_path(alloc),
            batch,
        },
    })
}

fn gather() -> Event {
    Event::Gather {
        client: 0,
        number: 1,
        now_ms: 0,
    }
}

fn poll() -> Event {
    Event::Poll {
        client: 0,
        number: 1,
        now_ms: 0,
    }
}

fn first_run(alloc: Global) -> Result<Vec<Event>, AllocError> {
    let mut events = Vec::new(alloc);
    push_put(alloc, &mut events, 1, "a.txt", "one")?;
    events.push(create(alloc, "kMDItemFSName == \"a.txt\"", Batch::NONE)?)?;
    events.push(gather())?;
    push_put(alloc, &mut events, 2, "a.txt", "two")?;
    events.push(poll())?;
    Ok(events)
}

fn parts(alloc: Global) -> Result<Vec<Event>, AllocError> {
    let mut events = Vec::new(alloc);
    push_put(alloc, &mut events, 1, "a.txt", "x")?;
    push_put(alloc, &mut events, 2, "b.txt", "x")?;
    push_put(alloc, &mut events, 3, "c.txt", "x")?;
    push_put(alloc, &mut events, 4, "d.txt", "x")?;
    let batch = Batch {
        first: Some(2),
        progress: Some(2),
        update: None,
        ms: None,
    };
    events.push(create(alloc, "kMDItemFSName == \"*\"", batch)?)?;
    for _ in 0..4u32 {
        events.push(gather())?;
    }
    Ok(events)
}

fn answered<L: Ledger>(
    rt: &impl Eprint,
    alloc: Global,
    hub: &mut Hub,
    event: &Event,
    steps: &mut Steps<L>,
) -> io::Result<Reply> {
    match hub.step(alloc, event, steps) {
        Reply::Memory => {
            eprintln!(rt; "again")?;
            Ok(hub.step(alloc, event, steps))
        }
        reply => Ok(reply),
    }
}

fn run_counted<L: Ledger, R: Eprint>(
    rt: &R,
    alloc: Global,
    events: &[Event],
    blank: Blank,
) -> io::Result<String>
    requires name { blank.name ≡ L.name }
    requires parts { (blank.parts ≡ L.parts) × (0 < L.parts) }
{
    let mut steps = Steps::<L>::open(blank);
    let mut hub = Hub::new(alloc, Limits::STANDARD);
    let mut text = String::new(alloc);
    let mut place = 1u64;
    for event in events {
        let reply = answered(rt, alloc, &mut hub, event, &mut steps)?;
        push_entry(&mut text, place, event, &reply)?;
        place = place.saturating_add(1);
    }
    Ok(text)
}

fn run<R: Eprint>(rt: &R, alloc: Global, events: &[Event]) -> io::Result<String> {
    run_counted::<Brand, R>(rt, alloc, events, Blank::new(1))
}

fn main(rt: HostRuntime) -> anyhow::Result<()> {
    let alloc = rt.alloc();
    let first = run(&rt, alloc, &first_run(alloc)?)?;
    let second = run(&rt, alloc, &parts(alloc)?)?;
    print!(rt; "{first}{second}")?;
    Ok(())
}
"""


# The counter of row reads is named by the one blank that it is made of.
PROOFS = {
    "run/Invariants.antt": """use Rattle.speed.proofs.run.Given as goal

abbrev pub ghosts-run_counted : goal.ghosts-run_counted
ghosts-run_counted g a = record { name = a.blank.name; parts = 1 }
""",
}


def results():
    """A fault or None for each call that is refused."""
    journal = b"".join(Example(name).wanted.out for name in EXAMPLES)
    with tempfile.TemporaryDirectory() as folder:
        program = programs.build(pathlib.Path(folder), USED, PROGRAM, PROOFS)
        again = 0
        with refusals.Shim() as shim:
            whole, calls = shim.counted([program])
            yield None if whole == (0, journal, b"") else f"server: {whole}"
            for number, ended in shim.each([program], "memory", calls.memory):
                early = ended.status != 0 and not ended.out
                again += ended.err == b"again\n"
                yield None if early or (ended.status, ended.out) == (0, journal) else f"server, call {number} refused: {ended}"
        yield None if again else "server: no event was answered Memory"
