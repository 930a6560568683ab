#!/usr/bin/env python3
"""Times acts on a server behind a turn lock, beside a `Mutex` round the same server in plain Rust: builds both programs in a
temporary folder, with `rt` and with `rustc -O`, and runs them.

The peer has the server's events and replies, its open tickets and its versions of rows by path, and makes of each reply a copy, as
the server does; what it has not is queries. A thread draws a ticket for a path of its own and closes it, by turns, or commits a row
of three attributes by it; each act gets an entry in the one journal. Prints a line for 1, 2, 4 and 8 threads, which make 800,000
acts in all: acts in a second, three times. Needs `rt` and `rustc` in the path, Python 3, and some minutes."""

import programs

USED = ["md_turn", "md_hub", "md_machine", "md_world", "md_value"]

PROGRAM = """//! Times acts on a server behind a turn lock.
#![tactic(auto)]
ghost use Rattle.std.specs.Prelude.{◌≡◌, ◌+◌};
ghost use Rattle.std.specs.Thread.{IsSync, IsSend};

use md_hub::Hub;
use md_machine::{Event, Reply};
use md_turn::{Core, JournalEntry, Pass, Turn};
use md_value::{Attrs, Copied, Name, Path, Text, Value};
use md_world::{Change, Limits};
use std::alloc::{AllocError, Global};
use std::sync::Wait;
use std::thread::{Threads, join};
use std::time::Instant;

const ACTS: u64 = 800_000;

fn set(alloc: Global, attrs: &mut Attrs, name: &str, value: Value) -> anyhow::Result<()> {
    let Ok(name) = Name::read(alloc, name) else {
        return Ok(());
    };
    let mut values = Vec::new(alloc);
    values.push(value)?;
    if !values.iter().any(|value| matches!(value, Value::Moment(_))) {
        let _ = attrs.put(name, values);
    }
    Ok(())
}

fn attrs(alloc: Global, number: u32) -> anyhow::Result<Attrs> {
    let mut attrs = Attrs::new(alloc);
    let title = format!(in alloc; "The title of file {number}")?;
    set(alloc, &mut attrs, "kMDItemTitle", Value::Text(Text::of(alloc, title.as_str())?))?;
    set(alloc, &mut attrs, "kMDItemKind", Value::Text(Text::of(alloc, "Plain text")?))?;
    set(alloc, &mut attrs, "kMDItemPageCount", Value::Number((number % 1_000) as i64))?;
    Ok(attrs)
}

fn put(alloc: Global, ticket: u32) -> Option<Event> {
    match attrs(alloc, ticket) {
        Ok(attrs) => Some(Event::Commit { ticket, change: Change::Put(attrs) }),
        Err(_) => None,
    }
}

// The event of a thread that draws a ticket and then closes it, or commits a row by it.
fn event(alloc: Global, path: &Path, number: u64, ticket: u32, commits: bool) -> Option<Event> {
    if number % 2 == 0 {
        Some(Event::Draw { path: path.copy(alloc).ok()? })
    } else if commits {
        put(alloc, ticket)
    } else {
        Some(Event::Close { ticket })
    }
}

// The reply to an event, if the pass may act and there is memory.
fn reply_to<C: Core, R: Wait>(rt: &R, turn: &Turn<C>, pass: &mut Pass, event: Event) -> Option<Reply>
    requires { pass.old.id ≡ turn.now.id }
    ensures { (pass.new.id ≡ pass.old.id) × (pass.new.share ≡ pass.old.share) }
{
    if pass.made() < pass.share() {
        match turn.act(rt, pass, event) {
            Ok((_, reply)) => Some(reply),
            Err(_) => None,
        }
    } else {
        None
    }
}

fn drawn(reply: Option<Reply>, ticket: u32) -> u32 {
    match reply {
        Some(Reply::Ticket(number)) => number,
        _ => ticket,
    }
}

fn act_often<C: Core, R: Wait>(rt: &R, alloc: Global, turn: &Turn<C>, pass: &mut Pass, acts: u64, commits: bool)
    requires { pass.old.id ≡ turn.now.id }
    ensures { (pass.new.id ≡ pass.old.id) × (pass.new.share ≡ pass.old.share) }
{
    let Ok(path) = Path::read(alloc, "a.txt") else {
        return;
    };
    let mut ticket = 0u32;
    for number in 0..acts {
        if let Some(event) = event(alloc, &path, number, ticket, commits) {
            ticket = drawn(reply_to(rt, turn, pass, event), ticket);
        }
    }
}

fn split_half<C: Core>(turn: &Turn<C>, pass: &mut Pass) -> Pass
    requires { pass.old.id ≡ turn.now.id }
    ensures ids { (pass.new.id ≡ pass.old.id) × (result.id ≡ pass.old.id) }
    ensures shares { pass.new.share + result.share ≡ pass.old.share }
{
    let left = pass.share() - pass.made();
    turn.split(pass, left / 2).unwrap()
}

#[cycle(threads)]
fn act_by_threads<C: Core, R: Threads + Wait + Sync>(rt: &R, alloc: Global, turn: &Turn<C>, mut pass: Pass, threads: u8, acts: u64, commits: bool) -> Pass
    requires sends { IsSend C.row × IsSync R.row }
    requires turn { pass.id ≡ turn.now.id }
    ensures { (result.id ≡ pass.id) × (result.share ≡ pass.share) }
{
    if threads <= 1 {
        act_often(rt, alloc, turn, &mut pass, acts, commits);
        return pass;
    }
    let half = threads / 2;
    let rest = threads - half;
    let other = split_half(turn, &mut pass);
    let lower = move || -> Pass
        requires { IsSend C.row × IsSync R.row × (pass.id ≡ turn.now.id) }
        ensures { (result.id ≡ pass.id) × (result.share ≡ pass.share) }
    { act_by_threads(rt, alloc, turn, pass, half, acts, commits) };
    let upper = move || -> Pass
        requires { IsSend C.row × IsSync R.row × (other.id ≡ turn.now.id) }
        ensures { (result.id ≡ other.id) × (result.share ≡ other.share) }
    { act_by_threads(rt, alloc, turn, other, rest, acts, commits) };
    let (mut done, there) = join(rt, lower, upper);
    turn.join(&mut done, there);
    done
}

// The journal of the acts of so many threads.
fn journal_of<C: Core, R: Threads + Wait + Sync>(rt: &R, alloc: Global, core: C, threads: u8, acts: u64, commits: bool) -> Result<Vec<JournalEntry>, AllocError> {
    let (turn, pass) = Turn::new(alloc, core)?;
    let pass = act_by_threads(rt, alloc, &turn, pass, threads, acts, commits);
    let passes = vec![in alloc; pass]?;
    let (_, journal) = turn.close(passes);
    Ok(journal)
}

fn acts_on_hub<R: Threads + Wait + Sync>(rt: &R, alloc: Global, threads: u8, commits: bool) -> Result<Vec<JournalEntry>, AllocError> {
    let acts = ACTS / u64::from(threads.max(1));
    journal_of(rt, alloc, Hub::new(alloc, Limits::STANDARD), threads, acts, commits)
}

fn main(rt: HostRuntime) -> anyhow::Result<()> {
    for commits in [false, true] {
        let acts = if commits { "draws and commits" } else { "draws and closes" };
        for threads in [1, 2, 4, 8, 1, 2, 4, 8, 1, 2, 4, 8] {
            let start = Instant::now(&rt)?;
            let journal = acts_on_hub(&rt, rt.alloc(), threads, commits)?;
            let spent = start.elapsed(&rt)?.as_micros().max(1);
            let entries = journal.len();
            println!(rt; "turn, {threads} threads, {acts}: {entries} entries, {} acts in a second", entries as u128 * 1_000_000 / spent)?;
        }
    }
    Ok(())
}
"""

PROOFS = {
    "+threads/Invariants.antt": """use Rattle.std.proofs.Common.{◌+◌, ◌*◌}
use Rattle.speed.proofs.+threads.Given as goal

abbrev pub decreases-act_by_threads : goal.decreases-act_by_threads
decreases-act_by_threads g l = 2 * l.threads

abbrev pub decreases-lower : goal.decreases-lower
decreases-lower g l = 2 * l.half + 1

abbrev pub decreases-upper : goal.decreases-upper
decreases-upper g l = 2 * l.rest + 1
""",
    "+threads/Answers.antt": """use denote.Param.{param}
use denote.Param.Send.{sendable}
use Rattle.md_turn.proofs.Crossing.{turn_syncs}
use Rattle.md_turn.proofs.pass.Pass.TheSendSync as pass_sent
use Rattle.std.proofs.alloc.Global.TheSendSync as heap_sent
use Rattle.speed.proofs.+threads.Goals as goal

pub join-done-requires-send-F : goal.join-done-requires-send-F
join-done-requires-send-F g t c κs within =
    search (sendable, turn_syncs (param 0 g.row.C) g.C.Core c.requires.sends.0, pass_sent.the_send, heap_sent.the_field_send, c.requires.sends.1) depth 20
""",
    "act_often/Invariants.antt": """use Rattle.std.proofs.Common.{◌≡◌}
use Rattle.speed.proofs.act_often.Given as goal

abbrev pub invariant-loop-number : goal.invariant-loop-number
invariant-loop-number g l = (l.pass.id ≡ l.initial.pass.id) × (l.pass.share ≡ l.initial.pass.share)
""",
    "journal_of/Answers.antt": """use denote.Param.Send.{sendable}
use Rattle.speed.proofs.journal_of.Goals as goal

pub act_by_threads-pass-requires-clause-sends : goal.act_by_threads-pass-requires-clause-sends
act_by_threads-pass-requires-clause-sends g c κs within = (search (sendable, c.type_bounds.send-C) depth 20, search (sendable, c.type_bounds.sync-R) depth 20)
""",
    "acts_on_hub/Answers.antt": """use denote.Param.Send.{sendable}
use Rattle.md_hub.proofs.Crossing.{hub_sends}
use Rattle.speed.proofs.acts_on_hub.Goals as goal

pub journal_of-requires-send-C : goal.journal_of-requires-send-C
journal_of-requires-send-C g c κs within = search (sendable, hub_sends) depth 20
""",
}

PLAIN = r"""#![allow(dead_code)]

use std::collections::HashMap;
use std::sync::Mutex;
use std::time::Instant;

const ACTS: u64 = 800_000;

#[derive(Clone)]
enum Value {
    Text(String),
    Number(i64),
    Flag(bool),
    Moment(i64),
}

type Attrs = Vec<(String, Vec<Value>)>;

enum Literal {
    Words { pieces: Vec<String>, fold: bool, marks: bool },
    Number(i128),
    Time(i64, u8),
}

enum Subject {
    Named(String),
    Some,
}

enum Test {
    Compare { subject: Subject, op: u8, literal: Literal },
    Range { name: String, least: Literal, greatest: Literal },
}

enum Expr {
    Test(Test),
    Not(Box<Expr>),
    All(Vec<Expr>),
    Any(Vec<Expr>),
}

struct Spec {
    expr: Expr,
    now: i64,
    offset: i32,
    scope: String,
    order: Vec<(String, bool)>,
    batch: [Option<u32>; 3],
}

enum Change {
    Put(Attrs),
    Remove,
}

// The events of a server, all of which an entry of a journal has room for.
enum Event {
    Draw { path: String },
    Commit { ticket: u32, change: Change },
    Close { ticket: u32 },
    Create { client: u8, number: u32, spec: Spec },
    Gather { client: u8, number: u32, now_ms: u64 },
    Disable { client: u8, number: u32 },
    Enable { client: u8, number: u32, now_ms: u64 },
    Poll { client: u8, number: u32, now_ms: u64 },
    Stop { client: u8, number: u32 },
    Vacuum { client: u8 },
}

#[derive(Clone)]
struct Shown {
    path: String,
    attrs: Attrs,
}

#[derive(Clone)]
struct Part {
    hits: Vec<Shown>,
    last: bool,
}

#[derive(Clone)]
struct Notice {
    from: u32,
    to: u32,
    added: Vec<Shown>,
    changed: Vec<Shown>,
    removed: Vec<String>,
}

#[derive(Clone)]
enum Reply {
    Ticket(u32),
    Committed(u32),
    Superseded(u32),
    NoTicket,
    Closed,
    Progress(Part),
    Finished(Part, u32),
    Notice(Notice),
    NoQuery,
}

struct Ticket {
    number: u32,
    path: String,
}

struct Row {
    attrs: Attrs,
    from: u32,
    until: u32,
    before: Option<u32>,
}

#[derive(Default)]
struct Place {
    newest: Option<u32>,
    stamp: u32,
}

struct Entry {
    place: u64,
    event: Event,
    reply: Reply,
}

#[derive(Default)]
struct Hub {
    drawn: u32,
    version: u32,
    tickets: Vec<Ticket>,
    places: Vec<Place>,
    place_of: HashMap<String, u32>,
    rows: Vec<Row>,
}

impl Hub {
    fn take(&mut self, ticket: u32) -> Option<Ticket> {
        let at = self.tickets.binary_search_by_key(&ticket, |open| open.number).ok()?;
        Some(self.tickets.remove(at))
    }

    fn commit(&mut self, ticket: u32, change: &Change) -> Reply {
        let Some(Ticket { number, path }) = self.take(ticket) else {
            return Reply::NoTicket;
        };
        let next = self.places.len() as u32;
        let at = *self.place_of.entry(path).or_insert(next);
        if at == next {
            self.places.push(Place::default());
        }
        let place = &mut self.places[at as usize];
        if place.stamp > number {
            return Reply::Superseded(place.stamp);
        }
        self.version += 1;
        place.stamp = number;
        if let Some(row) = place.newest {
            self.rows[row as usize].until = self.version;
        }
        let Change::Put(attrs) = change else {
            place.newest = None;
            return Reply::Committed(self.version);
        };
        let before = place.newest.replace(self.rows.len() as u32);
        self.rows.push(Row { attrs: attrs.clone(), from: self.version, until: u32::MAX, before });
        Reply::Committed(self.version)
    }

    fn step(&mut self, event: &Event) -> Reply {
        match event {
            Event::Draw { path } => {
                self.drawn += 1;
                self.tickets.push(Ticket { number: self.drawn, path: path.clone() });
                Reply::Ticket(self.drawn)
            }
            Event::Commit { ticket, change } => self.commit(*ticket, change),
            Event::Close { ticket } => match self.take(*ticket) {
                Some(_) => Reply::Closed,
                None => Reply::NoTicket,
            },
            _ => Reply::NoQuery,
        }
    }
}

#[derive(Default)]
struct Journaled {
    hub: Hub,
    journal: Vec<Entry>,
}

impl Journaled {
    fn act(&mut self, event: Event) -> (u64, Reply) {
        let reply = self.hub.step(&event);
        let place = self.journal.len() as u64 + 1;
        let copy = reply.clone();
        self.journal.push(Entry { place, event, reply });
        (place, copy)
    }
}

fn attrs(number: u32) -> Attrs {
    vec![
        ("kMDItemTitle".to_string(), vec![Value::Text(format!("The title of file {number}"))]),
        ("kMDItemKind".to_string(), vec![Value::Text("Plain text".to_string())]),
        ("kMDItemPageCount".to_string(), vec![Value::Number(i64::from(number % 1_000))]),
    ]
}

fn act_often(server: &Mutex<Journaled>, path: &str, acts: u64, commits: bool) {
    let mut ticket = 0;
    for number in 0..acts {
        let event = match number % 2 {
            0 => Event::Draw { path: path.to_string() },
            _ if commits => Event::Commit { ticket, change: Change::Put(attrs(ticket)) },
            _ => Event::Close { ticket },
        };
        if let (_, Reply::Ticket(drawn)) = server.lock().unwrap().act(event) {
            ticket = drawn;
        }
    }
}

fn time_acts(threads: u64, commits: bool) {
    let server = Mutex::new(Journaled::default());
    let start = Instant::now();
    std::thread::scope(|scope| {
        for _ in 0..threads {
            scope.spawn(|| act_often(&server, "a.txt", ACTS / threads, commits));
        }
    });
    let spent = start.elapsed().as_micros().max(1);
    let entries = server.into_inner().unwrap().journal.len();
    let acts = if commits { "draws and commits" } else { "draws and closes" };
    println!("mutex, {threads} threads, {acts}: {entries} entries, {} acts in a second", entries as u128 * 1_000_000 / spent);
}

fn main() {
    for commits in [false, true] {
        for threads in [1, 2, 4, 8, 1, 2, 4, 8, 1, 2, 4, 8] {
            time_acts(threads, commits);
        }
    }
}
"""


def main():
    programs.compare(USED, PROGRAM, PLAIN, PROOFS)


if __name__ == "__main__":
    main()
