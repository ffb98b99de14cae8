//! Looks for runs by which a family comes to hold a right, in a plain machine of which nothing is proved (bench/plain):
//! a witness beside the audit, of whose words it knows nothing. `rustc -O plain_search.rs`; audit_witness.py builds and
//! runs it.
//!
//!   plain_search < QUERIES
//!
//! A query is a line `WORLD LOG PID RIGHT SEED`: a file, another one with a script of fork, install and their like (the
//! calls that the plain reader of scripts knows), the family's first process, the right as an audit has it, a number for
//! the choice of calls. Of each one line is answered at once: `reached DEPTH STATES CALLS PID`, after it the run's
//! events, each behind a tab; or `not DEPTH STATES CALLS`; or `bad`. DEPTH is how many calls the furthest states are
//! away, STATES how many states were met, CALLS how many calls were tried, PID is the least holder.
#![allow(dead_code)]

#[path = "../../bench/plain/cred.rs"]
mod cred;
#[path = "../../bench/plain/files.rs"]
mod files;
#[path = "../../bench/plain/lines.rs"]
mod lines;
#[path = "../../bench/plain/machine.rs"]
mod machine;
#[path = "../../bench/plain/map.rs"]
mod map;
#[path = "search/menu.rs"]
mod menu;
#[path = "../../bench/plain/names.rs"]
mod names;
#[path = "../../bench/plain/print.rs"]
mod print;
#[path = "../../bench/plain/procs.rs"]
mod procs;
#[path = "search/right.rs"]
mod right;
#[path = "../../bench/plain/space.rs"]
mod space;
#[path = "search/walk.rs"]
mod walk;
#[path = "../../bench/plain/world.rs"]
mod world;

use lines::Lists;
use machine::Machine;
use right::Right;
use std::io::{self, BufRead, Write};
use world::World;

/// The machine after a script.
fn replayed(w: &World, mut m: Machine, log: &[u8]) -> Option<Machine> {
    let mut lists = Lists::default();
    for line in log.split(|b| *b == b'\n') {
        if let Some(event) = lines::parse(line, w, &mut lists).ok()? {
            m.step(w, &event, &lists).ok()?;
        }
    }
    Some(m)
}

fn answer(query: &str) -> Option<String> {
    let mut words = query.split(' ');
    let (name, log, pid, right, seed) = (words.next()?, words.next()?, words.next()?, words.next()?, words.next()?);
    let (w, m) = world::read(&std::fs::read(name).ok()?)?;
    let m = replayed(&w, m, &std::fs::read(log).ok()?)?;
    let right = Right::of(right, &w, &m)?;
    let seen = walk::search(&w, m, pid.parse().ok()?, right, seed.parse().ok()?);
    let counts = format!("{} {} {}", seen.depth, seen.states, seen.calls);
    Some(match seen.run {
        None => format!("not {counts}"),
        Some((holder, run)) => {
            let events = String::from_utf8_lossy(&run);
            let events = events.lines().filter_map(|line| line.split_once(": ")).map(|(_, event)| format!("\t{event}"));
            format!("reached {counts} {holder}{}", events.collect::<String>())
        }
    })
}

fn main() -> io::Result<()> {
    let mut out = io::stdout().lock();
    for query in io::stdin().lock().lines() {
        writeln!(out, "{}", answer(&query?).unwrap_or("bad".into()))?;
        out.flush()?;
    }
    Ok(())
}
