//! The yardstick of credaudit's speed: a replay as a careful programmer would write it without proofs. No crates; its other
//! files stand in plain/. `rustc -O plain_replay.rs`; bench.py builds and runs it.
//!
//!   plain_replay gen KIND N SEED WORLD   writes a script log of some N events to stdout, or a log of strace of some N lines
//!                                        KIND: setresuid | setuid | mixed | turns | turns-many | spaces | execve
//!                                        | comments | strace | strace-few | strace-held | strace-held-quarter
//!   plain_replay replay WORLD LOG        "plain": BufReader, write!
//!   plain_replay tuned  WORLD LOG        the same text; bytes read in pieces and printed by hand
//!   plain_replay quiet  WORLD LOG        as tuned, but prints only the last line
//!   plain_replay events WORLD LOG..      of logs of strace the events alone, and how the reading ends
//!   plain_replay bounds WORLD N M        the least closed bounds of the world's processes, by a few numbers; then whether they
//!                                        are closed, N times, and a certificate's judgement, M times (plain/bounds.rs)
//!
//! It reads the world's tables and keys; of script logs the calls setresuid, setuid, no_new_privs, fork, clone_user, unshare,
//! setns, write_uid_map, write_gid_map, write_setgroups, execve and exit; logs of strace whole. On those its report is that
//! of credaudit, byte for byte; of a bad world it says `bad world` alone. Statuses: 0, 3, 4, 5, 6, 9.

#[path = "plain/bounds.rs"]
mod bounds;
#[path = "plain/bounds_rules.rs"]
mod bounds_rules;
#[path = "plain/cred.rs"]
mod cred;
#[path = "plain/files.rs"]
mod files;
#[path = "plain/gen.rs"]
mod gen;
#[path = "plain/gen_strace.rs"]
mod gen_strace;
#[path = "plain/ids.rs"]
mod ids;
#[path = "plain/lines.rs"]
mod lines;
#[path = "plain/machine.rs"]
mod machine;
#[path = "plain/map.rs"]
mod map;
#[path = "plain/names.rs"]
mod names;
#[path = "plain/print.rs"]
mod print;
#[path = "plain/procs.rs"]
mod procs;
#[path = "plain/space.rs"]
mod space;
#[path = "plain/strace.rs"]
mod strace;
#[path = "plain/strace_files.rs"]
mod strace_files;
#[path = "plain/strace_replay.rs"]
mod strace_replay;
#[path = "plain/strace_text.rs"]
mod strace_text;
#[path = "plain/world.rs"]
mod world;

use cred::Res;
use lines::{parse, Event, Lists};
use machine::{Machine, Stop};
use print::{print_cred, print_event, put_cred, put_event};
use procs::Proc;
use std::fs::File;
use std::io::{self, BufRead, BufReader, BufWriter, Read, Write};
use std::process::exit;
use world::World;

fn stop_line(line: u64, stop: &Stop) -> String {
    if stop.0 == 3 { format!("impossible line {line}: {}\n", stop.1) } else { format!("{}\n", stop.1) }
}

/// The process that an event gave birth to.
fn child<'a>(m: &'a Machine, e: &Event) -> Option<(u32, &'a Proc)> {
    let Res::Child(c) = e.res else { return None };
    m.procs.get(c).map(|p| (c, p))
}

fn replay_plain(log: &str, w: &World, mut m: Machine) -> io::Result<u8> {
    let mut inp = BufReader::new(File::open(log)?);
    let mut out = BufWriter::new(io::stdout().lock());
    for (pid, p) in m.procs.all() {
        print_cred(&mut out, w, pid, p)?;
    }
    let (mut line, mut count, mut buf, mut list) = (0u64, 0u64, Vec::new(), Lists::default());
    loop {
        buf.clear();
        if inp.read_until(b'\n', &mut buf)? == 0 {
            break;
        }
        line += 1;
        let e = match parse(&buf, w, &mut list) {
            Ok(None) => continue,
            Ok(Some(e)) => e,
            Err(word) => {
                writeln!(out, "bad log line {line}: {word}")?;
                return out.flush().map(|()| 5);
            }
        };
        if let Err(stop) = m.step(w, &e, &list) {
            out.write_all(stop_line(line, &stop).as_bytes())?;
            return out.flush().map(|()| stop.0);
        }
        count += 1;
        print_event(&mut out, w, line, &e, &list)?;
        if let Some(p) = m.procs.get(e.pid) {
            print_cred(&mut out, w, e.pid, p)?;
        }
        if let Some((c, p)) = child(&m, &e) {
            print_cred(&mut out, w, c, p)?;
        }
    }
    writeln!(out, "end {count}")?;
    out.flush().map(|()| 0)
}

/// One buffer in, one buffer out, no formatting machinery.
fn replay_tuned(log: &str, w: &World, mut m: Machine, print: bool) -> io::Result<u8> {
    let mut inp = File::open(log)?;
    let mut out = io::stdout().lock();
    let mut o: Vec<u8> = Vec::with_capacity(1 << 17);
    if print {
        for (pid, p) in m.procs.all() {
            put_cred(&mut o, w, pid, p);
        }
    }
    let mut buf = vec![0u8; 1 << 16];
    let mut list = Lists::default();
    let (mut lo, mut hi) = (0usize, 0usize);
    let (mut line, mut count, mut end) = (0u64, 0u64, false);
    let mut from = 0; // place from which LF is looked for
    let status = 'all: loop {
        let cut = buf[lo + from..hi].iter().position(|b| *b == b'\n').map(|i| lo + from + i + 1);
        let stop = match cut {
            Some(c) => c,
            None if end && lo < hi => hi,
            None if end => break 'all 0,
            None => {
                from = hi - lo;
                buf.copy_within(lo..hi, 0);
                hi -= lo;
                lo = 0;
                if hi == buf.len() {
                    buf.resize(2 * hi, 0);
                }
                let n = inp.read(&mut buf[hi..])?;
                end = n == 0;
                hi += n;
                continue;
            }
        };
        let text = &buf[lo..stop];
        line += 1;
        lo = stop;
        from = 0;
        match parse(text, w, &mut list) {
            Ok(None) => continue,
            Err(word) => {
                o.extend_from_slice(format!("bad log line {line}: {word}\n").as_bytes());
                break 5;
            }
            Ok(Some(e)) => {
                if let Err(stop) = m.step(w, &e, &list) {
                    o.extend_from_slice(stop_line(line, &stop).as_bytes());
                    break stop.0;
                }
                count += 1;
                if print {
                    put_event(&mut o, w, line, &e, &list);
                    if let Some(p) = m.procs.get(e.pid) {
                        put_cred(&mut o, w, e.pid, p);
                    }
                    if let Some((c, p)) = child(&m, &e) {
                        put_cred(&mut o, w, c, p);
                    }
                    if o.len() >= 1 << 16 {
                        out.write_all(&o)?;
                        o.clear();
                    }
                }
            }
        }
    };
    if status == 0 {
        o.extend_from_slice(format!("end {count}\n").as_bytes());
    }
    out.write_all(&o)?;
    Ok(status)
}

fn usage() -> ! {
    eprintln!("usage: plain_replay gen KIND N SEED WORLD\n       plain_replay replay|tuned|quiet WORLD LOG");
    eprintln!("       plain_replay events WORLD LOG..\n       plain_replay bounds WORLD N M");
    exit(6)
}

fn read_world(name: &str) -> io::Result<(World, Machine)> {
    let text = std::fs::read(name)?;
    world::read(&text).ok_or(()).or_else(|()| {
        println!("bad world");
        exit(4)
    })
}

fn main() -> io::Result<()> {
    let a: Vec<String> = std::env::args().skip(1).collect();
    let words: Vec<&str> = a.iter().map(|s| s.as_str()).collect();
    let num = |s: &str| s.parse::<u64>().unwrap_or_else(|_| usage());
    match words.as_slice() {
        ["gen", kind, n, seed, world] => {
            let (w, m) = read_world(world)?;
            if !gen::generate(kind, num(n), num(seed), &w, m)? {
                usage();
            }
            Ok(())
        }
        [mode @ ("replay" | "tuned" | "quiet"), world, log] => {
            let (w, m) = read_world(world)?;
            let status = match *mode {
                _ if w.strace => strace_replay::replay(log, &w, m, mode)?,
                "replay" => replay_plain(log, &w, m)?,
                _ => replay_tuned(log, &w, m, *mode == "tuned")?,
            };
            exit(i32::from(status))
        }
        ["events", world, logs @ ..] => {
            let (w, m) = read_world(world)?;
            logs.iter().try_for_each(|log| strace_replay::events(log, &w, &m))
        }
        ["bounds", world, closed_runs, check_runs] => {
            let (w, m) = read_world(world)?;
            bounds::bounds(&w, &m, num(closed_runs) as u32, num(check_runs) as u32)
        }
        _ => usage(),
    }
}
