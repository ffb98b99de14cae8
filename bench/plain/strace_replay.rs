//! Logs of strace replayed, plainly or tuned; and their events alone.
use crate::cred::Res;
use crate::lines::{Event, Lists};
use crate::machine::{Machine, Stop};
use crate::print::{print_cred, print_event, put_cred, put_event};
use crate::strace::Reader;
use crate::world::World;
use std::fs::File;
use std::io::{self, BufRead, BufReader, BufWriter, Read, Write};
use std::iter;

const MOST_BYTES: u64 = 1 << 40;
const PIECE: usize = 1 << 16;

/// The place of the first LF, looked for eight bytes at a time.
fn find_lf(text: &[u8]) -> Option<usize> {
    const ONES: u64 = 0x0101_0101_0101_0101;
    let mut at = 0;
    while let Some(piece) = text.get(at..at + 8) {
        let mut word = [0; 8];
        word.copy_from_slice(piece);
        let x = u64::from_le_bytes(word) ^ ONES * 10;
        let hit = x.wrapping_sub(ONES) & !x & ONES << 7;
        if hit != 0 {
            return Some(at + hit.trailing_zeros() as usize / 8);
        }
        at += 8;
    }
    text[at..].iter().position(|b| *b == b'\n').map(|i| at + i)
}

/// Each line of a file without its LF, and its number, until `take` says no more.
fn each_line<E>(mut inp: File, mut take: impl FnMut(u64, &[u8]) -> Result<(), E>) -> io::Result<Result<(), E>> {
    let mut buf = vec![0u8; PIECE];
    let (mut lo, mut hi, mut from, mut line) = (0usize, 0usize, 0usize, 0u64);
    loop {
        while let Some(i) = find_lf(&buf[lo + from..hi]) {
            line += 1;
            if let Err(e) = take(line, &buf[lo..lo + from + i]) {
                return Ok(Err(e));
            }
            lo += from + i + 1;
            from = 0;
        }
        buf.copy_within(lo..hi, 0);
        (lo, hi) = (0, hi - lo);
        from = hi;
        if hi == buf.len() {
            buf.resize(2 * hi, 0);
        }
        let n = inp.read(&mut buf[hi..])?;
        if n == 0 {
            return Ok(if hi > 0 { take(line + 1, &buf[..hi]) } else { Ok(()) });
        }
        hi += n;
    }
}

fn child(e: &Event) -> Option<u32> {
    if let Res::Child(child) = e.res { Some(child) } else { None }
}

/// One event: the machine takes the step, and `print` shows it and who it changed.
struct Replay<'a, P> {
    w: &'a World,
    m: Machine,
    count: u64,
    print: P,
}

impl<P: FnMut(&World, &Machine, u64, &Event, &Lists)> Replay<'_, P> {
    fn step(&mut self, line: u64, e: &Event, lists: &Lists) -> Result<(), Stop> {
        self.m.step(self.w, e, lists).map_err(|stop| match stop {
            Stop(3, why) => Stop(3, format!("impossible line {line}: {why}")),
            stop => stop,
        })?;
        self.count += 1;
        (self.print)(self.w, &self.m, line, e, lists);
        Ok(())
    }
}

pub fn replay(log: &str, w: &World, m: Machine, mode: &str) -> io::Result<u8> {
    let inp = File::open(log)?;
    if inp.metadata()?.len() > MOST_BYTES {
        println!("limit log {MOST_BYTES}");
        return Ok(9);
    }
    let mut reader = Reader::new(w, &m);
    if mode == "replay" { plainly(inp, w, m, &mut reader) } else { tuned(inp, w, m, &mut reader, mode == "tuned") }
}

fn last_line(ended: Result<u64, Stop>) -> (u8, String) {
    match ended {
        Ok(count) => (0, format!("end {count}\n")),
        Err(Stop(status, text)) => (status, text + "\n"),
    }
}

/// Each line read into a buffer, and all printed by the formatting machinery.
fn plainly(inp: File, w: &World, m: Machine, reader: &mut Reader) -> io::Result<u8> {
    let (mut inp, mut out, mut failed) = (BufReader::new(inp), BufWriter::new(io::stdout().lock()), Ok(()));
    for (pid, p) in m.procs.all() {
        print_cred(&mut out, w, pid, p)?;
    }
    let print = |w: &World, m: &Machine, line, e: &Event, lists: &Lists| {
        let mut shown = print_event(&mut out, w, line, e, lists);
        for pid in iter::once(e.pid).chain(child(e)) {
            if let Some(p) = m.procs.get(pid) {
                shown = shown.and_then(|()| print_cred(&mut out, w, pid, p));
            }
        }
        if shown.is_err() {
            failed = shown;
        }
    };
    let mut replay = Replay { w, m, count: 0, print };
    let (mut line, mut buf, mut ended) = (0, Vec::new(), Ok(()));
    while ended.is_ok() {
        buf.clear();
        if inp.read_until(b'\n', &mut buf)? == 0 {
            ended = reader.finish(&mut |line, e, lists| replay.step(line, e, lists));
            break;
        }
        line += 1;
        let text = buf.strip_suffix(b"\n").unwrap_or(&buf);
        ended = reader.feed(line, text, &mut |line, e, lists| replay.step(line, e, lists));
    }
    let (status, text) = last_line(ended.map(|()| replay.count));
    failed?;
    out.write_all(text.as_bytes())?;
    out.flush().map(|()| status)
}

/// One buffer in, one buffer out, no formatting machinery.
fn tuned(inp: File, w: &World, m: Machine, reader: &mut Reader, print: bool) -> io::Result<u8> {
    let (mut out, mut o, mut failed) = (io::stdout().lock(), Vec::with_capacity(2 * PIECE), Ok(()));
    if print {
        for (pid, p) in m.procs.all() {
            put_cred(&mut o, w, pid, p);
        }
    }
    let show = |w: &World, m: &Machine, line, e: &Event, lists: &Lists| {
        if !print {
            return;
        }
        put_event(&mut o, w, line, e, lists);
        for pid in iter::once(e.pid).chain(child(e)) {
            if let Some(p) = m.procs.get(pid) {
                put_cred(&mut o, w, pid, p);
            }
        }
        if o.len() >= PIECE {
            if failed.is_ok() {
                failed = out.write_all(&o);
            }
            o.clear();
        }
    };
    let mut replay = Replay { w, m, count: 0, print: show };
    let mut ended = each_line(inp, |line, text| reader.feed(line, text, &mut |n, e, lists| replay.step(n, e, lists)))?;
    if ended.is_ok() {
        ended = reader.finish(&mut |n, e, lists| replay.step(n, e, lists));
    }
    let (status, text) = last_line(ended.map(|()| replay.count));
    failed?;
    o.extend_from_slice(text.as_bytes());
    out.write_all(&o)?;
    Ok(status)
}

/// Writes the events of a log, which needn't be steps, and how the reading ends.
pub fn events(log: &str, w: &World, m: &Machine) -> io::Result<()> {
    let mut o = Vec::new();
    let (mut reader, mut sink) = (Reader::new(w, m), |line, e: &Event, lists: &Lists| {
        put_event(&mut o, w, line, e, lists);
        Ok(())
    });
    let mut ended = each_line(File::open(log)?, |line, text| reader.feed(line, text, &mut sink))?;
    if ended.is_ok() {
        ended = reader.finish(&mut sink);
    }
    o.extend_from_slice(ended.map_or_else(|stop| stop.1 + "\n", |()| "end\n".into()).as_bytes());
    io::stdout().lock().write_all(&o)
}
