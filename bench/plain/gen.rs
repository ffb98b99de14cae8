//! Logs of a kind, drawn from a seed. Those of spaces and execve have the results that the machine gives.
use crate::cred::Res;
use crate::gen_strace;
use crate::lines::{Call, Event, Lists, PLAIN};
use crate::machine::Machine;
use crate::map::Extent;
use crate::print::print_event;
use crate::space::Side;
use crate::world::World;
use std::io::{self, BufWriter, Write};

pub struct Draws(u64);

impl Draws {
    pub fn below(&mut self, m: u64) -> u64 {
        self.0 = self.0.wrapping_mul(6364136223846793005).wrapping_add(1442695040888963407);
        (self.0 >> 32) % m
    }

    pub fn number(&mut self, first: u32, count: u32) -> u32 {
        first + self.below(u64::from(count)) as u32
    }
}

/// Lines as they come, each with the result that the machine gives; the machine takes the step.
struct Lines<'a, O: Write> {
    out: O,
    w: &'a World,
    m: Machine,
    left: u64,
}

impl<O: Write> Lines<'_, O> {
    fn call(&mut self, pid: u32, call: Call, list: &[Extent], child: u32) -> io::Result<Res> {
        let lists = Lists { map: list.to_vec(), ..Lists::default() };
        let res = self.m.answer(self.w, pid, call, &lists, child).expect("a caller that lives");
        let e = Event { pid, call, res };
        let mut text = Vec::new();
        print_event(&mut text, self.w, 1, &e, &lists)?;
        self.out.write_all(&text[3..])?; // without the number of the line
        if let Err(stop) = self.m.step(self.w, &e, &lists) {
            panic!("{}", stop.1);
        }
        self.left = self.left.saturating_sub(1);
        Ok(res)
    }

    fn does(&mut self, pid: u32, call: Call) -> io::Result<Res> {
        self.call(pid, call, &[], 0)
    }
}

const CHILDREN: u32 = 100_000; // the first pid of children, past those of the world

/// A birth, what the child does, and its exit.
fn life<O: Write>(l: &mut Lines<O>, parent: u32, child: u32, does: &[Call]) -> io::Result<()> {
    l.call(parent, Call::Fork, &[], child)?;
    for call in does {
        l.does(child, *call)?;
    }
    l.does(child, Call::Exit).map(|_| ())
}

/// Further spaces, up to `most`, each with maps that its maker writes; their makers stay in the initial space.
fn make_spaces<O: Write>(l: &mut Lines<O>, most: usize) -> io::Result<()> {
    let mut child = CHILDREN - 1000;
    while l.m.spaces.len() < most {
        child += 1;
        let (new, first) = (l.m.spaces.len() as u32, 1000 * child % 1_000_000);
        l.call(100, Call::CloneUser, &[], child)?;
        for side in [Side::Users, Side::Groups] {
            l.call(100, Call::WriteMap(side, new), &[Extent { inside: 0, outside: first, length: 1000 }], 0)?;
        }
        l.does(child, Call::SetUid(0))?;
    }
    Ok(())
}

/// Births and exits in all spaces of the world and some more; power along the chain, whose spaces have the numbers 1 to 32.
fn spaces<O: Write>(l: &mut Lines<O>, d: &mut Draws) -> io::Result<()> {
    make_spaces(l, 240)?;
    let members: Vec<u32> = l.m.procs.pids().to_vec();
    while l.left > 0 {
        let (child, k) = (d.number(CHILDREN, 4000), d.number(0, 900));
        let member = members[d.below(members.len() as u64) as usize];
        let (on_chain, any) = (d.number(1, 32), d.number(0, l.m.spaces.len() as u32));
        match d.below(8) {
            0..=3 => life(l, member, child, &[Call::SetResUid([k; 3]), Call::SetUid(0), Call::SetUid(k)])?,
            4 => life(l, 100, child, &[Call::SetNs(on_chain), Call::SetUid(k)])?,
            5 => life(l, 101, child, &[Call::SetNs(on_chain), Call::SetNs(on_chain), Call::SetUid(0)])?,
            6 => {
                l.does(100, Call::WriteSetgroups(on_chain, d.below(4) > 0))?;
                l.does(member, Call::WriteSetgroups(on_chain, true))?;
            }
            _ => {
                l.does(102, Call::SetNs(any))?;
                l.call(member, Call::WriteMap(Side::Groups, any), &[Extent { inside: 0, outside: k, length: 1 }], 0)?;
            }
        }
    }
    Ok(())
}

/// Children of the world's processes, each of which executes some files.
fn execve<O: Write>(l: &mut Lines<O>, d: &mut Draws) -> io::Result<()> {
    let members: Vec<u32> = l.m.procs.pids().to_vec();
    let rows = l.w.files.len() as u64;
    while l.left > 0 {
        let member = members[d.below(members.len() as u64) as usize];
        let mut does = [Call::Exec(PLAIN); 8];
        for call in &mut does {
            let row = d.below(rows + rows / 64) as u32;
            *call = Call::Exec(if u64::from(row) < rows { row } else { PLAIN });
        }
        life(l, member, d.number(CHILDREN, 4000), &does)?;
    }
    Ok(())
}

/// A pid of the table that isn't alive, which it is then.
fn new_pid(d: &mut Draws, alive: &mut [bool]) -> u32 {
    loop {
        let pid = FIRST_TURNS + d.below(alive.len() as u64 - u64::from(FIRST_TURNS)) as u32;
        if !alive[pid as usize] {
            alive[pid as usize] = true;
            return pid;
        }
    }
}

const FIRST_TURNS: u32 = 1000; // the first pid of the processes that come and go

/// So many live processes, children of the pid 100; then by turns one of them, wherever its pid stands, exits, and another
/// one of them gives birth.
fn turns<O: Write>(o: &mut O, d: &mut Draws, live: usize, n: u64) -> io::Result<()> {
    let (mut alive, mut pids) = (vec![false; FIRST_TURNS as usize + 8 * live], Vec::new());
    for _ in 0..live {
        let child = new_pid(d, &mut alive);
        writeln!(o, "100 fork = {child}")?;
        pids.push(child);
    }
    for _ in 0..n / 2 {
        let gone = pids.swap_remove(d.below(live as u64) as usize);
        alive[gone as usize] = false;
        let (parent, child) = (pids[d.below(live as u64 - 1) as usize], new_pid(d, &mut alive));
        writeln!(o, "{gone} exit = 0\n{parent} fork = {child}")?;
        pids.push(child);
    }
    Ok(())
}

pub fn generate(kind: &str, n: u64, seed: u64, w: &World, m: Machine) -> io::Result<bool> {
    let (mut o, mut d) = (BufWriter::with_capacity(1 << 20, io::stdout().lock()), Draws(seed));
    match kind {
        // pid 100 with uid 0 keeps its saved id 0 and so may go on for ever
        "setresuid" => {
            for i in 0..n {
                let e = if i % 2 == 0 { 1000 + d.below(60000) } else { 0 };
                writeln!(o, "100 setresuid -1 {e} -1 = 0")?;
            }
        }
        // of 100:0, 101:1000,1001,1002,1001 and 102:1000: half are done (root's own id; the real and the saved id of
        // the second, whose effective id turns between them), half are refused
        "setuid" => {
            for _ in 0..n {
                let (kind, k) = (d.below(8), 2000 + d.below(60000));
                match kind {
                    0 | 1 => writeln!(o, "100 setuid 0 = 0")?,
                    2 => writeln!(o, "101 setuid 1000 = 0")?,
                    3 => writeln!(o, "101 setuid 1002 = 0")?,
                    4 | 5 => writeln!(o, "101 setuid {k} = EPERM")?,
                    6 => writeln!(o, "102 setuid {k} = EPERM")?,
                    _ => writeln!(o, "102 setuid -1 = EINVAL")?,
                }
            }
        }
        // fork a child, drop its ids, one refused return to 0, exit; 5 events a turn
        "mixed" => {
            for _ in 0..n / 5 {
                let (c, k) = (1000 + d.below(4000), 1000 + d.below(60000));
                writeln!(o, "100 fork = {c}\n{c} setresuid {k} {k} {k} = 0\n{c} setuid 0 = EPERM\n{c} setuid {k} = 0\n{c} exit = 0")?;
            }
        }
        "turns" => turns(&mut o, &mut d, 1000, n)?,
        "turns-many" => turns(&mut o, &mut d, 4000, n)?,
        "spaces" => spaces(&mut Lines { out: &mut o, w, m, left: n }, &mut d)?,
        "execve" => execve(&mut Lines { out: &mut o, w, m, left: n }, &mut d)?,
        _ if gen_strace::sizes(kind).is_some() => {
            let sizes = gen_strace::sizes(kind).expect("it is one");
            gen_strace::generate(&mut o, w, m, n, d, sizes)?;
        }
        "comments" => {
            let c = "; ".to_string() + &"x".repeat(1021);
            for _ in 0..n {
                writeln!(o, "{c}")?;
            }
            writeln!(o, "100 setresuid 1000 1000 1000 = 0")?;
        }
        _ => return Ok(false),
    }
    o.flush().map(|()| true)
}
