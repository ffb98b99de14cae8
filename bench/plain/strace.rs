//! A reader of logs of strace -f, as docs/STRACE.md says: held lines, births, unfinished calls, followed descriptors. It is
//! fed line by line, and hands over each event with the number of its line.
use crate::cred::Res;
use crate::lines::{id, number, pid_of, Call, Event, Lists, PLAIN};
use crate::machine::{Machine, Stop};
use crate::names::Fnv;
use crate::space::Side;
use crate::strace_files::{path_of, written_map, written_word, File, Path};
use crate::strace_text::*;
use crate::world::World;
use std::collections::{HashMap, VecDeque};
use std::hash::BuildHasherDefault;

const LAST_PID: u32 = 4_194_304;
const MOST_BYTES: usize = 1_048_576;
const MOST_HELD: usize = 4096;
const MOST_DESCRIPTORS: usize = 65_536;
const MOST_GROUPS: usize = 1024;

type ByNumber<K, V> = HashMap<K, V, BuildHasherDefault<Fnv>>;
/// Where events go: the number of the line, the event, what stands beside it.
pub type Sink<'a> = dyn FnMut(u64, &Event, &Lists) -> Result<(), Stop> + 'a;

#[derive(Clone, Copy)]
struct Descriptor {
    file: File,
    space: u32,
    until_exec: bool,
}

#[derive(Default)]
struct Task {
    known: bool,
    space: u32,
    shares: bool, // its descriptors: born so, or gave such a birth
    begun: bool,
    kept: Vec<u8>, // of the call that began
    files: ByNumber<u64, Descriptor>,
}

enum Bad {
    Fault(&'static str),
    Argument(u32),
    Limit(&'static str, usize),
}

use self::Bad::{Argument, Fault};

type Given = Result<Option<(Call, Res)>, Bad>;
type Line = (u64, Vec<u8>); // its number and its body

pub struct Reader<'a> {
    w: &'a World,
    at: Vec<u32>, // by pid one more than the place of its task, 0: none
    tasks: Vec<Task>,
    free: Vec<u32>,
    held: ByNumber<u32, VecDeque<Line>>,
    held_count: usize,
    spaces: u32,
    descriptors: usize,
    quoted: Vec<u8>,
    whole: Vec<u8>, // a call that was resumed
    lists: Lists,
}

fn plain(outcome: Outcome) -> Result<Res, Bad> {
    match outcome {
        Outcome::Number(0) => Ok(Res::Done),
        Outcome::Error(e) => Ok(Res::Err(e)),
        _ => Err(Fault("result")),
    }
}

/// The first three arguments, how many of them there are, and the text of all.
struct First<'a>([&'a [u8]; 3], usize, &'a [u8]);

impl<'a> First<'a> {
    fn of(inside: &'a [u8]) -> First<'a> {
        let (mut first, mut count) = ([&b""[..]; 3], 0);
        for (at, piece) in first.iter_mut().zip(pieces(inside)) {
            *at = piece;
            count += 1;
        }
        First(first, count, inside)
    }

    fn get(&self, k: usize) -> Option<&'a [u8]> {
        (k <= self.1).then(|| self.0[k - 1])
    }

    fn need<T>(&self, k: usize, read: impl FnOnce(&'a [u8]) -> Option<T>) -> Result<T, Bad> {
        self.get(k).and_then(read).ok_or(Argument(k as u32))
    }

    /// An argument without which the call can't be told; the result is looked at before it.
    fn deciding(&self, k: usize, outcome: Outcome) -> Result<&'a [u8], Bad> {
        match (self.get(k), outcome) {
            (None, Outcome::Other) => Err(Fault("result")),
            _ => self.need(k, Some),
        }
    }

    /// The capability that the argument is.
    fn capability(&self, k: usize) -> Result<u32, Bad> {
        let mut left = pieces(self.2);
        for _ in 1..k {
            left.next();
        }
        left.0.and_then(capability).ok_or(Argument(k as u32))
    }

    fn number(&self, k: usize) -> Option<u64> {
        self.get(k).and_then(number).map(u64::from)
    }
}

impl<'a> Reader<'a> {
    pub fn new(w: &'a World, m: &Machine) -> Reader<'a> {
        let mut reader = Reader {
            w,
            at: vec![0; LAST_PID as usize + 1],
            tasks: Vec::new(),
            free: Vec::new(),
            held: HashMap::default(),
            held_count: 0,
            spaces: m.spaces.len() as u32,
            descriptors: 0,
            quoted: Vec::new(),
            whole: Vec::new(),
            lists: Lists::default(),
        };
        for (pid, p) in m.procs.all() {
            let task = reader.slot(pid);
            (reader.tasks[task].known, reader.tasks[task].space) = (true, p.space);
        }
        reader
    }

    // ---- lines --------------------------------------------------------------------

    /// A line comes, without its LF.
    pub fn feed(&mut self, n: u64, line: &[u8], sink: &mut Sink) -> Result<(), Stop> {
        if line.len() > MOST_BYTES {
            return Err(limit("line", MOST_BYTES));
        }
        let line = without_end(line);
        if line.is_empty() {
            return Ok(());
        }
        let (pid, rest) = match short_number(line) {
            Some((pid, rest)) if (1..=LAST_PID).contains(&pid) => (Some(pid), rest),
            _ => {
                let (word, rest) = first_word(line);
                (pid_of(word), rest)
            }
        };
        let pid = pid.ok_or_else(|| Stop(5, format!("bad log line {n}: pid")))?;
        let body = without_front(rest);
        if !self.is_known(pid) {
            self.held.entry(pid).or_default().push_back((n, body.to_vec()));
            self.held_count += 1;
            return if self.held_count > MOST_HELD { Err(limit("held", MOST_HELD)) } else { Ok(()) };
        }
        match self.read(n, pid, body, sink)? {
            Some(child) if self.held_count > 0 => self.read_born(child, sink),
            _ => Ok(()),
        }
    }

    /// The held lines of a child, and of those that they give birth to.
    fn read_born(&mut self, child: u32, sink: &mut Sink) -> Result<(), Stop> {
        let mut pids = vec![child];
        while let Some(&pid) = pids.last() {
            match self.next_held(pid) {
                Some((n, body)) => pids.extend(self.read(n, pid, &body, sink)?),
                None => drop(pids.pop()),
            }
        }
        Ok(())
    }

    fn next_held(&mut self, pid: u32) -> Option<Line> {
        if !self.is_known(pid) {
            return None;
        }
        let lines = self.held.get_mut(&pid)?;
        let line = lines.pop_front();
        if lines.is_empty() {
            self.held.remove(&pid);
        }
        self.held_count -= usize::from(line.is_some());
        line
    }

    /// The log ends.
    pub fn finish(&mut self, sink: &mut Sink) -> Result<(), Stop> {
        for task in &mut self.tasks {
            task.begun = false;
        }
        let mut lines = Vec::new();
        for (pid, of_pid) in self.held.drain() {
            lines.extend(of_pid.into_iter().map(|(n, body)| (n, pid, body)));
        }
        lines.sort_unstable_by_key(|line| line.0);
        let mut count = 0;
        for (n, pid, body) in lines {
            self.read(n, pid, &body, &mut |n, e, lists| {
                count += 1;
                sink(n, e, lists)
            })?;
            if count > 0 {
                break;
            }
        }
        Ok(())
    }

    /// A line is read now; a child that it gives birth to is answered.
    fn read(&mut self, n: u64, pid: u32, body: &[u8], sink: &mut Sink) -> Result<Option<u32>, Stop> {
        let event = self.body(pid, body).map_err(|bad| match bad {
            Fault(word) => Stop(5, format!("bad log line {n}: {word}")),
            Argument(k) => Stop(5, format!("bad log line {n}: argument {k}")),
            Bad::Limit(name, most) => limit(name, most),
        })?;
        let Some((call, res)) = event else { return Ok(None) };
        sink(n, &Event { pid, call, res }, &self.lists)?;
        Ok(if let Res::Child(child) = res { Some(child) } else { None })
    }

    // ---- processes --------------------------------------------------------------------

    fn task(&self, pid: u32) -> Option<&Task> {
        self.tasks.get((self.at[pid as usize] as usize).wrapping_sub(1))
    }

    fn is_known(&self, pid: u32) -> bool {
        self.task(pid).is_some_and(|t| t.known)
    }

    /// The place of the task of a pid, a new one where it has none.
    fn slot(&mut self, pid: u32) -> usize {
        if self.at[pid as usize] == 0 {
            let place = self.free.pop().unwrap_or_else(|| {
                self.tasks.push(Task::default());
                self.tasks.len() as u32
            });
            self.at[pid as usize] = place;
        }
        self.at[pid as usize] as usize - 1
    }

    fn ends(&mut self, pid: u32) {
        let task = self.slot(pid);
        self.descriptors -= self.tasks[task].files.len();
        self.tasks[task] = Task::default();
        self.free.push(task as u32 + 1);
        self.at[pid as usize] = 0;
    }

    fn descriptor(&self, pid: u32, fd: Option<u64>) -> Option<Descriptor> {
        self.task(pid)?.files.get(&fd?).copied()
    }

    fn forget(&mut self, pid: u32, fd: u64) {
        let at = self.at[pid as usize] as usize;
        if at > 0 && self.tasks[at - 1].files.remove(&fd).is_some() {
            self.descriptors -= 1;
        }
    }

    fn within_limit(&self) -> Result<(), Bad> {
        if self.descriptors > MOST_DESCRIPTORS { Err(Bad::Limit("descriptors", MOST_DESCRIPTORS)) } else { Ok(()) }
    }

    // ---- bodies --------------------------------------------------------------------

    fn body(&mut self, pid: u32, body: &[u8]) -> Given {
        match body {
            [b'-', b'-', b'-', ..] => return Ok(None),
            [b'+', b'+', b'+', rest @ ..] => return self.end_mark(pid, rest),
            [.., b'>'] => {
                if let Some(begin) = body.strip_suffix(b"<unfinished ...>") {
                    let task = self.slot(pid);
                    let task = &mut self.tasks[task];
                    if task.begun {
                        return Err(Fault("unfinished"));
                    }
                    task.begun = true;
                    task.kept.clear();
                    task.kept.extend_from_slice(begin);
                    return Ok(None);
                }
            }
            _ => (),
        }
        match resumed(body) {
            Some((name, tail)) => self.resume(pid, name, tail),
            None => self.call(pid, body),
        }
    }

    fn end_mark(&mut self, pid: u32, rest: &[u8]) -> Given {
        let Some(inner) = rest.strip_suffix(b"+++") else { return Ok(None) };
        let (first, rest) = first_word(without_front(inner));
        let (second, rest) = first_word(without_front(rest));
        let ended = match (first, second) {
            (b"superseded", _) => return Err(Fault("superseded")),
            (b"exited", b"with") => is_digits(trimmed(rest)),
            (b"killed", b"by") => true,
            _ => false,
        };
        if !ended {
            return Ok(None);
        }
        self.ends(pid);
        Ok(Some((Call::Exit, Res::Done)))
    }

    fn resume(&mut self, pid: u32, name: &[u8], tail: &[u8]) -> Given {
        let task = self.slot(pid);
        let task = &mut self.tasks[task];
        let begun = call_name(&task.kept);
        if !task.begun || begun != without_32(name) {
            return Err(Fault("unfinished"));
        }
        task.begun = false;
        if name_length(&task.kept) < task.kept.len() && listed(begun).is_none() {
            return Ok(None); // the name ended in the kept text
        }
        let mut whole = std::mem::take(&mut self.whole);
        whole.clear();
        whole.extend_from_slice(&task.kept);
        whole.extend_from_slice(tail);
        let given = self.call(pid, &whole);
        self.whole = whole;
        given
    }

    // ---- calls --------------------------------------------------------------------

    fn call(&mut self, pid: u32, text: &[u8]) -> Given {
        let Some(name) = listed(call_name(text)) else { return Ok(None) };
        let (inside, result) = shape(text).ok_or(Fault("shape"))?;
        let outcome = outcome(result);
        let success = match outcome {
            Outcome::NoReturn => return Ok(None),
            Outcome::Number(n) => Some(n),
            _ => None,
        };
        if name == Name::Birth {
            return self.birth(pid, birth_flags(inside), outcome);
        }
        let of_descriptors = matches!(name, Name::Write | Name::Close | Name::Dup | Name::DupTo | Name::Fcntl);
        if of_descriptors && self.task(pid).map_or(true, |t| t.files.is_empty()) {
            return Ok(None);
        }
        let a = First::of(inside);
        match name {
            Name::SetGroups => self.setgroups(&a, outcome),
            Name::CapSet => self.capset(pid, &a, outcome),
            Name::Prctl => prctl(&a, outcome),
            Name::Unshare => self.unshare(pid, &a, outcome),
            Name::SetNs => self.setns(pid, &a, outcome, success),
            Name::Execve => self.execve(pid, &a, outcome, 1),
            Name::ExecveAt => match a.deciding(1, outcome)? {
                b"AT_FDCWD" => self.execve(pid, &a, outcome, 2),
                _ if success.is_some() => Err(Fault("descriptor")),
                _ => Ok(None),
            },
            Name::Open => self.open(pid, a.get(1), a.get(2).unwrap_or(b""), success),
            Name::OpenAt => self.open(pid, a.get(2), a.get(3).unwrap_or(b""), success),
            Name::Creat => self.open(pid, a.get(1), b"O_WRONLY", success),
            Name::Close => {
                if let (Some(_), Some(fd)) = (success, a.number(1)) {
                    self.forget(pid, fd);
                }
                Ok(None)
            }
            Name::Dup | Name::DupTo => self.copies(pid, &a, success, name == Name::DupTo),
            Name::Fcntl => match a.get(2) {
                Some(b"F_DUPFD" | b"F_DUPFD_CLOEXEC") => self.copies(pid, &a, success, false),
                _ => Ok(None),
            },
            Name::Write => self.write(pid, &a, outcome),
            _ => ids(name, &a, outcome),
        }
    }

    fn setgroups(&mut self, a: &First, outcome: Outcome) -> Given {
        let res = plain(outcome)?;
        let (count, text, groups) = (a.need(1, number)?, a.need(2, Some)?, &mut self.lists.groups);
        groups.clear();
        let inside = if text == b"NULL" { b"" } else { between(text, b'[', b']').ok_or(Argument(2))? };
        for piece in pieces(inside) {
            groups.push(id(piece).ok_or(Argument(2))?);
        }
        if groups.len() != count as usize {
            return Err(Argument(2));
        }
        if groups.len() > MOST_GROUPS {
            return Err(Bad::Limit("groups", MOST_GROUPS));
        }
        Ok(Some((Call::SetGroups, res)))
    }

    fn capset(&mut self, pid: u32, a: &First, outcome: Outcome) -> Given {
        let res = plain(outcome)?;
        a.need(1, |header| {
            let [version, whose] = members(header, [b"version", b"pid"])?;
            let whose = number(whose).filter(|whose| *whose == 0 || *whose == pid);
            whose.filter(|_| !version.is_empty())
        })?;
        self.lists.sets = a.need(2, |sets| {
            let [eff, prm, inh] = members(sets, [b"effective", b"permitted", b"inheritable"])?;
            Some([mask(eff)?, mask(prm)?, mask(inh)?])
        })?;
        Ok(Some((Call::CapSet, res)))
    }

    fn birth(&mut self, pid: u32, flags: &[u8], outcome: Outcome) -> Given {
        let (user, shares) = (has_flag(flags, b"CLONE_NEWUSER"), has_flag(flags, b"CLONE_FILES"));
        let call = if user { Call::CloneUser } else { Call::Fork };
        let child = match outcome {
            Outcome::Error(e) => return Ok(user.then_some((call, Res::Err(e)))),
            Outcome::Number(n) if (1..=u64::from(LAST_PID)).contains(&n) => n as u32,
            _ => return Err(Fault("result")),
        };
        let parent = self.slot(pid);
        if shares && !self.tasks[parent].files.is_empty() {
            return Err(Fault("descriptor"));
        }
        let born = self.slot(child);
        let files = if shares || born == parent { ByNumber::default() } else { self.tasks[parent].files.clone() };
        self.tasks[parent].shares |= shares;
        let space = if user { self.new_space() } else { self.tasks[parent].space };
        let task = &mut self.tasks[born];
        self.descriptors -= task.files.len();
        if task.files.is_empty() {
            task.files = files;
        } else {
            task.files.extend(files);
        }
        self.descriptors += task.files.len();
        (task.known, task.space, task.shares) = (true, space, shares);
        self.within_limit()?;
        Ok(Some((call, Res::Child(child))))
    }

    fn new_space(&mut self) -> u32 {
        self.spaces += 1;
        self.spaces - 1
    }

    fn moves(&mut self, pid: u32, space: u32) {
        let task = self.slot(pid);
        self.tasks[task].space = space;
    }

    fn unshare(&mut self, pid: u32, a: &First, outcome: Outcome) -> Given {
        if !has_flag(a.get(1).unwrap_or(b""), b"CLONE_NEWUSER") {
            return Ok(None);
        }
        let res = plain(outcome)?;
        if res == Res::Done {
            let space = self.new_space();
            self.moves(pid, space);
        }
        Ok(Some((Call::Unshare, res)))
    }

    fn setns(&mut self, pid: u32, a: &First, outcome: Outcome, success: Option<u64>) -> Given {
        let (fd, flags) = (number(a.need(1, Some)?), a.need(2, Some)?);
        match self.descriptor(pid, fd.map(u64::from)).filter(|d| d.file == File::UserSpace) {
            Some(d) if flags == b"0" || flags == b"CLONE_NEWUSER" => {
                let res = plain(outcome)?;
                if res == Res::Done {
                    self.moves(pid, d.space);
                }
                Ok(Some((Call::SetNs(d.space), res)))
            }
            None if success.is_some() && (flags == b"0" || has_flag(flags, b"CLONE_NEWUSER")) => Err(Fault("descriptor")),
            _ => Ok(None),
        }
    }

    fn execve(&mut self, pid: u32, a: &First, outcome: Outcome, place: usize) -> Given {
        let res = plain(outcome)?;
        if quote(a.need(place, Some)?, &mut self.quoted) != Quote::Whole {
            return Err(Argument(place as u32));
        }
        let file = self.w.paths.find(&self.quoted).unwrap_or(PLAIN);
        let at = self.slot(pid);
        let files = &mut self.tasks[at].files;
        if res == Res::Done && !files.is_empty() {
            self.descriptors -= files.len();
            files.retain(|_, d| !d.until_exec);
            self.descriptors += files.len();
        }
        Ok(Some((Call::Exec(file), res)))
    }

    // ---- descriptors --------------------------------------------------------------------

    fn open(&mut self, pid: u32, path: Option<&[u8]>, flags: &[u8], success: Option<u64>) -> Given {
        let Some(fd) = success else { return Ok(None) };
        let writes = has_flag(flags, b"O_WRONLY") || has_flag(flags, b"O_RDWR");
        let path = match path {
            Some(text) if quote(text, &mut self.quoted) == Quote::Whole => path_of(pid, &self.quoted, writes),
            _ => Path::Other,
        };
        let (whose, file) = match path {
            Path::Relative => return Err(Fault("descriptor")),
            Path::Of(whose, file) => (whose, file),
            Path::Other => {
                self.forget(pid, fd);
                return Ok(None);
            }
        };
        let space = self.task(whose).filter(|t| t.known).map(|t| t.space).ok_or(Fault("descriptor"))?;
        let task = self.slot(pid);
        let task = &mut self.tasks[task];
        if task.shares {
            return Err(Fault("descriptor"));
        }
        let until_exec = has_flag(flags, b"O_CLOEXEC");
        self.descriptors += usize::from(task.files.insert(fd, Descriptor { file, space, until_exec }).is_none());
        self.within_limit()?;
        Ok(None)
    }

    fn copies(&mut self, pid: u32, a: &First, success: Option<u64>, to: bool) -> Given {
        let Some(fd) = success else { return Ok(None) };
        if self.descriptor(pid, a.number(1)).is_some() {
            return Err(Fault("descriptor"));
        }
        if to {
            self.forget(pid, fd);
        }
        Ok(None)
    }

    fn write(&mut self, pid: u32, a: &First, outcome: Outcome) -> Given {
        let Some(d) = self.descriptor(pid, a.number(1)).filter(|d| d.file != File::UserSpace) else { return Ok(None) };
        let (number, res) = match outcome {
            Outcome::Number(n) => (Some(n), Res::Done),
            Outcome::Error(e) => (None, Res::Err(e)),
            _ => return Err(Fault("result")),
        };
        let whole = quote(a.need(2, Some)?, &mut self.quoted) == Quote::Whole;
        if whole && number.is_some_and(|n| n != self.quoted.len() as u64) {
            return Err(Fault("result"));
        }
        let call = match d.file {
            _ if !whole => None,
            File::Setgroups => written_word(&self.quoted).map(|deny| Call::WriteSetgroups(d.space, deny)),
            _ => {
                let side = if d.file == File::UidMap { Side::Users } else { Side::Groups };
                written_map(&self.quoted, &mut self.lists.map).then_some(Call::WriteMap(side, d.space))
            }
        };
        match call {
            None if number.is_some() => Err(Argument(2)),
            _ => Ok(call.map(|call| (call, res))),
        }
    }
}

fn limit(name: &str, most: usize) -> Stop {
    Stop(9, format!("limit {name} {most}"))
}

/// The values of the members between braces, which have these names in this order.
fn members<'t, const N: usize>(text: &'t [u8], names: [&[u8]; N]) -> Option<[&'t [u8]; N]> {
    let (mut values, mut parts) = ([&b""[..]; N], pieces(between(text, b'{', b'}')?));
    for (value, name) in values.iter_mut().zip(names) {
        *value = member(name, parts.next()?)?;
    }
    parts.next().is_none().then_some(values)
}

/// The name of a resumed call, and what follows its mark.
fn resumed(body: &[u8]) -> Option<(&[u8], &[u8])> {
    let (name, rest) = first_word(without_front(body.strip_prefix(b"<...")?));
    Some((name, without_front(rest).strip_prefix(b"resumed>")?))
}

fn ids(name: Name, a: &First, outcome: Outcome) -> Given {
    let res = match (name, outcome) {
        (Name::SetFsUid | Name::SetFsGid, Outcome::Number(n)) if n != PAST => Res::Id(n as u32),
        (Name::SetFsUid | Name::SetFsGid, _) => return Err(Fault("result")),
        _ => plain(outcome)?,
    };
    let one = || a.need(1, id);
    let two = || Ok([a.need(1, id)?, a.need(2, id)?]);
    let three = || Ok([a.need(1, id)?, a.need(2, id)?, a.need(3, id)?]);
    let call = match name {
        Name::SetUid => Call::SetUid(one()?),
        Name::SetReUid => Call::SetReUid(two()?),
        Name::SetResUid => Call::SetResUid(three()?),
        Name::SetFsUid => Call::SetFsUid(one()?),
        Name::SetGid => Call::SetGid(one()?),
        Name::SetReGid => Call::SetReGid(two()?),
        Name::SetResGid => Call::SetResGid(three()?),
        _ => Call::SetFsGid(one()?),
    };
    Ok(Some((call, res)))
}

fn prctl(a: &First, outcome: Outcome) -> Given {
    let option = a.deciding(1, outcome)?;
    let what = if option == b"PR_CAP_AMBIENT" { a.deciding(2, outcome)? } else { b"" };
    let res = || plain(outcome);
    let (res, call) = match (option, what) {
        (b"PR_SET_KEEPCAPS", _) => (res()?, Call::KeepCaps(a.need(2, number)?)),
        (b"PR_SET_NO_NEW_PRIVS", _) => (res()?, Call::NoNewPrivs(a.need(2, number)?)),
        (b"PR_SET_SECUREBITS", _) => (res()?, Call::SecureBits(a.need(2, securebits)?)),
        (b"PR_CAPBSET_DROP", _) => (res()?, Call::BsetDrop(a.capability(2)?)),
        (_, b"PR_CAP_AMBIENT_RAISE") => (res()?, Call::AmbRaise(a.capability(3)?)),
        (_, b"PR_CAP_AMBIENT_LOWER") => (res()?, Call::AmbLower(a.capability(3)?)),
        (_, b"PR_CAP_AMBIENT_CLEAR_ALL") => (res()?, Call::AmbClear),
        _ => return Ok(None),
    };
    Ok(Some((call, res)))
}

#[derive(Clone, Copy, PartialEq)]
enum Name {
    SetUid,
    SetReUid,
    SetResUid,
    SetFsUid,
    SetGid,
    SetReGid,
    SetResGid,
    SetFsGid,
    SetGroups,
    CapSet,
    Prctl,
    Birth,
    Unshare,
    SetNs,
    Execve,
    ExecveAt,
    Open,
    OpenAt,
    Creat,
    Close,
    Dup,
    DupTo,
    Fcntl,
    Write,
}

/// The call of a name, where it is listed; looked for by the first letter.
fn listed(name: &[u8]) -> Option<Name> {
    Some(match name.first()? {
        b's' => match name {
            b"setuid" => Name::SetUid,
            b"setreuid" => Name::SetReUid,
            b"setresuid" => Name::SetResUid,
            b"setfsuid" => Name::SetFsUid,
            b"setgid" => Name::SetGid,
            b"setregid" => Name::SetReGid,
            b"setresgid" => Name::SetResGid,
            b"setfsgid" => Name::SetFsGid,
            b"setgroups" => Name::SetGroups,
            b"setns" => Name::SetNs,
            _ => return None,
        },
        b'c' => match name {
            b"capset" => Name::CapSet,
            b"clone" | b"clone3" => Name::Birth,
            b"creat" => Name::Creat,
            b"close" => Name::Close,
            _ => return None,
        },
        b'p' => match name {
            b"prctl" => Name::Prctl,
            b"pwrite64" => Name::Write,
            _ => return None,
        },
        b'e' => match name {
            b"execve" => Name::Execve,
            b"execveat" => Name::ExecveAt,
            _ => return None,
        },
        b'o' => match name {
            b"open" => Name::Open,
            b"openat" => Name::OpenAt,
            _ => return None,
        },
        b'd' => match name {
            b"dup" => Name::Dup,
            b"dup2" | b"dup3" => Name::DupTo,
            _ => return None,
        },
        _ => match name {
            b"write" => Name::Write,
            b"fcntl" => Name::Fcntl,
            b"fork" | b"vfork" => Name::Birth,
            b"unshare" => Name::Unshare,
            _ => return None,
        },
    })
}
