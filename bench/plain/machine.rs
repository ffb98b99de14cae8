//! The machine: processes and spaces, and what becomes of an event.
use crate::cred::{Caller, Cred, Res, SYS_ADMIN};
use crate::lines::{kind, Call, Event, Lists, PLAIN};
use crate::procs::{Proc, Procs};
use crate::space::{made, may_join, may_say, written, Member, Side, Space};
use crate::world::World;
use std::rc::Rc;

pub const MOST_PROCESSES: usize = 4096;
pub const MOST_SPACES: usize = 256;

/// Those that any call but exit may answer with nothing changed.
const OUTSIDE: [&str; 5] = ["ENOMEM", "EAGAIN", "EINTR", "EFAULT", "EIO"];
const OF_EXEC: [&str; 9] =
    ["ENOENT", "EACCES", "ENOTDIR", "ELOOP", "ENAMETOOLONG", "E2BIG", "ENOEXEC", "ETXTBSY", "ELIBBAD"];

#[derive(Clone)]
pub struct Machine {
    pub procs: Procs,
    pub spaces: Vec<Space>,
    pub no_groups: Rc<[u32]>,
}

/// Why there is no step: the report's last line without its front, and the status.
pub struct Stop(pub u8, pub String);

/// What a step changes beside the result.
enum Change {
    Caller(Cred),
    Birth(Option<Space>),
    Space(Space),
    Join(u32),
    Map(Side, u32, crate::map::Map),
    Word(u32, bool),
    Exit,
    Fs(u32, Cred), // and the id from before
    Groups(Rc<[u32]>),
    Filter(u32),
}

/// The process has excluded such calls.
fn excludes(p: &Proc, call: Call) -> bool {
    p.filter != 0 && p.filter >> kind(call) & 1 == 1
}

fn is_outside(call: Call, error: &str) -> bool {
    let more = match call {
        Call::Exit | Call::SetFsUid(_) | Call::SetFsGid(_) => return false,
        Call::Unshare | Call::CloneUser | Call::SetNs(_) => error == "EINVAL",
        Call::Exec(_) => OF_EXEC.contains(&error),
        _ => false,
    };
    more || OUTSIDE.contains(&error)
}

fn impossible(why: &str) -> Stop {
    Stop(3, why.into())
}

/// What the rules give a caller, and what that changes. A birth's own result is told elsewhere.
fn rule(w: &World, spaces: &[Space], p: &Proc, call: Call, lists: &Lists) -> Result<Change, Res> {
    let own = &spaces[p.space as usize];
    let who = Member { space: p.space, cred: &p.cred };
    let done = |res: Res, change: Change| if res == Res::Done { Ok(change) } else { Err(res) };
    if excludes(p, call) {
        return Err(Res::Err("EPERM"));
    }
    match call {
        Call::SetResUid(v) => p.cred.setresuid(own, v).map(Change::Caller),
        Call::SetUid(k) => p.cred.setuid(own, k).map(Change::Caller),
        Call::NoNewPrivs(n) => p.cred.no_new_privs(n).map(Change::Caller),
        Call::Fork => Ok(Change::Birth(None)),
        Call::CloneUser => made(spaces, who).map(|s| Change::Birth(Some(s))),
        Call::Unshare => made(spaces, who).map(Change::Space),
        Call::SetNs(target) => done(may_join(spaces, who, target), Change::Join(target)),
        Call::WriteMap(side, target) => {
            written(spaces, who, side, target, &lists.map).map(|map| Change::Map(side, target, map))
        }
        Call::WriteSetgroups(target, deny) => done(may_say(spaces, who, target, deny), Change::Word(target, deny)),
        Call::Exec(row) => {
            let file = (row != PLAIN).then(|| &w.files[row as usize]);
            let file = file.map(|f| (f, f.interpreter.map_or(f, |i| &w.files[i as usize])));
            let caller = Caller { cred: p.cred, groups: &p.groups, space: p.space, spaces };
            caller.exec(file).map(Change::Caller)
        }
        Call::Exit => Ok(Change::Exit),
        Call::Install(more) if p.cred.nnp || p.cred.eff & SYS_ADMIN != 0 => Ok(Change::Filter(more)),
        Call::Install(_) => Err(Res::Err("EACCES")),
        Call::SetReUid(v) => p.cred.setreuid(own, v).map(Change::Caller),
        Call::SetGid(k) => p.cred.setgid(own, k).map(Change::Caller),
        Call::SetReGid(v) => p.cred.setregid(own, v).map(Change::Caller),
        Call::SetResGid(v) => p.cred.setresgid(own, v).map(Change::Caller),
        Call::SetFsUid(k) => {
            let (was, cred) = p.cred.setfsuid(own, k);
            Ok(Change::Fs(was, cred))
        }
        Call::SetFsGid(k) => {
            let (was, cred) = p.cred.setfsgid(own, k);
            Ok(Change::Fs(was, cred))
        }
        Call::SetGroups => p.cred.setgroups(own, &lists.groups).map(|groups| Change::Groups(groups.into())),
        Call::CapSet => p.cred.capset(lists.sets).map(Change::Caller),
        Call::BsetDrop(k) => p.cred.bset_drop(k).map(Change::Caller),
        Call::AmbRaise(k) => p.cred.amb_raise(k).map(Change::Caller),
        Call::AmbLower(k) => p.cred.amb_lower(k).map(Change::Caller),
        Call::AmbClear => Ok(Change::Caller(Cred { amb: 0, ..p.cred })),
        Call::SecureBits(bits) => p.cred.securebits(bits).map(Change::Caller),
        Call::KeepCaps(n) => p.cred.keepcaps(n).map(Change::Caller),
    }
}

impl Machine {
    pub fn new() -> Machine {
        Machine { procs: Procs::default(), spaces: vec![Space::initial()], no_groups: Rc::new([]) }
    }

    fn least_free(&self) -> u32 {
        (1..).find(|k| !self.procs.has(*k)).unwrap_or(1)
    }

    /// The result of a call, a birth having this child; nothing changes.
    pub fn answer(&self, w: &World, pid: u32, call: Call, lists: &Lists, child: u32) -> Option<Res> {
        Some(match rule(w, &self.spaces, self.procs.get(pid)?, call, lists) {
            Ok(Change::Birth(_)) => Res::Child(child),
            Ok(Change::Fs(was, _)) => Res::Id(was),
            Ok(_) => Res::Done,
            Err(res) => res,
        })
    }

    /// What becomes of an event: a step, or the reason why it is none.
    pub fn step(&mut self, w: &World, e: &Event, lists: &Lists) -> Result<(), Stop> {
        if let Res::Child(c) = e.res {
            if self.procs.has(e.pid) && self.procs.has(c) {
                return Err(impossible("pid in use"));
            }
        }
        let Some(p) = self.procs.get_mut(e.pid) else { return Err(impossible("no process")) };
        if let Call::SetNs(s) | Call::WriteMap(_, s) | Call::WriteSetgroups(s, _) = e.call {
            if s as usize >= self.spaces.len() {
                return Err(impossible("no space"));
            }
        }
        if let Res::Err(x) = e.res {
            if is_outside(e.call, x) && !excludes(p, e.call) {
                return Ok(());
            }
        }
        match (rule(w, &self.spaces, p, e.call, lists), e.res) {
            (Ok(Change::Caller(cred)), Res::Done) => {
                p.cred = cred;
                Ok(())
            }
            (Ok(Change::Birth(space)), Res::Child(c)) => self.birth(e.pid, c, space),
            (Ok(Change::Fs(was, cred)), Res::Id(told)) if was == told => {
                p.cred = cred;
                Ok(())
            }
            (Ok(change), Res::Done) if !matches!(change, Change::Birth(_) | Change::Fs(..)) => self.apply(e.pid, change),
            (Err(res), told) if res == told => Ok(()),
            (given, _) => {
                let give = match given {
                    Ok(Change::Birth(_)) => Res::Child(self.least_free()),
                    Ok(Change::Fs(was, _)) => Res::Id(was),
                    Ok(_) => Res::Done,
                    Err(res) => res,
                };
                Err(Stop(3, format!("the rules give {}", res_text(give))))
            }
        }
    }

    fn add_space(&mut self, space: Space) -> Result<u32, Stop> {
        if self.spaces.len() >= MOST_SPACES {
            return Err(Stop(9, format!("limit spaces {MOST_SPACES}")));
        }
        self.spaces.push(space);
        Ok(self.spaces.len() as u32 - 1)
    }

    fn birth(&mut self, pid: u32, child: u32, space: Option<Space>) -> Result<(), Stop> {
        if self.procs.count() >= MOST_PROCESSES {
            return Err(Stop(9, format!("limit processes {MOST_PROCESSES}")));
        }
        let Some(p) = self.procs.get(pid) else { return Ok(()) };
        let mut born = Proc { space: p.space, cred: p.cred, groups: p.groups.clone(), filter: p.filter };
        if let Some(space) = space {
            born.space = self.add_space(space)?;
            born.cred = born.cred.as_newcomer();
        }
        self.procs.add(child, pid, born);
        Ok(())
    }

    fn apply(&mut self, pid: u32, change: Change) -> Result<(), Stop> {
        match change {
            Change::Space(space) => {
                let number = self.add_space(space)?;
                self.with(pid, |p| (p.space, p.cred) = (number, p.cred.as_newcomer()));
            }
            Change::Join(target) => self.with(pid, |p| (p.space, p.cred) = (target, p.cred.as_newcomer())),
            Change::Map(Side::Users, target, map) => self.spaces[target as usize].uids = Some(map),
            Change::Map(Side::Groups, target, map) => self.spaces[target as usize].gids = Some(map),
            Change::Word(target, deny) => self.spaces[target as usize].deny = deny,
            Change::Exit => self.procs.remove(pid),
            Change::Groups(groups) => self.with(pid, |p| p.groups = groups),
            Change::Filter(more) => self.with(pid, |p| p.filter |= more),
            Change::Caller(_) | Change::Birth(_) | Change::Fs(..) => (),
        }
        Ok(())
    }

    fn with(&mut self, pid: u32, change: impl FnOnce(&mut Proc)) {
        if let Some(p) = self.procs.get_mut(pid) {
            change(p);
        }
    }
}

pub fn res_text(r: Res) -> String {
    match r {
        Res::Done => "0".into(),
        Res::Child(p) | Res::Id(p) => p.to_string(),
        Res::Err(e) => e.into(),
    }
}
