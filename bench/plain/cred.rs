//! Credentials, and the calls that change the caller's alone: user ids (setresuid(2), setuid(2), capabilities(7)), execve(2).
use crate::files::File;
use crate::map::{down, up, Map, NO_ID};
use crate::space::{is_below, Space};

pub const FULL: u64 = 0x1ff_ffff_ffff;
pub const DAC_OVERRIDE: u64 = 1 << 1;
pub const SETGID: u64 = 1 << 6;
pub const SETUID: u64 = 1 << 7;
const SETPCAP: u64 = 1 << 8;
pub const SYS_ADMIN: u64 = 1 << 21;
pub const SETFCAP: u64 = 1 << 31;
const NOROOT: u8 = 0x01;
const NO_SETUID_FIXUP: u8 = 0x04;
const KEEP_CAPS: u8 = 0x10;
const NO_CAP_AMBIENT_RAISE: u8 = 0x40;

#[derive(Clone, Copy, PartialEq, Debug)]
pub enum Res {
    Done,
    Child(u32),
    Id(u32), // of setfsuid and setfsgid
    Err(&'static str),
}

#[derive(Clone, Copy)]
pub struct Cred {
    pub uid: [u32; 4], // real, effective, saved, fs
    pub gid: [u32; 4],
    pub inh: u64,
    pub prm: u64,
    pub eff: u64,
    pub bnd: u64,
    pub amb: u64,
    pub sec: u8,
    pub nnp: bool,
}

const EPERM: Result<Cred, Res> = Err(Res::Err("EPERM"));
const EINVAL: Result<Cred, Res> = Err(Res::Err("EINVAL"));

impl Cred {
    /// The credential after a change to these user ids, with what that does to the sets; `zero` is the space's inside 0.
    fn with_uids(mut self, uid: [u32; 4], zero: Option<u32>) -> Cred {
        let old = self.uid;
        let is_zero = |id: u32| Some(id) == zero;
        self.uid = uid;
        if self.sec & NO_SETUID_FIXUP != 0 {
            return self;
        }
        if old[..3].iter().any(|k| is_zero(*k)) && !uid[..3].iter().any(|k| is_zero(*k)) {
            if self.sec & KEEP_CAPS == 0 {
                self.prm = 0;
                self.eff = 0;
            }
            self.amb = 0;
        }
        if is_zero(old[1]) && !is_zero(uid[1]) {
            self.eff = 0;
        }
        if !is_zero(old[1]) && is_zero(uid[1]) {
            self.eff = self.prm;
        }
        self
    }

    /// The credential after setresuid, or the refusal.
    pub fn setresuid(self, space: &Space, given: [u32; 3]) -> Result<Cred, Res> {
        let mut new = [self.uid[0], self.uid[1], self.uid[2], 0];
        for i in 0..3 {
            if given[i] != NO_ID {
                match down(&space.uids, given[i]) {
                    Some(id) => new[i] = id,
                    None => return EINVAL,
                }
            }
        }
        if self.eff & SETUID == 0 && (0..3).any(|i| given[i] != NO_ID && !self.uid[..3].contains(&new[i])) {
            return EPERM;
        }
        new[3] = new[1];
        Ok(self.with_uids(new, down(&space.uids, 0)))
    }

    pub fn setuid(self, space: &Space, given: u32) -> Result<Cred, Res> {
        let Some(id) = down(&space.uids, given) else { return EINVAL };
        let new = if self.eff & SETUID != 0 {
            [id; 4]
        } else if id == self.uid[0] || id == self.uid[2] {
            [self.uid[0], id, self.uid[2], id]
        } else {
            return EPERM;
        };
        Ok(self.with_uids(new, down(&space.uids, 0)))
    }

    pub fn no_new_privs(mut self, given: u32) -> Result<Cred, Res> {
        if given != 1 {
            return EINVAL;
        }
        self.nnp = true;
        Ok(self)
    }

    /// The credential of who comes into a space.
    pub fn as_newcomer(mut self) -> Cred {
        (self.prm, self.eff, self.bnd) = (FULL, FULL, FULL);
        (self.inh, self.amb, self.sec) = (0, 0, 0);
        self
    }
}

// ---- calls that stand in logs of strace alone ------------------------------------

const OVERFLOW: u32 = 65534;
/// CHOWN, DAC_OVERRIDE, DAC_READ_SEARCH, FOWNER, FSETID, LINUX_IMMUTABLE, MKNOD, MAC_OVERRIDE.
const OF_FS_IDS: u64 = 0b1_1111 | 1 << 9 | 1 << 27 | 1 << 32;

/// An argument that leaves the id as it is, or has a mapping.
fn asked(map: &Option<Map>, given: u32, now: u32) -> Option<u32> {
    if given == NO_ID { Some(now) } else { down(map, given) }
}

fn two(ids: [u32; 4], map: &Option<Map>, power: bool, given: [u32; 2]) -> Result<[u32; 4], Res> {
    let (Some(real), Some(effective)) = (asked(map, given[0], ids[0]), asked(map, given[1], ids[1])) else {
        return Err(Res::Err("EINVAL"));
    };
    let good = power
        || (given[0] == NO_ID || ids[..2].contains(&real)) && (given[1] == NO_ID || ids[..3].contains(&effective));
    if !good {
        return Err(Res::Err("EPERM"));
    }
    let moves = given[0] != NO_ID || given[1] != NO_ID && effective != ids[0];
    Ok([real, effective, if moves { effective } else { ids[2] }, effective])
}

/// The id from before, as the space has it, and the fs id after.
fn fs(ids: [u32; 4], map: &Option<Map>, power: bool, given: u32) -> (u32, u32) {
    let new = down(map, given).filter(|id| power || ids.contains(id));
    (up(map, ids[3]).unwrap_or(OVERFLOW), new.unwrap_or(ids[3]))
}

fn is_within(one: u64, other: u64) -> bool {
    one & !other == 0
}

impl Cred {
    pub fn setreuid(self, space: &Space, given: [u32; 2]) -> Result<Cred, Res> {
        let new = two(self.uid, &space.uids, self.eff & SETUID != 0, given)?;
        Ok(self.with_uids(new, down(&space.uids, 0)))
    }

    pub fn setregid(self, space: &Space, given: [u32; 2]) -> Result<Cred, Res> {
        let gid = two(self.gid, &space.gids, self.eff & SETGID != 0, given)?;
        Ok(Cred { gid, ..self })
    }

    pub fn setresgid(self, space: &Space, given: [u32; 3]) -> Result<Cred, Res> {
        let mut gid = self.gid;
        for i in 0..3 {
            match asked(&space.gids, given[i], self.gid[i]) {
                Some(id) => gid[i] = id,
                None => return EINVAL,
            }
        }
        if self.eff & SETGID == 0 && (0..3).any(|i| given[i] != NO_ID && !self.gid[..3].contains(&gid[i])) {
            return EPERM;
        }
        gid[3] = gid[1];
        Ok(Cred { gid, ..self })
    }

    pub fn setgid(self, space: &Space, given: u32) -> Result<Cred, Res> {
        let Some(id) = down(&space.gids, given) else { return EINVAL };
        let gid = if self.eff & SETGID != 0 {
            [id; 4]
        } else if id == self.gid[0] || id == self.gid[2] {
            [self.gid[0], id, self.gid[2], id]
        } else {
            return EPERM;
        };
        Ok(Cred { gid, ..self })
    }

    pub fn setfsuid(self, space: &Space, given: u32) -> (u32, Cred) {
        let (was, new) = fs(self.uid, &space.uids, self.eff & SETUID != 0, given);
        let (zero, mut c) = (down(&space.uids, 0), self);
        c.uid[3] = new;
        let (before, after) = (Some(self.uid[3]) == zero, Some(new) == zero);
        if self.sec & NO_SETUID_FIXUP == 0 && before && !after {
            c.eff &= !OF_FS_IDS;
        }
        if self.sec & NO_SETUID_FIXUP == 0 && after && !before {
            c.eff |= c.prm & OF_FS_IDS;
        }
        (was, c)
    }

    pub fn setfsgid(self, space: &Space, given: u32) -> (u32, Cred) {
        let (was, new) = fs(self.gid, &space.gids, self.eff & SETGID != 0, given);
        let [real, effective, saved, _] = self.gid;
        (was, Cred { gid: [real, effective, saved, new], ..self })
    }

    /// The groups after setgroups, ascending and each once, or the refusal.
    pub fn setgroups(&self, space: &Space, given: &[u32]) -> Result<Vec<u32>, Res> {
        if self.eff & SETGID == 0 || space.gids.is_none() || space.deny {
            return Err(Res::Err("EPERM"));
        }
        let groups: Option<Vec<u32>> = given.iter().map(|k| down(&space.gids, *k)).collect();
        let mut groups = groups.ok_or(Res::Err("EINVAL"))?;
        groups.sort_unstable();
        groups.dedup();
        Ok(groups)
    }

    /// The credential after capset of an effective, a permitted and an inheritable set.
    pub fn capset(self, sets: [u64; 3]) -> Result<Cred, Res> {
        let [eff, prm, inh] = sets.map(|set| set & FULL);
        let may = (self.eff & SETPCAP != 0 || is_within(inh, self.inh | self.prm))
            && is_within(inh, self.inh | self.bnd)
            && is_within(prm, self.prm)
            && is_within(eff, prm);
        if !may {
            return EPERM;
        }
        Ok(Cred { eff, prm, inh, amb: self.amb & prm & inh, ..self })
    }

    pub fn bset_drop(self, number: u32) -> Result<Cred, Res> {
        if self.eff & SETPCAP == 0 {
            return EPERM;
        }
        if number > 40 { EINVAL } else { Ok(Cred { bnd: self.bnd & !(1 << number), ..self }) }
    }

    pub fn amb_raise(self, number: u32) -> Result<Cred, Res> {
        if number > 40 {
            return EINVAL;
        }
        if self.prm & self.inh & 1 << number == 0 || self.sec & NO_CAP_AMBIENT_RAISE != 0 {
            return EPERM;
        }
        Ok(Cred { amb: self.amb | 1 << number, ..self })
    }

    pub fn amb_lower(self, number: u32) -> Result<Cred, Res> {
        if number > 40 { EINVAL } else { Ok(Cred { amb: self.amb & !(1 << number), ..self }) }
    }

    pub fn securebits(self, bits: u32) -> Result<Cred, Res> {
        let new = bits as u8;
        let locks = self.sec & 0xaa;
        if bits > 0xff || self.eff & SETPCAP == 0 || locks & !new != 0 || (new ^ self.sec) & locks >> 1 != 0 {
            return EPERM;
        }
        Ok(Cred { sec: new, ..self })
    }

    pub fn keepcaps(self, number: u32) -> Result<Cred, Res> {
        if number > 1 {
            return EINVAL;
        }
        if self.sec & KEEP_CAPS << 1 != 0 {
            return EPERM;
        }
        Ok(Cred { sec: if number == 1 { self.sec | KEEP_CAPS } else { self.sec & !KEEP_CAPS }, ..self })
    }
}

// ---- execve ------------------------------------------------------------------

/// Who executes: its credential, groups, and space in the tree.
pub struct Caller<'a> {
    pub cred: Cred,
    pub groups: &'a [u32],
    pub space: u32,
    pub spaces: &'a [Space],
}

impl Caller<'_> {
    fn own(&self) -> &Space {
        &self.spaces[self.space as usize]
    }

    fn maps(&self, file: &File) -> bool {
        let (s, mapped) = (self.own(), |map, id: Option<u32>| id.is_some_and(|id| up(map, id).is_some()));
        mapped(&s.uids, file.owner) && mapped(&s.gids, file.group)
    }

    fn may_run(&self, file: &File) -> bool {
        let c = &self.cred;
        let of_group = file.group.is_some_and(|g| g == c.gid[3] || self.groups.binary_search(&g).is_ok());
        let bit = if file.owner == Some(c.uid[3]) {
            0o100
        } else if of_group {
            0o010
        } else {
            0o001
        };
        let overrides = || c.eff & DAC_OVERRIDE != 0 && file.mode & 0o111 != 0 && self.maps(file);
        !file.noexec && (file.mode & bit != 0 || overrides())
    }

    /// Whether the root id is the inside 0 of the caller's space or of one above it.
    fn is_root_above(&self, root: u32) -> bool {
        let mut at = self.own();
        loop {
            if down(&at.uids, 0) == Some(root) {
                return true;
            }
            match self.spaces.get(at.parent as usize) {
                Some(parent) => at = parent,
                None => return false,
            }
        }
    }

    /// The credential after an execve of a file that runs by itself, or by an interpreter; None is the plain file.
    pub fn exec(&self, file: Option<(&File, &File)>) -> Result<Cred, Res> {
        let c = self.cred;
        let Some((script, run)) = file else { return Ok(self.after((0, 0, false), None, c.uid[1], c.gid[1], false)) };
        if !self.may_run(script) || !self.may_run(run) {
            return Err(Res::Err("EACCES"));
        }
        let raises = !c.nnp && !run.nosuid && is_below(self.spaces, self.space, run.space);
        let attribute = run.caps.filter(|_| raises && run.root.is_some_and(|root| self.is_root_above(root)));
        let sets = attribute.unwrap_or((0, 0, false));
        if sets.2 && sets.0 & !(sets.0 & c.bnd | sets.1 & c.inh) != 0 {
            return EPERM;
        }
        let bits = if raises && self.maps(run) { run.mode } else { 0 };
        let user = run.owner.filter(|_| bits & 0o4000 != 0);
        let group = run.group.filter(|_| bits & 0o2010 == 0o2010);
        let by_bits = user.is_some() || group.is_some();
        Ok(self.after(sets, attribute, user.unwrap_or(c.uid[1]), group.unwrap_or(c.gid[1]), by_bits))
    }

    fn after(&self, sets: Sets, attribute: Option<Sets>, uid: u32, gid: u32, by_bits: bool) -> Cred {
        let (mut c, (mut permitted, mut inheritable, mut effective)) = (self.cred, sets);
        let old = c.prm;
        let zero = down(&self.own().uids, 0);
        let (real, now) = (Some(c.uid[0]) == zero, Some(uid) == zero);
        if c.sec & NOROOT == 0 && !(attribute.is_some() && !real && now) {
            if real || now {
                (permitted, inheritable) = (FULL, FULL);
            }
            effective |= now;
        }
        if attribute.is_some() || by_bits {
            c.amb = 0;
        }
        c.uid = [c.uid[0], uid, uid, uid];
        c.gid = [c.gid[0], gid, gid, gid];
        c.prm = c.inh & inheritable | permitted & c.bnd | c.amb;
        if c.nnp {
            c.prm &= old;
        }
        c.eff = if effective { c.prm } else { c.amb };
        c.sec &= !KEEP_CAPS;
        c
    }
}

pub type Sets = (u64, u64, bool); // permitted, inheritable, effective
