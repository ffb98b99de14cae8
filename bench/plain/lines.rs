//! Script lines: an event, none, or the word of the first fault.
use crate::cred::Res;
use crate::map::{Extent, NO_ID};
use crate::space::Side;
use crate::world::{is_path, World};

/// The names of all calls, as a filter may have them. The replay knows those of `Call`.
pub const CALLS: [&[u8]; 27] = [
    b"setuid", b"setreuid", b"setresuid", b"setfsuid", b"setgid", b"setregid", b"setresgid", b"setfsgid", b"setgroups",
    b"capset", b"bset_drop", b"amb_raise", b"amb_lower", b"amb_clear", b"securebits", b"keepcaps", b"no_new_privs", b"fork",
    b"clone_user", b"unshare", b"setns", b"write_uid_map", b"write_gid_map", b"write_setgroups", b"execve", b"exit",
    b"install",
];
/// The place of exit in `CALLS`, which no filter that is installed excludes.
const EXIT: usize = 25;

pub const CAPS: [&str; 41] = [
    "CHOWN", "DAC_OVERRIDE", "DAC_READ_SEARCH", "FOWNER", "FSETID", "KILL", "SETGID", "SETUID", "SETPCAP",
    "LINUX_IMMUTABLE", "NET_BIND_SERVICE", "NET_BROADCAST", "NET_ADMIN", "NET_RAW", "IPC_LOCK", "IPC_OWNER", "SYS_MODULE",
    "SYS_RAWIO", "SYS_CHROOT", "SYS_PTRACE", "SYS_PACCT", "SYS_ADMIN", "SYS_BOOT", "SYS_NICE", "SYS_RESOURCE", "SYS_TIME",
    "SYS_TTY_CONFIG", "MKNOD", "LEASE", "AUDIT_WRITE", "AUDIT_CONTROL", "SETFCAP", "MAC_OVERRIDE", "MAC_ADMIN", "SYSLOG",
    "WAKE_ALARM", "BLOCK_SUSPEND", "AUDIT_READ", "PERFMON", "BPF", "CHECKPOINT_RESTORE",
];

pub const ERRNOS: [&str; 17] = [
    "EPERM", "EINVAL", "ENOSPC", "ENOMEM", "EAGAIN", "EINTR", "EFAULT", "EIO", "ENOENT", "EACCES", "ENOTDIR", "ELOOP",
    "ENAMETOOLONG", "E2BIG", "ENOEXEC", "ETXTBSY", "ELIBBAD",
];

pub fn cap_of(name: &[u8]) -> Option<usize> {
    let name = name.strip_prefix(b"CAP_")?;
    CAPS.iter().position(|cap| cap.as_bytes() == name)
}

/// The file of an execve; this one isn't declared.
pub const PLAIN: u32 = u32::MAX;

/// Those from SetReUid on stand in logs of strace alone.
#[derive(Clone, Copy)]
pub enum Call {
    SetResUid([u32; 3]),
    SetUid(u32),
    NoNewPrivs(u32),
    Fork,
    CloneUser,
    Unshare,
    SetNs(u32),
    WriteMap(Side, u32), // the list stands beside the event
    WriteSetgroups(u32, bool),
    Exec(u32),
    Exit,
    Install(u32), // a bit for each of `CALLS`
    SetReUid([u32; 2]),
    SetFsUid(u32),
    SetGid(u32),
    SetReGid([u32; 2]),
    SetResGid([u32; 3]),
    SetFsGid(u32),
    SetGroups, // the list stands beside the event
    CapSet,    // the sets stand beside the event
    BsetDrop(u32),
    AmbRaise(u32),
    AmbLower(u32),
    AmbClear,
    SecureBits(u32),
    KeepCaps(u32),
}

/// The place of the call's kind in `CALLS`.
pub fn kind(call: Call) -> usize {
    match call {
        Call::SetUid(_) => 0,
        Call::SetReUid(_) => 1,
        Call::SetResUid(_) => 2,
        Call::SetFsUid(_) => 3,
        Call::SetGid(_) => 4,
        Call::SetReGid(_) => 5,
        Call::SetResGid(_) => 6,
        Call::SetFsGid(_) => 7,
        Call::SetGroups => 8,
        Call::CapSet => 9,
        Call::BsetDrop(_) => 10,
        Call::AmbRaise(_) => 11,
        Call::AmbLower(_) => 12,
        Call::AmbClear => 13,
        Call::SecureBits(_) => 14,
        Call::KeepCaps(_) => 15,
        Call::NoNewPrivs(_) => 16,
        Call::Fork => 17,
        Call::CloneUser => 18,
        Call::Unshare => 19,
        Call::SetNs(_) => 20,
        Call::WriteMap(Side::Users, _) => 21,
        Call::WriteMap(Side::Groups, _) => 22,
        Call::WriteSetgroups(..) => 23,
        Call::Exec(_) => 24,
        Call::Exit => EXIT,
        Call::Install(_) => 26,
    }
}

/// What stands beside an event: the lines of a written map; the ids of setgroups; the sets of capset (effective, permitted,
/// inheritable).
#[derive(Default)]
pub struct Lists {
    pub map: Vec<Extent>,
    pub groups: Vec<u32>,
    pub sets: [u64; 3],
}

#[derive(Clone, Copy)]
pub struct Event {
    pub pid: u32,
    pub call: Call,
    pub res: Res,
}

pub fn number(t: &[u8]) -> Option<u32> {
    if t.is_empty() {
        return None;
    }
    let mut n: u64 = 0;
    for b in t {
        if !b.is_ascii_digit() {
            return None;
        }
        n = n * 10 + u64::from(b - b'0');
        if n > u64::from(u32::MAX) {
            return None;
        }
    }
    Some(n as u32)
}

pub fn id(t: &[u8]) -> Option<u32> {
    if t == b"-1" { Some(NO_ID) } else { number(t) }
}

pub fn pid_of(t: &[u8]) -> Option<u32> {
    number(t).filter(|p| (1..=4_194_304).contains(p))
}

fn space_of(t: &[u8], w: &World) -> Option<u32> {
    match t {
        [b'#', rest @ ..] => number(rest),
        _ => w.spaces.find(t),
    }
}

fn file_of(t: &[u8], w: &World) -> Option<u32> {
    if t != b"-" && !is_path(t) {
        return None;
    }
    Some(w.paths.find(t).unwrap_or(PLAIN))
}

fn tokens(line: &[u8]) -> impl Iterator<Item = &[u8]> {
    line.split(|b| matches!(b, b' ' | b'\t' | b'\r' | b'\n')).filter(|t| !t.is_empty())
}

/// The numbers of a written map: the tokens of the line from its fourth on, up to the last two.
fn extents(line: &[u8], count: usize, list: &mut Vec<Extent>) -> Result<(), String> {
    list.clear();
    let mut e = [0; 3];
    for (i, t) in tokens(line).skip(3).take(count).enumerate() {
        e[i % 3] = number(t).ok_or_else(|| format!("argument {}", i + 2))?;
        if i % 3 == 2 {
            list.push(Extent { inside: e[0], outside: e[1], length: e[2] });
        }
    }
    Ok(())
}

/// The filter that excludes the calls of the names: the tokens of the line from its third on, up to the last two.
fn filter(line: &[u8], count: usize) -> Result<u32, String> {
    let mut set = 0;
    for (i, t) in tokens(line).skip(2).take(count).enumerate() {
        let at = CALLS.iter().position(|name| *name == t).filter(|at| *at != EXIT);
        set |= 1 << at.ok_or_else(|| format!("argument {}", i + 1))?;
    }
    Ok(set)
}

fn result(call: Call, r: &[u8]) -> Option<Res> {
    let err = if r.first() == Some(&b'E') { ERRNOS.iter().find(|e| e.as_bytes() == r) } else { None };
    match (call, err) {
        (Call::Exit, _) => (r == b"0").then_some(Res::Done),
        (_, Some(e)) => Some(Res::Err(e)),
        (Call::Fork | Call::CloneUser, None) => pid_of(r).map(Res::Child),
        (_, None) => (r == b"0").then_some(Res::Done),
    }
}

const FEW: usize = 8;

fn first_fault(i: usize) -> impl FnOnce() -> String {
    move || format!("argument {i}")
}

/// One script line; the list of a written map comes into `lists`.
pub fn parse(line: &[u8], w: &World, lists: &mut Lists) -> Result<Option<Event>, String> {
    let mut tok: [&[u8]; FEW] = [b""; FEW];
    let (mut n, mut equals, mut last): (usize, usize, &[u8]) = (0, usize::MAX, b"");
    for t in tokens(line) {
        if n == 0 && t[0] == b';' {
            return Ok(None);
        }
        if n < FEW {
            tok[n] = t;
        }
        if n > 1 && t == b"=" && equals == usize::MAX {
            equals = n;
        }
        last = t;
        n += 1;
    }
    if n == 0 {
        return Ok(None);
    }
    let pid = pid_of(tok[0]).ok_or("pid")?;
    let name = tok[1];
    let want = match name {
        b"setresuid" => 3,
        b"write_setgroups" => 2,
        b"setuid" | b"no_new_privs" | b"setns" | b"execve" | b"write_uid_map" | b"write_gid_map" => 1,
        b"fork" | b"clone_user" | b"unshare" | b"exit" | b"install" => 0,
        _ => return Err("call".into()),
    };
    if equals == usize::MAX || equals + 2 != n {
        return Err("shape".into());
    }
    let args = n - 4;
    let fits = match name {
        b"write_uid_map" | b"write_gid_map" => args >= want && (args - want) % 3 == 0,
        b"install" => true,
        _ => args == want,
    };
    if !fits {
        return Err("count".into());
    }
    let a = tok[2];
    let call = match name {
        b"setresuid" => {
            let mut v = [0; 3];
            for i in 0..3 {
                v[i] = id(tok[2 + i]).ok_or_else(first_fault(i + 1))?;
            }
            Call::SetResUid(v)
        }
        b"setuid" => Call::SetUid(id(a).ok_or_else(first_fault(1))?),
        b"no_new_privs" => Call::NoNewPrivs(number(a).ok_or_else(first_fault(1))?),
        b"setns" => Call::SetNs(space_of(a, w).ok_or_else(first_fault(1))?),
        b"execve" => Call::Exec(file_of(a, w).ok_or_else(first_fault(1))?),
        b"write_uid_map" | b"write_gid_map" => {
            let side = if name == b"write_uid_map" { Side::Users } else { Side::Groups };
            let target = space_of(a, w).ok_or_else(first_fault(1))?;
            extents(line, args - 1, &mut lists.map)?;
            Call::WriteMap(side, target)
        }
        b"write_setgroups" => {
            let target = space_of(a, w).ok_or_else(first_fault(1))?;
            match tok[3] {
                b"allow" => Call::WriteSetgroups(target, false),
                b"deny" => Call::WriteSetgroups(target, true),
                _ => return Err("argument 2".into()),
            }
        }
        b"fork" => Call::Fork,
        b"clone_user" => Call::CloneUser,
        b"unshare" => Call::Unshare,
        b"install" => Call::Install(filter(line, args)?),
        _ => Call::Exit,
    };
    let res = result(call, last).ok_or("result")?;
    Ok(Some(Event { pid, call, res }))
}
