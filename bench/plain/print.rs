//! The report's lines, twice: by the formatting machinery, and by hand into a buffer of bytes.
use crate::cred::Res;
use crate::lines::{Call, Event, Lists, CALLS, CAPS, PLAIN};
use crate::machine::res_text;
use crate::map::NO_ID;
use crate::procs::Proc;
use crate::space::Side;
use crate::world::World;
use std::io::{self, Write};

// ---- plain ----------------------------------------------------------------------

fn id_text(k: u32) -> String {
    if k == NO_ID { "-1".into() } else { k.to_string() }
}

fn cap_text(k: u32) -> String {
    CAPS.get(k as usize).map_or_else(|| k.to_string(), |name| format!("CAP_{name}"))
}

fn space_text(w: &World, s: u32) -> String {
    w.spaces.get(s).map_or_else(|| format!("#{s}"), |name| String::from_utf8_lossy(name).into())
}

/// The names of the calls that a filter excludes.
fn names(filter: u32) -> impl Iterator<Item = &'static [u8]> {
    CALLS.iter().enumerate().filter(move |(at, _)| filter >> at & 1 == 1).map(|(_, name)| *name)
}

pub fn print_cred(out: &mut impl Write, w: &World, pid: u32, p: &Proc) -> io::Result<()> {
    let groups = if p.groups.is_empty() {
        "-".to_string()
    } else {
        p.groups.iter().map(|g| g.to_string()).collect::<Vec<_>>().join(",")
    };
    let (c, space) = (&p.cred, space_text(w, p.space));
    let (u, g) = (c.uid, c.gid);
    writeln!(
        out,
        "> {pid} {space} uid={},{},{},{} gid={},{},{},{} groups={groups} inh={:016x} prm={:016x} eff={:016x} bnd={:016x} amb={:016x} sec={:02x} nnp={}",
        u[0], u[1], u[2], u[3], g[0], g[1], g[2], g[3], c.inh, c.prm, c.eff, c.bnd, c.amb, c.sec, u8::from(c.nnp)
    )
}

pub fn print_event(out: &mut impl Write, w: &World, line: u64, e: &Event, lists: &Lists) -> io::Result<()> {
    write!(out, "{line}: {} ", e.pid)?;
    match e.call {
        Call::SetResUid(v) => write!(out, "setresuid {} {} {}", id_text(v[0]), id_text(v[1]), id_text(v[2]))?,
        Call::SetUid(k) => write!(out, "setuid {}", id_text(k))?,
        Call::NoNewPrivs(n) => write!(out, "no_new_privs {n}")?,
        Call::Fork => write!(out, "fork")?,
        Call::CloneUser => write!(out, "clone_user")?,
        Call::Unshare => write!(out, "unshare")?,
        Call::SetNs(s) => write!(out, "setns {}", space_text(w, s))?,
        Call::WriteMap(side, s) => {
            write!(out, "write_{}id_map {}", if side == Side::Users { "u" } else { "g" }, space_text(w, s))?;
            for x in &lists.map {
                write!(out, " {} {} {}", x.inside, x.outside, x.length)?;
            }
        }
        Call::WriteSetgroups(s, deny) => {
            write!(out, "write_setgroups {} {}", space_text(w, s), if deny { "deny" } else { "allow" })?;
        }
        Call::Exec(row) => write!(out, "execve {}", String::from_utf8_lossy(w.paths.get(row).unwrap_or(b"-")))?,
        Call::Exit => write!(out, "exit")?,
        Call::Install(more) => {
            write!(out, "install")?;
            for name in names(more) {
                write!(out, " {}", String::from_utf8_lossy(name))?;
            }
        }
        Call::SetReUid(v) => write!(out, "setreuid {} {}", id_text(v[0]), id_text(v[1]))?,
        Call::SetFsUid(k) => write!(out, "setfsuid {}", id_text(k))?,
        Call::SetGid(k) => write!(out, "setgid {}", id_text(k))?,
        Call::SetReGid(v) => write!(out, "setregid {} {}", id_text(v[0]), id_text(v[1]))?,
        Call::SetResGid(v) => write!(out, "setresgid {} {} {}", id_text(v[0]), id_text(v[1]), id_text(v[2]))?,
        Call::SetFsGid(k) => write!(out, "setfsgid {}", id_text(k))?,
        Call::SetGroups => {
            write!(out, "setgroups")?;
            for k in &lists.groups {
                write!(out, " {}", id_text(*k))?;
            }
        }
        Call::CapSet => {
            let [eff, prm, inh] = lists.sets;
            write!(out, "capset {eff:016x} {prm:016x} {inh:016x}")?;
        }
        Call::BsetDrop(k) => write!(out, "bset_drop {}", cap_text(k))?,
        Call::AmbRaise(k) => write!(out, "amb_raise {}", cap_text(k))?,
        Call::AmbLower(k) => write!(out, "amb_lower {}", cap_text(k))?,
        Call::AmbClear => write!(out, "amb_clear")?,
        Call::SecureBits(n) => write!(out, "securebits {n}")?,
        Call::KeepCaps(n) => write!(out, "keepcaps {n}")?,
    }
    writeln!(out, " = {}", res_text(e.res))
}

// ---- by hand ----------------------------------------------------------------------

fn put_dec(o: &mut Vec<u8>, mut n: u64) {
    let mut b = [0u8; 20];
    let mut i = 20;
    loop {
        i -= 1;
        b[i] = b'0' + (n % 10) as u8;
        n /= 10;
        if n == 0 {
            break;
        }
    }
    o.extend_from_slice(&b[i..]);
}

fn put_number(o: &mut Vec<u8>, k: u32) {
    o.push(b' ');
    put_dec(o, u64::from(k));
}

fn put_id(o: &mut Vec<u8>, k: u32) {
    if k == NO_ID { o.extend_from_slice(b" -1") } else { put_number(o, k) }
}

fn put_space(o: &mut Vec<u8>, w: &World, s: u32) {
    match w.spaces.get(s) {
        Some(name) => o.extend_from_slice(name),
        None => {
            o.push(b'#');
            put_dec(o, u64::from(s));
        }
    }
}

fn put_call(o: &mut Vec<u8>, w: &World, name: &[u8], s: u32) {
    o.extend_from_slice(name);
    put_space(o, w, s);
}

fn put_ids(o: &mut Vec<u8>, name: &[u8], ids: &[u32]) {
    o.extend_from_slice(name);
    for k in ids {
        put_id(o, *k);
    }
}

fn put_cap(o: &mut Vec<u8>, name: &[u8], k: u32) {
    o.extend_from_slice(name);
    match CAPS.get(k as usize) {
        Some(cap) => {
            o.extend_from_slice(b"CAP_");
            o.extend_from_slice(cap.as_bytes());
        }
        None => put_dec(o, u64::from(k)),
    }
}

fn put_hex16(o: &mut Vec<u8>, x: u64) {
    let mut b = [0u8; 16];
    for (i, d) in b.iter_mut().enumerate() {
        *d = b"0123456789abcdef"[(x >> (60 - 4 * i) & 15) as usize];
    }
    o.extend_from_slice(&b);
}

fn put_list(o: &mut Vec<u8>, list: &[u32]) {
    for (i, k) in list.iter().enumerate() {
        if i > 0 {
            o.push(b',');
        }
        put_dec(o, u64::from(*k));
    }
}

pub fn put_cred(o: &mut Vec<u8>, w: &World, pid: u32, p: &Proc) {
    let c = &p.cred;
    o.push(b'>');
    put_number(o, pid);
    o.push(b' ');
    put_space(o, w, p.space);
    o.extend_from_slice(b" uid=");
    put_list(o, &c.uid);
    o.extend_from_slice(b" gid=");
    put_list(o, &c.gid);
    o.extend_from_slice(b" groups=");
    if p.groups.is_empty() {
        o.push(b'-');
    }
    put_list(o, &p.groups);
    for (name, x) in [(b" inh=", c.inh), (b" prm=", c.prm), (b" eff=", c.eff), (b" bnd=", c.bnd), (b" amb=", c.amb)] {
        o.extend_from_slice(name);
        put_hex16(o, x);
    }
    o.extend_from_slice(b" sec=");
    for s in [c.sec >> 4, c.sec & 15] {
        o.push(b"0123456789abcdef"[s as usize]);
    }
    o.extend_from_slice(if c.nnp { b" nnp=1\n" } else { b" nnp=0\n" });
}

pub fn put_event(o: &mut Vec<u8>, w: &World, line: u64, e: &Event, lists: &Lists) {
    put_dec(o, line);
    o.push(b':');
    put_number(o, e.pid);
    match e.call {
        Call::SetResUid(v) => {
            o.extend_from_slice(b" setresuid");
            for k in v {
                put_id(o, k);
            }
        }
        Call::SetUid(k) => {
            o.extend_from_slice(b" setuid");
            put_id(o, k);
        }
        Call::NoNewPrivs(n) => {
            o.extend_from_slice(b" no_new_privs");
            put_number(o, n);
        }
        Call::Fork => o.extend_from_slice(b" fork"),
        Call::CloneUser => o.extend_from_slice(b" clone_user"),
        Call::Unshare => o.extend_from_slice(b" unshare"),
        Call::SetNs(s) => put_call(o, w, b" setns ", s),
        Call::WriteMap(side, s) => {
            put_call(o, w, if side == Side::Users { b" write_uid_map " } else { b" write_gid_map " }, s);
            for x in &lists.map {
                for k in [x.inside, x.outside, x.length] {
                    put_number(o, k);
                }
            }
        }
        Call::WriteSetgroups(s, deny) => {
            put_call(o, w, b" write_setgroups ", s);
            o.extend_from_slice(if deny { b" deny" } else { b" allow" });
        }
        Call::Exec(row) => {
            o.extend_from_slice(b" execve ");
            o.extend_from_slice(if row == PLAIN { b"-" } else { w.paths.get(row).unwrap_or(b"-") });
        }
        Call::Exit => o.extend_from_slice(b" exit"),
        Call::Install(more) => {
            o.extend_from_slice(b" install");
            for name in names(more) {
                o.push(b' ');
                o.extend_from_slice(name);
            }
        }
        Call::SetReUid(v) => put_ids(o, b" setreuid", &v),
        Call::SetFsUid(k) => put_ids(o, b" setfsuid", &[k]),
        Call::SetGid(k) => put_ids(o, b" setgid", &[k]),
        Call::SetReGid(v) => put_ids(o, b" setregid", &v),
        Call::SetResGid(v) => put_ids(o, b" setresgid", &v),
        Call::SetFsGid(k) => put_ids(o, b" setfsgid", &[k]),
        Call::SetGroups => put_ids(o, b" setgroups", &lists.groups),
        Call::CapSet => {
            o.extend_from_slice(b" capset");
            for set in lists.sets {
                o.push(b' ');
                put_hex16(o, set);
            }
        }
        Call::BsetDrop(k) => put_cap(o, b" bset_drop ", k),
        Call::AmbRaise(k) => put_cap(o, b" amb_raise ", k),
        Call::AmbLower(k) => put_cap(o, b" amb_lower ", k),
        Call::AmbClear => o.extend_from_slice(b" amb_clear"),
        Call::SecureBits(n) => {
            o.extend_from_slice(b" securebits");
            put_number(o, n);
        }
        Call::KeepCaps(n) => {
            o.extend_from_slice(b" keepcaps");
            put_number(o, n);
        }
    }
    o.extend_from_slice(b" = ");
    match e.res {
        Res::Done => o.push(b'0'),
        Res::Child(p) | Res::Id(p) => put_dec(o, u64::from(p)),
        Res::Err(x) => o.extend_from_slice(x.as_bytes()),
    }
    o.push(b'\n');
}
