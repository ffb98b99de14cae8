//! Bounds of what a family can hold (docs/BOUNDS.md): the least closed ones of a world's processes, and the tests of a
//! certificate. Space n has the rows 2n and 2n + 1. The tests take no memory; the rest is in bounds_rules.rs.
use crate::bounds_rules::grow;
use crate::cred::{DAC_OVERRIDE, FULL, SETGID, SETUID, SYS_ADMIN};
use crate::files::File;
use crate::ids::{has_other, holds, holds_some, join, meet_within, meets, size, within, Ids};
use crate::machine::Machine;
use crate::map::{down, Map};
use crate::procs::Proc;
use crate::space::{is_below, Space, DEEPEST, NONE};
use crate::world::World;
use std::hint::black_box;
use std::io::{self, Write};

pub const SETPCAP: u64 = 1 << 8;
const NOROOT: u8 = 1;
const NOROOT_LOCKED: u8 = 2;
const LAST: u32 = 4_294_967_294;

pub const RULES: usize = 14;
/// The first three have a bit for each call of `CALLS` on which the rule of that place rests.
const RESTS: [u32; RULES] = [
    0b111, 1 << 3, 0b111 << 4, 1 << 7, 1 << 8, 1 << 9, 1 << 14, EXECVE, EXECVE, EXECVE, EXECVE, 0b11 << 18, 1 << 20,
    UID_MAP | GID_MAP,
];
const EXECVE: u32 = 1 << 24;
pub const UID_MAP: u32 = 1 << 21;
pub const GID_MAP: u32 = 1 << 22;

#[derive(Clone, Default)]
pub struct Row {
    pub u: Ids, // real, effective, saved; then the effective and the fs ones
    pub eu: Ids,
    pub fu: Ids,
    pub g: Ids,
    pub eg: Ids,
    pub fg: Ids,
    pub s: Ids,
    pub mu: Ids, // mapped
    pub mg: Ids,
    pub p: u64,
    pub i: u64,
    pub b: u64,
    pub n: bool, // all have no_new_privs
    pub r: bool, // SECBIT_NOROOT may be clear
    pub k: bool, // its lock may be
}

pub struct Judge<'a> {
    pub spaces: &'a [Space],
    pub files: &'a [File],
    pub permitted: u32,
}

/// What a call can set, is in the bound.
fn settable_within(old: &Ids, mapped: &Ids, can: bool, bound: &Ids) -> bool {
    if can { within(mapped, bound) } else { meet_within(old, mapped, bound) }
}

fn can_run(row: &Row, f: &File) -> bool {
    let has = |bits: u32| f.mode & bits != 0;
    !f.noexec
        && (has(0o100) && holds_some(&row.fu, f.owner)
            || has(0o010)
                && has_other(&row.fu, f.owner)
                && (holds_some(&row.fg, f.group) || holds_some(&row.s, f.group))
            || has(0o001) && has_other(&row.fu, f.owner) && has_other(&row.fg, f.group)
            || has(0o111) && row.p & DAC_OVERRIDE != 0 && holds_some(&row.mu, f.owner) && holds_some(&row.mg, f.group))
}

impl Judge<'_> {
    /// The id may be inside 0 of a standing space.
    fn may_be_zero(&self, rows: &[Row], n: usize, id: u32) -> bool {
        match &self.spaces[n].uids {
            Some(map) => map.down(0) == Some(id),
            None => holds(&rows[2 * n].mu, id),
        }
    }

    /// It may be inside 0 of the space or of one above it.
    fn zero_above(&self, rows: &[Row], mut n: usize, id: u32) -> bool {
        loop {
            if self.may_be_zero(rows, n, id) {
                return true;
            }
            match self.spaces[n].parent {
                NONE => return false,
                parent => n = parent as usize,
            }
        }
    }

    fn raises(&self, n: usize, f: &File) -> bool {
        !f.nosuid && is_below(self.spaces, n as u32, f.space)
    }

    /// The file's bit counts for members of the row who run it: 0o4000, or 0o2000 with the group's execute bit.
    #[inline]
    pub fn gives_id(&self, row: &Row, n: usize, f: &File, bit: u32) -> bool {
        f.mode & bit != 0
            && f.interpreter.is_none()
            && (bit == 0o4000 || f.mode & 0o010 != 0)
            && !row.n
            && self.raises(n, f)
            && holds_some(&row.mu, f.owner)
            && holds_some(&row.mg, f.group)
            && can_run(row, f)
    }

    /// The capabilities that the file's attribute brings to members of the row.
    #[inline]
    pub fn given_caps(&self, rows: &[Row], y: usize, f: &File) -> u64 {
        let (row, n) = (&rows[y], y / 2);
        let (Some((permitted, inheritable, _)), None, Some(root)) = (f.caps, f.interpreter, f.root) else { return 0 };
        let takes = !row.n
            && self.raises(n, f)
            && (y % 2 == 1 && holds(&row.mu, root) || self.zero_above(rows, n, root))
            && can_run(row, f);
        if takes { row.i & inheritable | row.b & permitted } else { 0 }
    }

    /// A user id of the row may be inside 0 there.
    pub fn meets_zero(&self, row: &Row, y: usize) -> bool {
        let map = &self.spaces[y / 2].uids;
        if y % 2 == 1 || map.is_none() { meets(&row.u, &row.mu) } else { holds_some(&row.u, down(map, 0)) }
    }

    pub fn can_make(&self, row: &Row, n: usize) -> bool {
        self.spaces[n].level < DEEPEST && meets(&row.eu, &row.mu) && meets(&row.eg, &row.mg)
    }

    /// Each row above a standing space whose members can join it.
    pub fn joins<'a>(&'a self, rows: &'a [Row], n: usize) -> impl Iterator<Item = &'a Row> {
        let mut at = n;
        std::iter::from_fn(move || {
            let space = &self.spaces[at];
            if space.parent == NONE {
                return None;
            }
            at = space.parent as usize;
            Some((&rows[2 * at], space.owner))
        })
        .filter(|(row, owner)| !row.eu.is_empty() && (row.p & SYS_ADMIN != 0 || holds(&row.eu, *owner)))
        .map(|(row, _)| row)
    }

    pub fn permits(&self, x: usize) -> bool {
        self.permitted & RESTS[x] != 0
    }

    /// The rule is closed at the row.
    fn closed_at(&self, rows: &[Row], x: usize, y: usize) -> bool {
        let (row, n) = (&rows[y], y / 2);
        if !self.permits(x) || x < 11 && row.eu.is_empty() {
            return true;
        }
        let has = |cap: u64| row.p & cap != 0;
        match x {
            0 => settable_within(&row.u, &row.mu, has(SETUID), &row.eu) && within(&row.eu, &row.u) && within(&row.eu, &row.fu),
            1 => settable_within(&row.u, &row.mu, has(SETUID), &row.fu),
            2 => settable_within(&row.g, &row.mg, has(SETGID), &row.eg) && within(&row.eg, &row.g) && within(&row.eg, &row.fg),
            3 => settable_within(&row.g, &row.mg, has(SETGID), &row.fg),
            4 => !has(SETGID) || self.spaces[n].deny || within(&row.mg, &row.s),
            5 => (if has(SETPCAP) { row.b } else { row.p & row.b }) & !row.i == 0,
            6 => !has(SETPCAP) || !row.k || row.r,
            7 => {
                self.files.iter().all(|f| !self.gives_id(row, n, f, 0o4000) || holds_some(&row.eu, f.owner))
                    && within(&row.eu, &row.u)
                    && within(&row.eu, &row.fu)
            }
            8 => {
                self.files.iter().all(|f| !self.gives_id(row, n, f, 0o2000) || holds_some(&row.eg, f.group))
                    && within(&row.eg, &row.g)
                    && within(&row.eg, &row.fg)
            }
            9 => self.files.iter().all(|f| self.given_caps(rows, y, f) & !row.p == 0),
            10 => !row.r || row.n || !self.meets_zero(row, y) || (row.i | row.b) & !row.p == 0,
            11 => y % 2 == 0 || !self.can_make(&rows[2 * n], n) || brings_held(&rows[2 * n], row),
            12 => y % 2 == 1 || self.joins(rows, n).all(|above| brings_held(above, row)),
            _ if y % 2 == 1 => self.fresh_maps_held(&rows[2 * n], row),
            _ => self.maps_held(rows, n),
        }
    }

    fn fresh_maps_held(&self, row: &Row, fresh: &Row) -> bool {
        fresh.eu.is_empty()
            || (self.permitted & UID_MAP == 0 || settable_within(&row.eu, &row.mu, row.p & SETUID != 0, &fresh.mu))
                && (self.permitted & GID_MAP == 0
                    || settable_within(&row.eg, &row.mg, row.p & SETGID != 0, &fresh.mg)
                        && meet_within(&fresh.eg, &row.mg, &fresh.mg))
    }

    fn maps_held(&self, rows: &[Row], n: usize) -> bool {
        let space = &self.spaces[n];
        if space.parent == NONE {
            return true;
        }
        let (row, above, owner) = (&rows[2 * n], &rows[2 * space.parent as usize], space.owner);
        let uids = || {
            if above.p & SETUID != 0 {
                return within(&above.mu, &row.mu);
            }
            !holds(&above.mu, owner)
                || holds(&row.mu, owner)
                || !holds(&above.eu, owner) && !(holds(&row.eu, owner) && row.p & SETUID != 0)
        };
        let gids = || {
            if above.p & SETGID != 0 {
                return within(&above.mg, &row.mg);
            }
            (!holds(&above.eu, owner) || meet_within(&above.eg, &above.mg, &row.mg))
                && (!holds(&row.eu, owner) || row.p & SETGID == 0 || meet_within(&row.eg, &above.mg, &row.mg))
        };
        (self.permitted & UID_MAP == 0 || space.uids.is_some() || uids())
            && (self.permitted & GID_MAP == 0 || space.gids.is_some() || gids())
    }

    /// The first rule and row at which the bounds aren't closed.
    pub fn closed(&self, rows: &[Row]) -> Option<(usize, usize)> {
        (0..RULES).find_map(|x| (0..rows.len()).find(|y| !self.closed_at(rows, x, *y)).map(|y| (x, y)))
    }
}

fn brings_held(from: &Row, row: &Row) -> bool {
    within(&from.u, &row.u)
        && within(&from.eu, &row.eu)
        && within(&from.fu, &row.fu)
        && within(&from.g, &row.g)
        && within(&from.eg, &row.eg)
        && within(&from.fg, &row.fg)
        && within(&from.s, &row.s)
        && (from.n || !row.n)
        && (row.p, row.b, row.r, row.k) == (FULL, FULL, true, true)
}

fn outsides(map: &Option<Map>) -> Ids {
    let mut ids = Ids::new();
    for e in map.iter().flat_map(|map| map.extents()) {
        join(&mut ids, &[(e.outside, e.outside + (e.length - 1))]);
    }
    ids
}

fn start(m: &Machine) -> Vec<Row> {
    let least = Row { n: true, ..Row::default() };
    let row = |s: &Space| Row { mu: outsides(&s.uids), mg: outsides(&s.gids), ..least.clone() };
    let mut rows: Vec<Row> = m.spaces.iter().flat_map(|s| [row(s), least.clone()]).collect();
    for (_, Proc { space, cred: c, groups, .. }) in m.procs.all() {
        let row = &mut rows[2 * *space as usize];
        let put = |set: &mut Ids, ids: &[u32]| ids.iter().for_each(|id| join(set, &[(*id, *id)]));
        put(&mut row.u, &c.uid[..3]);
        put(&mut row.eu, &c.uid[1..2]);
        put(&mut row.fu, &c.uid[3..]);
        put(&mut row.g, &c.gid[..3]);
        put(&mut row.eg, &c.gid[1..2]);
        put(&mut row.fg, &c.gid[3..]);
        put(&mut row.s, groups);
        row.p |= c.prm;
        row.i |= c.inh;
        row.b |= c.bnd;
        row.n &= c.nnp;
        row.r |= c.sec & NOROOT == 0;
        row.k |= c.sec & NOROOT_LOCKED == 0;
    }
    rows
}

/// The first row that lacks what the members have, or an outside id of its space's maps.
fn covers_start(m: &Machine, rows: &[Row]) -> Option<usize> {
    let maps_held = |map: &Option<Map>, set: &Ids| {
        map.iter().flat_map(|map| map.extents()).all(|e| within(&[(e.outside, e.outside + (e.length - 1))], set))
    };
    let has = |row: &Row, Proc { cred: c, groups, .. }: &Proc| {
        c.uid[..3].iter().all(|id| holds(&row.u, *id))
            && holds(&row.eu, c.uid[1])
            && holds(&row.fu, c.uid[3])
            && c.gid[..3].iter().all(|id| holds(&row.g, *id))
            && holds(&row.eg, c.gid[1])
            && holds(&row.fg, c.gid[3])
            && groups.iter().all(|id| holds(&row.s, *id))
            && (c.prm & !row.p, c.inh & !row.i, c.bnd & !row.b) == (0, 0, 0)
            && (c.nnp || !row.n)
            && (c.sec & NOROOT != 0 || row.r)
            && (c.sec & NOROOT_LOCKED != 0 || row.k)
    };
    let lacking = m.procs.all().filter(|(_, p)| !has(&rows[2 * p.space as usize], p)).map(|(_, p)| 2 * p.space as usize);
    let unmapped = m.spaces.iter().enumerate().filter_map(|(n, s)| {
        let row = &rows[2 * n];
        (!maps_held(&s.uids, &row.mu) || !maps_held(&s.gids, &row.mg)).then_some(2 * n)
    });
    lacking.chain(unmapped).min()
}

#[derive(PartialEq)]
enum Checked {
    NotStart,
    NotClosed,
    Meets,
    Holds,
}

/// The judgement of a certificate against the right to an effective user id.
fn check(j: &Judge, m: &Machine, rows: &[Row], id: u32) -> Checked {
    if covers_start(m, rows).is_some() {
        Checked::NotStart
    } else if j.closed(rows).is_some() {
        Checked::NotClosed
    } else if rows.iter().any(|row| holds(&row.eu, id)) {
        Checked::Meets
    } else {
        Checked::Holds
    }
}

fn sums(rows: &[Row]) -> String {
    let ids = |of: fn(&Row) -> &Ids| rows.iter().map(|row| size(of(row))).fold(0, u64::wrapping_add).to_string();
    let caps = |of: fn(&Row) -> u64| rows.iter().map(of).fold(0, u64::wrapping_add).to_string();
    let count = |of: fn(&Row) -> bool| rows.iter().filter(|row| of(row)).count().to_string();
    [
        ["u".into(), ids(|r| &r.u), ids(|r| &r.eu), ids(|r| &r.fu)].join(" "),
        ["g".into(), ids(|r| &r.g), ids(|r| &r.eg), ids(|r| &r.fg)].join(" "),
        ["s".into(), ids(|r| &r.s)].join(" "),
        ["m".into(), ids(|r| &r.mu), ids(|r| &r.mg)].join(" "),
        ["p".into(), caps(|r| r.p), caps(|r| r.i), caps(|r| r.b)].join(" "),
        ["n".into(), count(|r| r.n), count(|r| r.r), count(|r| r.k)].join(" "),
    ]
    .join(" ")
}

/// Prints a line on the least closed bounds, one after so many runs of `closed`, and one after so many of `check`.
pub fn bounds(w: &World, m: &Machine, closed_runs: u32, check_runs: u32) -> io::Result<()> {
    let mut out = io::stdout().lock();
    let j = Judge { spaces: &m.spaces, files: &w.files, permitted: !w.filter };
    let mut rows = start(m);
    while grow(&j, &mut rows) {}
    writeln!(out, "least {}", sums(&rows))?;
    let closed = (0..closed_runs).filter(|_| black_box(&j).closed(black_box(&rows)).is_none()).count();
    writeln!(out, "closed {closed}")?;
    let (mut holds, mut meets) = (0, 0);
    for _ in 0..check_runs {
        let checked = check(black_box(&j), m, black_box(&rows), black_box(LAST));
        holds += u32::from(checked == Checked::Holds);
        meets += u32::from(checked == Checked::Meets);
    }
    writeln!(out, "check {holds} {meets}")
}
