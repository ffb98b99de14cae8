//! The calls that are tried in a state: of each member some of each of the 27 kinds, with arguments near what stands in
//! the world. Births, calls that make or join a space, and programs come first: a choice among the rest keeps them all.
use crate::lines::{kind, Call, Lists, CALLS, PLAIN};
use crate::machine::Machine;
use crate::map::{down, up, Extent, Map, NO_ID};
use crate::procs::Proc;
use crate::right::Right;
use crate::space::{Side, NONE};
use crate::world::World;

pub struct Turn {
    pub pid: u32,
    pub call: Call,
    pub lists: Lists,
}

/// The ids that are told apart, as the initial space has them, and the capabilities.
pub struct Pool {
    users: Vec<u32>,
    groups: Vec<u32>,
    caps: Vec<u32>,
}

/// CAP_DAC_OVERRIDE, CAP_SETGID, CAP_SETUID, CAP_SETPCAP, CAP_SYS_ADMIN, CAP_SETFCAP: those by which calls are allowed.
const CAPS: [u32; 6] = [1, 6, 7, 8, 21, 31];
/// Those that filters of the menu exclude.
const FILTERS: [Call; 4] = [Call::SetUid(0), Call::SetResUid([0; 3]), Call::Exec(PLAIN), Call::Unshare];
const BITS: [u32; 7] = [0x00, 0x01, 0x03, 0x04, 0x10, 0x2f, 0x40];

fn once(mut ids: Vec<u32>) -> Vec<u32> {
    ids.retain(|k| *k != NO_ID);
    ids.sort_unstable();
    ids.dedup();
    ids
}

impl Pool {
    pub fn of(w: &World, m: &Machine, right: Right) -> Pool {
        let (mut users, mut groups, mut caps) = (vec![0], vec![0], CAPS.to_vec());
        for (_, p) in m.procs.all() {
            users.extend(p.cred.uid);
            groups.extend(p.cred.gid);
            groups.extend(&*p.groups);
        }
        for s in &m.spaces {
            users.push(s.owner);
            users.extend(down(&s.uids, 0));
            groups.extend(down(&s.gids, 0));
        }
        for f in &w.files {
            users.extend(f.owner);
            groups.extend(f.group);
        }
        match right {
            Right::Uid(k) => users.push(k),
            Right::Gid(k) => groups.push(k),
            Right::Cap(cap, _) => caps.push(cap),
        }
        Pool { users: once(users), groups: once(groups), caps: once(caps) }
    }

    fn of_side(&self, side: Side) -> &[u32] {
        if side == Side::Users { &self.users } else { &self.groups }
    }

    /// The ids as a space has them, and 0, whether or not it maps that.
    fn inside(&self, side: Side, map: &Option<Map>) -> Vec<u32> {
        once(self.of_side(side).iter().filter_map(|id| up(map, *id)).chain([0]).collect())
    }
}

/// The calls of the members, those first that all choices keep, and how many these are.
pub struct Menu<'a> {
    w: &'a World,
    pool: &'a Pool,
    pub turns: Vec<Turn>,
    pub kept: usize,
}

impl<'a> Menu<'a> {
    pub fn of(w: &'a World, m: &Machine, pool: &'a Pool, is_member: impl Fn(u32) -> bool) -> Menu<'a> {
        let mut menu = Menu { w, pool, turns: Vec::new(), kept: 0 };
        let members = || m.procs.all().filter(|(pid, _)| is_member(*pid));
        for (pid, p) in members() {
            menu.spaces(pid, p, m);
            menu.programs(pid);
        }
        menu.kept = menu.turns.len();
        for (pid, p) in members() {
            menu.users(pid, p, m);
            menu.groups(pid, p, m);
            menu.sets(pid, p);
            menu.maps(pid, m);
            menu.filters(pid);
        }
        menu
    }

    fn put(&mut self, pid: u32, call: Call, lists: Lists) {
        if self.w.filter >> kind(call) & 1 == 0 {
            self.turns.push(Turn { pid, call, lists });
        }
    }

    fn plain(&mut self, pid: u32, calls: impl IntoIterator<Item = Call>) {
        calls.into_iter().for_each(|call| self.put(pid, call, Lists::default()));
    }

    fn spaces(&mut self, pid: u32, p: &Proc, m: &Machine) {
        self.plain(pid, [Call::Fork, Call::CloneUser, Call::Unshare]);
        self.plain(pid, (0..m.spaces.len() as u32).filter(|n| *n != p.space).map(Call::SetNs));
    }

    /// Filters that exclude one call each, and one that excludes all but exit.
    fn filters(&mut self, pid: u32) {
        let all = (1 << CALLS.len()) - 1 & !(1 << kind(Call::Exit));
        self.plain(pid, FILTERS.iter().map(|one| 1 << kind(*one)).chain([all]).map(Call::Install));
    }

    fn programs(&mut self, pid: u32) {
        self.plain(pid, (0..self.w.files.len() as u32).chain([PLAIN]).map(Call::Exec));
    }

    fn users(&mut self, pid: u32, p: &Proc, m: &Machine) {
        for k in self.pool.inside(Side::Users, &m.spaces[p.space as usize].uids) {
            self.plain(pid, [[NO_ID, k, NO_ID], [k; 3], [k, NO_ID, NO_ID], [NO_ID, NO_ID, k]].map(Call::SetResUid));
            self.plain(pid, [[NO_ID, k], [k, NO_ID]].map(Call::SetReUid));
            self.plain(pid, [Call::SetUid(k), Call::SetFsUid(k)]);
        }
    }

    fn groups(&mut self, pid: u32, p: &Proc, m: &Machine) {
        let ids = self.pool.inside(Side::Groups, &m.spaces[p.space as usize].gids);
        for k in &ids {
            let k = *k;
            self.plain(pid, [[NO_ID, k, NO_ID], [k; 3], [NO_ID, NO_ID, k]].map(Call::SetResGid));
            self.plain(pid, [[NO_ID, k], [k, NO_ID]].map(Call::SetReGid));
            self.plain(pid, [Call::SetGid(k), Call::SetFsGid(k)]);
            self.put(pid, Call::SetGroups, Lists { groups: vec![k], ..Lists::default() });
        }
        self.put(pid, Call::SetGroups, Lists::default());
        self.put(pid, Call::SetGroups, Lists { groups: ids, ..Lists::default() });
    }

    fn sets(&mut self, pid: u32, p: &Proc) {
        let c = &p.cred;
        for sets in [[c.prm, c.prm, c.inh], [c.prm; 3], [0, c.prm, c.inh], [0; 3], [c.eff, c.eff, 0]] {
            self.put(pid, Call::CapSet, Lists { sets, ..Lists::default() });
        }
        for cap in &self.pool.caps {
            self.put(pid, Call::CapSet, Lists { sets: [1 << cap; 3], ..Lists::default() });
            self.plain(pid, [Call::AmbRaise(*cap), Call::AmbLower(*cap), Call::BsetDrop(*cap)]);
        }
        self.plain(pid, BITS.map(Call::SecureBits));
        self.plain(pid, [Call::AmbClear, Call::KeepCaps(0), Call::KeepCaps(1), Call::NoNewPrivs(1), Call::Exit]);
    }

    /// Writes to each space but the initial one: each id to 0 and to itself, and longer ranges.
    fn maps(&mut self, pid: u32, m: &Machine) {
        for (n, s) in m.spaces.iter().enumerate().filter(|(_, s)| s.parent != NONE) {
            for side in [Side::Users, Side::Groups] {
                let above = m.spaces[s.parent as usize].map(side);
                let ids = self.pool.inside(side, above);
                let ones = ids.iter().flat_map(|k| [(0, *k, 1), (*k, *k, 1)]);
                for (inside, outside, length) in ones.chain([(0, 0, 65536), (0, 1000, 10), (0, 0, 1001)]) {
                    let map = vec![Extent { inside, outside, length }];
                    self.put(pid, Call::WriteMap(side, n as u32), Lists { map, ..Lists::default() });
                }
            }
            self.plain(pid, [true, false].map(|deny| Call::WriteSetgroups(n as u32, deny)));
        }
    }
}
