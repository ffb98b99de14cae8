//! The breadth-first search: from a state, all that the members' calls lead to, until one of them holds the right. All
//! states less than DEEP calls away are gone on from, further ones up to DEEPEST as long as fewer than MANY are kept (a
//! process that can do nothing else can fork without end).
use crate::cred::Res;
use crate::lines::{Event, Lists};
use crate::machine::Machine;
use crate::menu::{Menu, Pool, Turn};
use crate::print::put_event;
use crate::right::Right;
use crate::world::World;
use std::collections::hash_map::DefaultHasher;
use std::collections::HashSet;
use std::hash::{Hash, Hasher};

const DEEP: usize = 3;
const DEEPEST: usize = 8;
const MANY: usize = 3000;
/// At the start all calls are tried, then so many a state (all, where there are fewer), by its distance from the start.
const CALLS: [usize; DEEP] = [usize::MAX, 120, 60];

struct Node {
    m: Machine,
    depth: usize,
    before: usize,
    by: Option<(Event, Lists)>,
}

/// What a search saw; where a state was met in which a member holds the right, the least such member and the run to it.
pub struct Seen {
    pub depth: usize,
    pub states: usize,
    pub calls: usize,
    pub run: Option<(u32, Vec<u8>)>,
}

/// Draws by xorshift: the same seed gives the same choice.
struct Draws(u64);

impl Draws {
    fn below(&mut self, n: usize) -> usize {
        self.0 ^= self.0 << 13;
        self.0 ^= self.0 >> 7;
        self.0 ^= self.0 << 17;
        (self.0 % n as u64) as usize
    }

    /// The turns that a choice keeps: those that are always kept, and that many of the others.
    fn choose(&mut self, menu: Menu, others: usize) -> Vec<Turn> {
        let (mut turns, kept) = (menu.turns, menu.kept);
        let most = kept.saturating_add(others);
        for at in kept..most.min(turns.len()) {
            let other = at + self.below(turns.len() - at);
            turns.swap(at, other);
        }
        turns.truncate(most);
        turns
    }
}

/// A number for the state: two states of one number are taken for one.
fn mark(m: &Machine) -> u64 {
    let mut h = DefaultHasher::new();
    for (pid, p) in m.procs.all() {
        let c = &p.cred;
        (pid, p.space, c.uid, c.gid, &*p.groups, p.filter).hash(&mut h);
        (c.inh, c.prm, c.eff, c.bnd, c.amb, c.sec, c.nnp).hash(&mut h);
    }
    for s in &m.spaces {
        (s.parent, s.owner, s.deny, s.setfcap).hash(&mut h);
        for map in [&s.uids, &s.gids] {
            map.is_some().hash(&mut h);
            map.iter().flat_map(|map| map.extents()).for_each(|e| (e.inside, e.outside, e.length).hash(&mut h));
        }
    }
    h.finish()
}

/// The pids of a process and of all that it started.
pub fn family(m: &Machine, root: u32) -> HashSet<u32> {
    let mut members = HashSet::from([root]);
    loop {
        let more: Vec<u32> = (m.procs.pids().iter().zip(m.procs.parents()))
            .filter(|(pid, parent)| members.contains(parent) && !members.contains(pid))
            .map(|(pid, _)| *pid)
            .collect();
        if more.is_empty() {
            return members;
        }
        members.extend(more);
    }
}

/// The state after a turn that isn't refused, and the event.
fn after(w: &World, m: &Machine, turn: &Turn) -> Option<(Machine, Event)> {
    let child = (100..).find(|k| !m.procs.has(*k))?;
    let res = m.answer(w, turn.pid, turn.call, &turn.lists, child)?;
    if matches!(res, Res::Err(_)) {
        return None;
    }
    let event = Event { pid: turn.pid, call: turn.call, res };
    let mut next = m.clone();
    next.step(w, &event, &turn.lists).ok()?;
    Some((next, event))
}

fn run_to(w: &World, nodes: &[Node], mut at: usize, last: (Event, Lists)) -> Vec<u8> {
    let mut events = vec![&last];
    while let Some(by) = &nodes[at].by {
        events.push(by);
        at = nodes[at].before;
    }
    let mut text = Vec::new();
    for (number, (event, lists)) in events.iter().rev().enumerate() {
        put_event(&mut text, w, number as u64 + 1, event, lists);
    }
    text
}

pub fn search(w: &World, start: Machine, root: u32, right: Right, seed: u64) -> Seen {
    let members = family(&start, root);
    let others: HashSet<u32> = start.procs.pids().iter().copied().filter(|pid| !members.contains(pid)).collect();
    let is_member = |pid: u32| !others.contains(&pid);
    let holder = |m: &Machine| Some(m.procs.all().find(|(pid, p)| is_member(*pid) && right.is_held(m, p))?.0);
    let pool = Pool::of(w, &start, right);
    let (mut draws, mut marks) = (Draws(seed | 1), HashSet::from([mark(&start)]));
    let mut seen = Seen { depth: 0, states: 1, calls: 0, run: holder(&start).map(|pid| (pid, Vec::new())) };
    let mut nodes = vec![Node { m: start, depth: 0, before: 0, by: None }];
    let mut at = 0;
    while seen.run.is_none() && at < nodes.len() {
        let depth = nodes[at].depth;
        seen.depth = depth + 1;
        let most = *CALLS.get(depth).unwrap_or(&CALLS[DEEP - 1]);
        for turn in draws.choose(Menu::of(w, &nodes[at].m, &pool, is_member), most) {
            seen.calls += 1;
            let Some((m, event)) = after(w, &nodes[at].m, &turn) else { continue };
            if !marks.insert(mark(&m)) {
                continue;
            }
            seen.states += 1;
            let by = (event, turn.lists);
            if let Some(pid) = holder(&m) {
                seen.run = Some((pid, run_to(w, &nodes, at, by)));
                break;
            }
            if depth + 1 < DEEP || depth + 1 < DEEPEST && nodes.len() < MANY {
                nodes.push(Node { m, depth: depth + 1, before: at, by: Some(by) });
            }
        }
        at += 1;
    }
    seen
}
