//! User namespaces (spaces): the tree, power over its members, and the writing of maps and words (user_namespaces(7)).
use crate::cred::{Cred, Res, SETFCAP, SETGID, SETUID, SYS_ADMIN};
use crate::map::{up, Extent, Map};

pub const NONE: u32 = u32::MAX;
pub const DEEPEST: u32 = 32;

#[derive(Clone)]
pub struct Space {
    pub parent: u32, // NONE of the initial one
    pub level: u32,
    pub owner: u32,
    pub uids: Option<Map>,
    pub gids: Option<Map>,
    pub deny: bool,
    pub setfcap: bool,
}

#[derive(Clone, Copy, PartialEq)]
pub enum Side {
    Users,
    Groups,
}

impl Space {
    pub fn initial() -> Space {
        let all = || Some(Map::initial());
        Space { parent: NONE, level: 0, owner: 0, uids: all(), gids: all(), deny: false, setfcap: false }
    }

    pub fn map(&self, side: Side) -> &Option<Map> {
        if side == Side::Users { &self.uids } else { &self.gids }
    }
}

/// Who calls: its space and credential.
#[derive(Clone, Copy)]
pub struct Member<'a> {
    pub space: u32,
    pub cred: &'a Cred,
}

/// Whether the member has the capability over the target: one walk along the chain of parents.
pub fn over(spaces: &[Space], who: Member, cap: u64, mut target: u32) -> bool {
    loop {
        if target == who.space && who.cred.eff & cap != 0 {
            return true;
        }
        let s = &spaces[target as usize];
        if s.parent == NONE {
            return false;
        }
        if s.parent == who.space && s.owner == who.cred.uid[1] {
            return true;
        }
        target = s.parent;
    }
}

pub fn is_below(spaces: &[Space], mut space: u32, above: u32) -> bool {
    while space != above {
        space = spaces[space as usize].parent;
        if space == NONE {
            return false;
        }
    }
    true
}

/// The space that the member would make, or the refusal.
pub fn made(spaces: &[Space], who: Member) -> Result<Space, Res> {
    let s = &spaces[who.space as usize];
    if s.level >= DEEPEST {
        return Err(Res::Err("ENOSPC"));
    }
    if up(&s.uids, who.cred.uid[1]).is_none() || up(&s.gids, who.cred.gid[1]).is_none() {
        return Err(Res::Err("EPERM"));
    }
    let setfcap = who.cred.eff & SETFCAP != 0;
    Ok(Space { parent: who.space, level: s.level + 1, owner: who.cred.uid[1], uids: None, gids: None, deny: s.deny, setfcap })
}

pub fn may_join(spaces: &[Space], who: Member, target: u32) -> Res {
    if target == who.space {
        return Res::Err("EINVAL");
    }
    if over(spaces, who, SYS_ADMIN, target) { Res::Done } else { Res::Err("EPERM") }
}

/// The map that is kept of a list which the member writes, or the refusal.
pub fn written(spaces: &[Space], who: Member, side: Side, target: u32, list: &[Extent]) -> Result<Map, Res> {
    let eperm = Err(Res::Err("EPERM"));
    let s = &spaces[target as usize];
    let cap = if side == Side::Users { SETUID } else { SETGID };
    let near = who.space == target || who.space == s.parent;
    if s.map(side).is_some() || !near || !over(spaces, who, cap, target) {
        return eperm;
    }
    let Some(given) = Map::of(list) else { return Err(Res::Err("EINVAL")) };
    let above = if s.parent == NONE { &None } else { spaces[s.parent as usize].map(side) };
    let Some(stored) = above.as_ref().and_then(|a| a.take_down(list)) else { return eperm };
    if side == Side::Users && given.up(0).is_some() {
        let allowed = if who.space == target { s.setfcap } else { over(spaces, who, SETFCAP, s.parent) };
        if !allowed {
            return eperm;
        }
    }
    let own = if side == Side::Users { who.cred.uid[1] } else { who.cred.gid[1] };
    let is_own = stored.len() == 1
        && stored[0].length == 1
        && stored[0].outside == own
        && who.cred.uid[1] == s.owner
        && (side == Side::Users || s.deny);
    if !over(spaces, who, cap, s.parent) && !is_own {
        return eperm;
    }
    Map::of(&stored).ok_or(Res::Err("EINVAL"))
}

pub fn may_say(spaces: &[Space], who: Member, target: u32, deny: bool) -> Res {
    let s = &spaces[target as usize];
    let refused = !over(spaces, who, SYS_ADMIN, target) || if deny { s.gids.is_some() } else { s.deny };
    if refused { Res::Err("EPERM") } else { Res::Done }
}
