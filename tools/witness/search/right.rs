//! Rights, and who holds them (docs/FORMATS.md): an effective user id, a group id, a capability over a space.
use crate::lines::{cap_of, number};
use crate::machine::Machine;
use crate::procs::Proc;
use crate::space::{over, Member};
use crate::world::World;

#[derive(Clone, Copy)]
pub enum Right {
    Uid(u32),
    Gid(u32),
    Cap(u32, u32), // over the space of that number
}

fn space_of(text: &[u8], w: &World, m: &Machine) -> Option<u32> {
    let space = match text {
        [b'#', rest @ ..] => number(rest)?,
        _ => w.spaces.find(text)?,
    };
    ((space as usize) < m.spaces.len()).then_some(space)
}

impl Right {
    pub fn of(text: &str, w: &World, m: &Machine) -> Option<Right> {
        let (kind, rest) = text.split_once(':')?;
        match kind {
            "uid" => number(rest.as_bytes()).map(Right::Uid),
            "gid" => number(rest.as_bytes()).map(Right::Gid),
            "cap" => {
                let (name, space) = rest.split_once('@')?;
                Some(Right::Cap(cap_of(name.as_bytes())? as u32, space_of(space.as_bytes(), w, m)?))
            }
            _ => None,
        }
    }

    pub fn is_held(self, m: &Machine, p: &Proc) -> bool {
        match self {
            Right::Uid(k) => p.cred.uid[1] == k,
            Right::Gid(k) => p.cred.gid[1] == k || p.groups.contains(&k),
            Right::Cap(cap, space) => over(&m.spaces, Member { space: p.space, cred: &p.cred }, 1 << cap, space),
        }
    }
}
