//! Mounts and files as the caller of an execve meets them: what depends on the file alone is worked out once.
use crate::cred::{Sets, FULL};
use crate::map::Map;

pub struct Mount {
    pub space: u32,
    pub nosuid: bool,
    pub noexec: bool,
    pub fs: [Map; 2], // of users and of groups
    pub maps: Option<[Map; 2]>,
}

pub struct File {
    pub owner: Option<u32>,
    pub group: Option<u32>,
    pub root: Option<u32>, // of the attribute
    pub caps: Option<Sets>,
    pub mode: u32,
    pub nosuid: bool,
    pub noexec: bool,
    pub space: u32,
    pub interpreter: Option<u32>,
}

impl Mount {
    fn on(&self, side: usize, id: u32) -> Option<u32> {
        match &self.maps {
            None => Some(id),
            Some(maps) => maps[side].down(self.fs[side].up(id)?),
        }
    }

    fn root(&self, id: u32) -> Option<u32> {
        let kernel = self.fs[0].down(id)?;
        match &self.maps {
            None => Some(kernel),
            Some(maps) => maps[0].down(id),
        }
    }

    pub fn file(&self, uid: u32, gid: u32, mode: u32, caps: Option<(Sets, u32)>, interpreter: Option<u32>) -> File {
        File {
            owner: self.on(0, uid),
            group: self.on(1, gid),
            root: caps.and_then(|c| self.root(c.1)),
            caps: caps.map(|c| c.0),
            mode,
            nosuid: self.nosuid,
            noexec: self.noexec,
            space: self.space,
            interpreter,
        }
    }
}

fn nibble(b: u8) -> Option<u8> {
    (b as char).to_digit(16).map(|d| d as u8)
}

/// The sets and the root id of an attribute that is spelled in hexadecimal digits.
pub fn attribute(text: &[u8]) -> Option<(Sets, u32)> {
    if text.len() != 40 && text.len() != 48 {
        return None;
    }
    let mut words = [0u32; 6];
    for (i, pair) in text.chunks(2).enumerate() {
        words[i / 4] |= u32::from(nibble(pair[0])? << 4 | nibble(pair[1])?) << (8 * (i % 4));
    }
    let version = if text.len() == 40 { 0x0200_0000 } else { 0x0300_0000 };
    let set = |low: u32, high: u32| (u64::from(low) | u64::from(high) << 32) & FULL;
    (words[0] & !1 == version).then_some(((set(words[1], words[3]), set(words[2], words[4]), words[0] & 1 == 1), words[5]))
}
