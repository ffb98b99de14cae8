//! Texts with numbers, found by hash.
use std::collections::HashMap;
use std::hash::{BuildHasherDefault, Hasher};

pub const ROOT: &[u8] = b"root";

/// FNV-1a, eight bytes at a time: the keys are short and come from no stranger.
pub struct Fnv(u64);

impl Default for Fnv {
    fn default() -> Fnv {
        Fnv(0xcbf2_9ce4_8422_2325)
    }
}

impl Hasher for Fnv {
    fn write(&mut self, bytes: &[u8]) {
        for piece in bytes.chunks(8) {
            let mut word = [0; 8];
            word[..piece.len()].copy_from_slice(piece);
            self.0 = (self.0 ^ u64::from_le_bytes(word)).wrapping_mul(0x0100_0000_01b3).rotate_left(29);
        }
    }

    fn finish(&self) -> u64 {
        self.0 ^ self.0 >> 32
    }
}

#[derive(Default)]
pub struct Names {
    list: Vec<Box<[u8]>>,
    by_text: HashMap<Box<[u8]>, u32, BuildHasherDefault<Fnv>>,
}

impl Names {
    pub fn with(first: &[u8]) -> Names {
        let mut names = Names::default();
        names.add(first);
        names
    }

    /// Adds a text with the next number, unless it is there already.
    pub fn add(&mut self, text: &[u8]) -> bool {
        let new = self.by_text.insert(text.into(), self.list.len() as u32).is_none();
        self.list.push(text.into());
        new
    }

    pub fn find(&self, text: &[u8]) -> Option<u32> {
        self.by_text.get(text).copied()
    }

    pub fn get(&self, number: u32) -> Option<&[u8]> {
        self.list.get(number as usize).map(|text| &text[..])
    }
}
