//! Maps of ids (user_namespaces(7)), as lists of extents that ascend on the inside.

pub const NO_ID: u32 = u32::MAX;
pub const LONGEST: usize = 340;

#[derive(Clone, Copy, PartialEq)]
pub struct Extent {
    pub inside: u32,
    pub outside: u32,
    pub length: u32,
}

#[derive(Clone)]
pub struct Map(Vec<Extent>);

fn part_none(ranges: &mut [(u32, u32)]) -> bool {
    ranges.sort_unstable();
    ranges.windows(2).all(|w| u64::from(w[0].0) + u64::from(w[0].1) <= u64::from(w[1].0))
}

fn is_inside(first: u32, length: u32) -> bool {
    length > 0 && u64::from(first) + u64::from(length) <= u64::from(NO_ID)
}

impl Map {
    /// The map of a list, where the list is one.
    pub fn of(list: &[Extent]) -> Option<Map> {
        let good = (1..=LONGEST).contains(&list.len())
            && list.iter().all(|e| is_inside(e.inside, e.length) && is_inside(e.outside, e.length));
        if !good {
            return None;
        }
        let mut ranges = [(0, 0); LONGEST];
        let ranges = &mut ranges[..list.len()];
        for (r, e) in ranges.iter_mut().zip(list) {
            *r = (e.outside, e.length);
        }
        if !part_none(ranges) {
            return None;
        }
        let mut sorted = list.to_vec();
        sorted.sort_unstable_by_key(|e| e.inside);
        let apart = sorted.windows(2).all(|w| w[0].inside + w[0].length <= w[1].inside);
        apart.then_some(Map(sorted))
    }

    pub fn initial() -> Map {
        Map(vec![Extent { inside: 0, outside: 0, length: NO_ID }])
    }

    pub fn extents(&self) -> &[Extent] {
        &self.0
    }

    fn at(&self, inside: u32) -> Option<&Extent> {
        let after = self.0.partition_point(|e| e.inside <= inside);
        let e = &self.0[after.checked_sub(1)?];
        (inside - e.inside < e.length).then_some(e)
    }

    pub fn down(&self, inside: u32) -> Option<u32> {
        self.at(inside).map(|e| e.outside + (inside - e.inside))
    }

    pub fn up(&self, outside: u32) -> Option<u32> {
        let e = self.0.iter().find(|e| e.outside <= outside && outside - e.outside < e.length)?;
        Some(e.inside + (outside - e.outside))
    }

    /// The list with ids of the initial space as its outside, where each of its ranges lies in one extent of this map, which
    /// is that of the parent.
    pub fn take_down(&self, list: &[Extent]) -> Option<Vec<Extent>> {
        list.iter()
            .map(|e| {
                let above = self.at(e.outside)?;
                let from = e.outside - above.inside;
                (above.length - from >= e.length).then_some(Extent { outside: above.outside + from, ..*e })
            })
            .collect()
    }
}

/// The same of maps that may not be written.
pub fn down(map: &Option<Map>, inside: u32) -> Option<u32> {
    map.as_ref()?.down(inside)
}

pub fn up(map: &Option<Map>, outside: u32) -> Option<u32> {
    map.as_ref()?.up(outside)
}
