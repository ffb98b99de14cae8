//! Sets of ids as lists of ranges that ascend, lie apart and don't touch; of each range the first and the last id.

pub type Ids = Vec<(u32, u32)>;

/// The ranges from the first one on that doesn't end before the id.
fn from(set: &[(u32, u32)], id: u32) -> &[(u32, u32)] {
    &set[set.partition_point(|r| r.1 < id)..]
}

pub fn holds(set: &[(u32, u32)], id: u32) -> bool {
    from(set, id).first().is_some_and(|r| r.0 <= id)
}

pub fn holds_some(set: &[(u32, u32)], id: Option<u32>) -> bool {
    id.is_some_and(|id| holds(set, id))
}

/// Whether the set has another id than that one.
pub fn has_other(set: &[(u32, u32)], id: Option<u32>) -> bool {
    match id {
        Some(id) => set.iter().any(|r| *r != (id, id)),
        None => !set.is_empty(),
    }
}

pub fn within(one: &[(u32, u32)], bound: &[(u32, u32)]) -> bool {
    let mut rest = bound;
    one.iter().all(|r| {
        rest = from(rest, r.0);
        rest.first().is_some_and(|q| q.0 <= r.0 && r.1 <= q.1)
    })
}

/// What two sets have in common, range by range.
fn common<'a>(one: &'a [(u32, u32)], other: &'a [(u32, u32)]) -> impl Iterator<Item = (u32, u32)> + 'a {
    let (mut i, mut j) = (0, 0);
    std::iter::from_fn(move || {
        while i < one.len() && j < other.len() {
            let (a, b) = (one[i], other[j]);
            if a.1 < b.1 {
                i += 1;
            } else {
                j += 1;
            }
            let range = (a.0.max(b.0), a.1.min(b.1));
            if range.0 <= range.1 {
                return Some(range);
            }
        }
        None
    })
}

pub fn meets(one: &[(u32, u32)], other: &[(u32, u32)]) -> bool {
    common(one, other).next().is_some()
}

pub fn meet_within(one: &[(u32, u32)], other: &[(u32, u32)], bound: &[(u32, u32)]) -> bool {
    let mut rest = bound;
    common(one, other).all(|r| {
        rest = from(rest, r.0);
        rest.first().is_some_and(|q| q.0 <= r.0 && r.1 <= q.1)
    })
}

pub fn meet(one: &[(u32, u32)], other: &[(u32, u32)]) -> Ids {
    common(one, other).collect()
}

pub fn join(set: &mut Ids, more: &[(u32, u32)]) {
    if within(more, set) {
        return;
    }
    let mut all: Ids = set.iter().chain(more).copied().collect();
    all.sort_unstable();
    set.clear();
    for r in all {
        match set.last_mut() {
            Some(last) if u64::from(r.0) <= u64::from(last.1) + 1 => last.1 = last.1.max(r.1),
            _ => set.push(r),
        }
    }
}

pub fn size(set: &[(u32, u32)]) -> u64 {
    set.iter().map(|r| u64::from(r.1 - r.0) + 1).sum()
}
