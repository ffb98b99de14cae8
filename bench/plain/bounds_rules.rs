//! The closure rules as steps: what each adds to a row is joined into it.
use crate::bounds::{Judge, Row, GID_MAP, RULES, SETPCAP, UID_MAP};
use crate::cred::{FULL, SETGID, SETUID};
use crate::ids::{holds, join, meet, Ids};
use crate::space::NONE;

fn settable(old: &Ids, mapped: &Ids, can: bool) -> Ids {
    if can { mapped.clone() } else { meet(old, mapped) }
}

/// What the members of a row bring to another.
fn bring(from: &Row, row: &mut Row) {
    join(&mut row.u, &from.u);
    join(&mut row.eu, &from.eu);
    join(&mut row.fu, &from.fu);
    join(&mut row.g, &from.g);
    join(&mut row.eg, &from.eg);
    join(&mut row.fg, &from.fg);
    join(&mut row.s, &from.s);
    row.n &= from.n;
    (row.p, row.b, row.r, row.k) = (FULL, FULL, true, true);
}

/// New ids come to the effective ones, and these to the other two.
fn spread(new: &Ids, three: &mut Ids, effective: &mut Ids, fs: &mut Ids) {
    join(effective, new);
    join(three, effective);
    join(fs, effective);
}

/// Joins what the rule adds to a row into it.
fn apply(j: &Judge, rows: &mut [Row], x: usize, y: usize) {
    let n = y / 2;
    let row = &rows[y];
    if !j.permits(x) || x < 11 && row.eu.is_empty() {
        return;
    }
    let (can_uid, can_gid, can_caps) = (row.p & SETUID != 0, row.p & SETGID != 0, row.p & SETPCAP != 0);
    match x {
        0 | 7 => {
            let mut new = Ids::new();
            if x == 0 {
                new = settable(&row.u, &row.mu, can_uid);
            } else {
                for id in j.files.iter().filter(|f| j.gives_id(row, n, f, 0o4000)).filter_map(|f| f.owner) {
                    join(&mut new, &[(id, id)]);
                }
            }
            let row = &mut rows[y];
            spread(&new, &mut row.u, &mut row.eu, &mut row.fu);
        }
        2 | 8 => {
            let mut new = Ids::new();
            if x == 2 {
                new = settable(&row.g, &row.mg, can_gid);
            } else {
                for id in j.files.iter().filter(|f| j.gives_id(row, n, f, 0o2000)).filter_map(|f| f.group) {
                    join(&mut new, &[(id, id)]);
                }
            }
            let row = &mut rows[y];
            spread(&new, &mut row.g, &mut row.eg, &mut row.fg);
        }
        1 => {
            let new = settable(&row.u, &row.mu, can_uid);
            join(&mut rows[y].fu, &new);
        }
        3 => {
            let new = settable(&row.g, &row.mg, can_gid);
            join(&mut rows[y].fg, &new);
        }
        4 if can_gid && !j.spaces[n].deny => {
            let new = row.mg.clone();
            join(&mut rows[y].s, &new);
        }
        5 => rows[y].i |= if can_caps { row.b } else { row.p & row.b },
        6 if can_caps && row.k => rows[y].r = true,
        9 => rows[y].p |= j.files.iter().fold(0, |caps, f| caps | j.given_caps(rows, y, f)),
        10 if row.r && !row.n && j.meets_zero(row, y) => rows[y].p |= row.i | row.b,
        11 if y % 2 == 1 && j.can_make(&rows[2 * n], n) => {
            let from = rows[2 * n].clone();
            bring(&from, &mut rows[y]);
        }
        12 if y % 2 == 0 => {
            let from: Vec<Row> = j.joins(rows, n).cloned().collect();
            from.iter().for_each(|from| bring(from, &mut rows[y]));
        }
        13 => {
            let (uids, gids) = if y % 2 == 1 { fresh_maps(rows, n) } else { maps(j, rows, n) };
            if j.permitted & UID_MAP != 0 {
                join(&mut rows[y].mu, &uids);
            }
            if j.permitted & GID_MAP != 0 {
                join(&mut rows[y].mg, &gids);
            }
        }
        _ => (),
    }
}

fn fresh_maps(rows: &[Row], n: usize) -> (Ids, Ids) {
    let (row, fresh) = (&rows[2 * n], &rows[2 * n + 1]);
    if fresh.eu.is_empty() {
        return Default::default();
    }
    let mut gids = settable(&row.eg, &row.mg, row.p & SETGID != 0);
    join(&mut gids, &meet(&fresh.eg, &row.mg));
    (settable(&row.eu, &row.mu, row.p & SETUID != 0), gids)
}

fn maps(j: &Judge, rows: &[Row], n: usize) -> (Ids, Ids) {
    let space = &j.spaces[n];
    let (mut uids, mut gids) = (Ids::new(), Ids::new());
    if space.parent == NONE {
        return (uids, gids);
    }
    let (row, above, owner) = (&rows[2 * n], &rows[2 * space.parent as usize], space.owner);
    let (owns, owns_above) = (holds(&row.eu, owner), holds(&above.eu, owner));
    if space.uids.is_none() {
        if above.p & SETUID != 0 {
            uids = above.mu.clone();
        } else if holds(&above.mu, owner) && (owns_above || owns && row.p & SETUID != 0) {
            uids = vec![(owner, owner)];
        }
    }
    if space.gids.is_none() {
        if above.p & SETGID != 0 {
            gids = above.mg.clone();
        }
        if owns_above {
            join(&mut gids, &meet(&above.eg, &above.mg));
        }
        if owns && row.p & SETGID != 0 {
            join(&mut gids, &meet(&row.eg, &above.mg));
        }
    }
    (uids, gids)
}

/// Applies each rule to each row once. Whether any grew.
pub fn grow(j: &Judge, rows: &mut Vec<Row>) -> bool {
    let before = j.closed(rows).is_none();
    if before {
        return false;
    }
    for x in 0..RULES {
        for y in 0..rows.len() {
            apply(j, rows, x, y);
        }
    }
    true
}
