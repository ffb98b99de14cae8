//! The reader of worlds: the tables and keys of docs/FORMATS.md, in the TOML that the bench and the examples write (one key
//! or header a line, texts without escapes, arrays on one line). Tables stand in the order space, mount, file, process,
//! filter. A world that isn't good is `None`, without a word on why.
use crate::cred::{Cred, FULL};
use crate::files::{attribute, File, Mount};
use crate::lines::{cap_of, CALLS};
use crate::machine::Machine;
use crate::map::{Extent, Map, NO_ID};
use crate::names::{Names, ROOT};
use crate::procs::Proc;
use crate::space::{Space, DEEPEST};
use std::rc::Rc;

pub struct World {
    pub spaces: Names, // of the declared spaces, the initial one among them
    pub paths: Names,
    pub files: Vec<File>,
    pub filter: u32, // the calls that are excluded; it binds no log
    pub strace: bool, // the form of its logs
}

// ---- values: each reader takes its value off the front ------------------------

struct Text<'a>(&'a [u8]);

impl<'a> Text<'a> {
    fn blanks(&mut self) {
        while let [b' ' | b'\t', rest @ ..] = self.0 {
            self.0 = rest;
        }
    }

    fn eats(&mut self, byte: u8) -> bool {
        self.blanks();
        let there = self.0.first() == Some(&byte);
        if there {
            self.0 = &self.0[1..];
        }
        there
    }

    fn string(&mut self) -> Option<&'a [u8]> {
        if !self.eats(b'"') {
            return None;
        }
        let end = self.0.iter().position(|b| *b == b'"')?;
        let (text, rest) = self.0.split_at(end);
        self.0 = &rest[1..];
        (!text.contains(&b'\\')).then_some(text)
    }

    fn number(&mut self) -> Option<u32> {
        self.blanks();
        let (mut n, mut count) = (0u64, 0);
        while let [b @ b'0'..=b'9', rest @ ..] = self.0 {
            n = n * 10 + u64::from(b - b'0');
            count += 1;
            if n > u64::from(NO_ID) {
                return None;
            }
            self.0 = rest;
        }
        (count > 0).then_some(n as u32)
    }

    fn id(&mut self) -> Option<u32> {
        self.number().filter(|n| *n != NO_ID)
    }

    fn flag(&mut self) -> Option<bool> {
        self.blanks();
        let (flag, length) = if self.0.starts_with(b"true") { (true, 4) } else { (false, 5) };
        if !flag && !self.0.starts_with(b"false") {
            return None;
        }
        self.0 = &self.0[length..];
        Some(flag)
    }

    /// Each item of an array, by `item`.
    fn array(&mut self, mut item: impl FnMut(&mut Self) -> Option<()>) -> Option<()> {
        if !self.eats(b'[') {
            return None;
        }
        while !self.eats(b']') {
            item(self)?;
            if !self.eats(b',') {
                return self.eats(b']').then_some(());
            }
        }
        Some(())
    }

    fn extents(&mut self, list: &mut Vec<Extent>) -> Option<()> {
        list.clear();
        self.array(|t| {
            let mut e = [0; 3];
            let mut at = 0;
            t.array(|t| {
                *e.get_mut(at)? = t.number()?;
                at += 1;
                Some(())
            })?;
            list.push(Extent { inside: e[0], outside: e[1], length: e[2] });
            (at == 3).then_some(())
        })
    }

    fn four(&mut self) -> Option<[u32; 4]> {
        self.blanks();
        if self.0.first() != Some(&b'[') {
            return Some([self.id()?; 4]);
        }
        let (mut ids, mut at) = ([0; 4], 0);
        self.array(|t| {
            *ids.get_mut(at)? = t.id()?;
            at += 1;
            Some(())
        })?;
        (at == 4).then_some(ids)
    }

    fn groups(&mut self) -> Option<Rc<[u32]>> {
        let mut groups = Vec::new();
        self.array(|t| {
            groups.push(t.id()?);
            Some(())
        })?;
        if groups.len() > 1024 {
            return None;
        }
        groups.sort_unstable();
        groups.dedup();
        Some(groups.into())
    }
}

/// The set of a capability text.
pub fn set_of(text: &[u8]) -> Option<u64> {
    match text {
        b"all" => return Some(FULL),
        b"none" => return Some(0),
        _ => (),
    }
    if text.len() == 16 && text.iter().all(u8::is_ascii_hexdigit) {
        let digit = |b: &u8| u64::from((*b as char).to_digit(16).unwrap_or(0));
        return Some(text.iter().fold(0, |n, b| n << 4 | digit(b)) & FULL);
    }
    text.split(|b| *b == b',').try_fold(0, |set, name| Some(set | 1 << cap_of(name)?))
}

fn is_name(text: &[u8]) -> bool {
    let good = |b: &u8| b.is_ascii_alphanumeric() || matches!(b, b'_' | b'-' | b'.');
    (1..=32).contains(&text.len()) && text.iter().all(good) && text != b"init"
}

pub fn is_path(text: &[u8]) -> bool {
    (1..=4095).contains(&text.len()) && text.iter().all(|b| *b > b' ' && *b != 0x7f) && text != b"-" && text != b"="
}

fn mode_of(text: &[u8]) -> Option<u32> {
    let good = (1..=4).contains(&text.len()) && text.iter().all(|b| (b'0'..=b'7').contains(b));
    good.then(|| text.iter().fold(0, |n, b| n << 3 | u32::from(b - b'0')))
}

// ---- rows ---------------------------------------------------------------------

#[derive(Default)]
struct SpaceRow<'a> {
    name: &'a [u8],
    parent: Option<u32>,
    owner: Option<u32>,
    uids: Option<Vec<Extent>>,
    gids: Option<Vec<Extent>>,
    deny: bool,
    setfcap: bool,
}

#[derive(Default)]
struct MountRow<'a> {
    name: &'a [u8],
    space: u32,
    nosuid: bool,
    noexec: bool,
    fs: [Option<Map>; 2],
    maps: [Option<Map>; 2],
}

#[derive(Default)]
struct FileRow<'a> {
    path: &'a [u8],
    mount: u32,
    uid: Option<u32>,
    gid: Option<u32>,
    mode: Option<u32>,
    caps: Option<(crate::cred::Sets, u32)>,
    interpreter: Option<u32>,
}

#[derive(Default)]
struct ProcessRow {
    pid: Option<u32>,
    parent: u32,
    space: u32,
    uid: [u32; 4],
    gid: [u32; 4],
    groups: Option<Rc<[u32]>>,
    sets: [Option<u64>; 5], // permitted, effective, inheritable, ambient, bounding
    sec: u8,
    nnp: bool,
}

enum Row<'a> {
    Whole,
    Space(SpaceRow<'a>),
    Mount(MountRow<'a>),
    File(FileRow<'a>),
    Process(ProcessRow),
    Filter,
}

struct Reader {
    machine: Machine,
    spaces: Names,
    mount_names: Names,
    mounts: Vec<Mount>,
    paths: Names,
    files: Vec<File>,
    filter: u32,
    form: Option<bool>, // whether logs have the form strace
    list: Vec<Extent>,
}

impl Reader {
    fn map(&mut self, t: &mut Text) -> Option<Map> {
        t.extents(&mut self.list)?;
        Map::of(&self.list)
    }

    /// One key of the row.
    fn key<'a>(&mut self, row: &mut Row<'a>, key: &[u8], t: &mut Text<'a>) -> Option<()> {
        match row {
            Row::Whole if key == b"log" => {
                let word = t.string()?;
                self.form = Some(word == b"strace").filter(|strace| *strace || word == b"script");
                self.form?;
            }
            Row::Filter if key == b"exclude" => {
                let mut set = 0;
                t.array(|t| {
                    let name = t.string()?;
                    set |= 1 << CALLS.iter().position(|call| *call == name)?;
                    Some(())
                })?;
                self.filter = set;
            }
            Row::Space(row) => self.space_key(row, key, t)?,
            Row::Mount(row) => self.mount_key(row, key, t)?,
            Row::File(row) => self.file_key(row, key, t)?,
            Row::Process(row) => self.process_key(row, key, t)?,
            _ => return None,
        }
        Some(())
    }

    fn space_key<'a>(&mut self, row: &mut SpaceRow<'a>, key: &[u8], t: &mut Text<'a>) -> Option<()> {
        match key {
            b"name" => row.name = t.string()?,
            b"parent" => row.parent = Some(self.spaces.find(t.string()?)?),
            b"owner" => row.owner = Some(t.id()?),
            b"uid_map" | b"gid_map" => {
                t.extents(&mut self.list)?;
                let at = if key == b"uid_map" { &mut row.uids } else { &mut row.gids };
                *at = Some(self.list.clone());
            }
            b"setgroups" => row.deny = t.string()? == b"deny",
            b"creator_setfcap" => row.setfcap = t.flag()?,
            _ => return None,
        }
        Some(())
    }

    fn mount_key<'a>(&mut self, row: &mut MountRow<'a>, key: &[u8], t: &mut Text<'a>) -> Option<()> {
        match key {
            b"name" => row.name = t.string()?,
            b"space" => row.space = self.spaces.find(t.string()?)?,
            b"nosuid" => row.nosuid = t.flag()?,
            b"noexec" => row.noexec = t.flag()?,
            b"fs_uid_map" => row.fs[0] = Some(self.map(t)?),
            b"fs_gid_map" => row.fs[1] = Some(self.map(t)?),
            b"uid_map" => row.maps[0] = Some(self.map(t)?),
            b"gid_map" => row.maps[1] = Some(self.map(t)?),
            _ => return None,
        }
        Some(())
    }

    fn file_key<'a>(&mut self, row: &mut FileRow<'a>, key: &[u8], t: &mut Text<'a>) -> Option<()> {
        match key {
            b"path" => row.path = t.string()?,
            b"mount" => row.mount = self.mount_names.find(t.string()?)?,
            b"uid" => row.uid = Some(t.id()?),
            b"gid" => row.gid = Some(t.id()?),
            b"mode" => row.mode = Some(mode_of(t.string()?)?),
            b"caps" => row.caps = Some(attribute(t.string()?)?),
            b"interpreter" => {
                let at = self.paths.find(t.string()?)?;
                row.interpreter = Some(at).filter(|at| self.files[*at as usize].interpreter.is_none());
                row.interpreter?;
            }
            _ => return None,
        }
        Some(())
    }

    fn process_key(&mut self, row: &mut ProcessRow, key: &[u8], t: &mut Text) -> Option<()> {
        match key {
            b"pid" => row.pid = Some(t.number().filter(|p| (1..=4_194_304).contains(p))?),
            b"parent" => row.parent = t.number().filter(|p| self.machine.procs.has(*p))?,
            b"space" => row.space = self.spaces.find(t.string()?)?,
            b"uid" => row.uid = t.four()?,
            b"gid" => row.gid = t.four()?,
            b"groups" => row.groups = Some(t.groups()?),
            b"permitted" => row.sets[0] = Some(set_of(t.string()?)?),
            b"effective" => row.sets[1] = Some(set_of(t.string()?)?),
            b"inheritable" => row.sets[2] = Some(set_of(t.string()?)?),
            b"ambient" => row.sets[3] = Some(set_of(t.string()?)?),
            b"bounding" => row.sets[4] = Some(set_of(t.string()?)?),
            b"securebits" => row.sec = t.number().filter(|n| *n <= 255)? as u8,
            b"no_new_privs" => row.nnp = t.flag()?,
            _ => return None,
        }
        Some(())
    }

    /// What a row declares, once its last key was read.
    fn end(&mut self, row: Row) -> Option<()> {
        match row {
            Row::Whole | Row::Filter => Some(()),
            Row::Space(row) => self.add_space(row),
            Row::Mount(row) => self.add_mount(row),
            Row::File(row) => self.add_file(row),
            Row::Process(row) => self.add_process(row),
        }
    }

    fn add_space(&mut self, row: SpaceRow) -> Option<()> {
        let (parent, owner) = (row.parent?, row.owner?);
        let above = &self.machine.spaces[parent as usize];
        let kept = |above: &Option<Map>, list: Option<Vec<Extent>>| match list {
            None => Some(None),
            Some(list) => {
                Map::of(&list)?;
                Some(Some(Map::of(&above.as_ref()?.take_down(&list)?)?))
            }
        };
        let (uids, gids) = (kept(&above.uids, row.uids)?, kept(&above.gids, row.gids)?);
        let level = above.level + 1;
        let good = is_name(row.name) && level <= DEEPEST && self.machine.spaces.len() < 256;
        if !good || !self.spaces.add(row.name) {
            return None;
        }
        self.machine.spaces.push(Space { parent, level, owner, uids, gids, deny: row.deny, setfcap: row.setfcap });
        Some(())
    }

    fn add_mount(&mut self, row: MountRow) -> Option<()> {
        let [fs_uids, fs_gids] = row.fs;
        let fs = [fs_uids.unwrap_or_else(Map::initial), fs_gids.unwrap_or_else(Map::initial)];
        let maps = match row.maps {
            [None, None] => None,
            [uids, gids] => Some([uids?, gids?]),
        };
        if !is_name(row.name) || self.mounts.len() >= 64 || !self.mount_names.add(row.name) {
            return None;
        }
        self.mounts.push(Mount { space: row.space, nosuid: row.nosuid, noexec: row.noexec, fs, maps });
        Some(())
    }

    fn add_file(&mut self, row: FileRow) -> Option<()> {
        let mount = &self.mounts[row.mount as usize];
        let file = mount.file(row.uid?, row.gid?, row.mode?, row.caps, row.interpreter);
        if !is_path(row.path) || self.files.len() >= 4096 || !self.paths.add(row.path) {
            return None;
        }
        self.files.push(file);
        Some(())
    }

    fn add_process(&mut self, row: ProcessRow) -> Option<()> {
        let held = if row.uid[1] == 0 { FULL } else { 0 };
        let [prm, eff, inh, amb, bnd] = row.sets;
        let (prm, eff, inh) = (prm.unwrap_or(held), eff.unwrap_or(held), inh.unwrap_or(0));
        let (amb, bnd) = (amb.unwrap_or(0), bnd.unwrap_or(FULL));
        if eff & !prm != 0 || amb & !(prm & inh) != 0 || self.machine.procs.count() >= 4096 {
            return None;
        }
        let cred = Cred { uid: row.uid, gid: row.gid, inh, prm, eff, bnd, amb, sec: row.sec, nnp: row.nnp };
        let groups = row.groups.unwrap_or_else(|| self.machine.no_groups.clone());
        self.machine.procs.add(row.pid?, row.parent, Proc { space: row.space, cred, groups, filter: 0 }).then_some(())
    }
}

fn header(line: &[u8]) -> Option<Row<'static>> {
    Some(match line {
        b"[[space]]" => Row::Space(SpaceRow::default()),
        b"[[mount]]" => Row::Mount(MountRow::default()),
        b"[[file]]" => Row::File(FileRow::default()),
        b"[[process]]" => Row::Process(ProcessRow::default()),
        b"[filter]" => Row::Filter,
        _ => return None,
    })
}

pub fn read(text: &[u8]) -> Option<(World, Machine)> {
    let mut r = Reader {
        machine: Machine::new(),
        spaces: Names::with(b"init"),
        mount_names: Names::with(ROOT),
        mounts: vec![Mount { space: 0, nosuid: false, noexec: false, fs: [Map::initial(), Map::initial()], maps: None }],
        paths: Names::default(),
        files: Vec::new(),
        filter: 0,
        form: None,
        list: Vec::new(),
    };
    let mut row = Row::Whole;
    for line in text.split(|b| *b == b'\n') {
        let line = line.trim_ascii();
        match line.first() {
            None | Some(b'#') => continue,
            Some(b'[') => {
                let before = std::mem::replace(&mut row, header(line)?);
                r.end(before)?;
            }
            Some(_) => {
                let at = line.iter().position(|b| *b == b'=')?;
                let mut value = Text(&line[at + 1..]);
                r.key(&mut row, line[..at].trim_ascii_end(), &mut value)?;
                value.blanks();
                if !value.0.is_empty() && value.0[0] != b'#' {
                    return None;
                }
            }
        }
    }
    r.end(row)?;
    let world = World { spaces: r.spaces, paths: r.paths, files: r.files, filter: r.filter, strace: r.form? };
    Some((world, r.machine))
}
