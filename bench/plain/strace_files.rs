//! Files that are followed in logs of strace, and texts that are written to them (docs/STRACE.md).
use crate::lines::{number, pid_of};
use crate::map::Extent;
use crate::strace_text::{is_blank, trimmed};

#[derive(Clone, Copy, PartialEq)]
pub enum File {
    UidMap,
    GidMap,
    Setgroups,
    UserSpace,
}

const NAMES: [(&[u8], File); 4] =
    [(b"uid_map", File::UidMap), (b"gid_map", File::GidMap), (b"setgroups", File::Setgroups), (b"ns/user", File::UserSpace)];

pub enum Path {
    Other,
    Relative,        // one that may name a followed file
    Of(u32, File), // of the process of that pid
}

fn file_named(name: &[u8], writes: bool) -> Option<File> {
    NAMES.iter().find(|(text, _)| *text == name).map(|(_, file)| *file).filter(|f| writes || *f == File::UserSpace)
}

/// The text before a slash, and the text after it.
fn at_slash(text: &[u8]) -> Option<(&[u8], &[u8])> {
    let at = text.iter().position(|b| *b == b'/')?;
    Some((&text[..at], &text[at + 1..]))
}

/// What a path is that a process opens.
pub fn path_of(pid: u32, path: &[u8], writes: bool) -> Path {
    if path.first() != Some(&b'/') {
        let ends = |name: &[u8]| path.strip_suffix(name).is_some_and(|front| front.is_empty() || front.ends_with(b"/"));
        let may = NAMES.iter().any(|(name, file)| (writes || *file == File::UserSpace) && ends(name));
        return if may { Path::Relative } else { Path::Other };
    }
    absolute(pid, path, writes).unwrap_or(Path::Other)
}

fn absolute(pid: u32, path: &[u8], writes: bool) -> Option<Path> {
    let (whose, rest) = at_slash(path.strip_prefix(b"/proc/")?)?;
    if let Some(rest) = rest.strip_prefix(b"task/") {
        let (thread, name) = at_slash(rest)?;
        let file = file_named(name, writes)?;
        let good = whose == b"self" || pid_of(whose).is_some();
        return pid_of(thread).filter(|_| good).map(|t| Path::Of(t, file));
    }
    let file = file_named(rest, writes)?;
    if whose == b"self" || whose == b"thread-self" { Some(Path::Of(pid, file)) } else { Some(Path::Of(pid_of(whose)?, file)) }
}

/// Whether a text is a map; its lines come into `list`.
pub fn written_map(text: &[u8], list: &mut Vec<Extent>) -> bool {
    list.clear();
    if text.is_empty() {
        return true;
    }
    let text = text.strip_suffix(b"\n").unwrap_or(text);
    text.split(|b| *b == b'\n').all(|line| {
        let (mut e, mut count) = ([0; 3], 0);
        for word in trimmed(line).split(|b| is_blank(*b)).filter(|w| !w.is_empty()) {
            match (e.get_mut(count), number(word)) {
                (Some(at), Some(n)) => *at = n,
                _ => return false,
            }
            count += 1;
        }
        list.push(Extent { inside: e[0], outside: e[1], length: e[2] });
        count == 3
    })
}

/// Whether a written word is `deny`.
pub fn written_word(text: &[u8]) -> Option<bool> {
    match text.strip_suffix(b"\n").unwrap_or(text) {
        b"allow" => Some(false),
        b"deny" => Some(true),
        _ => None,
    }
}
