//! Pieces of the lines of strace: names, shapes, arguments, results, quoted texts, sets, flags (docs/STRACE.md).
use crate::lines::{cap_of, number, ERRNOS};

pub fn is_blank(b: u8) -> bool {
    matches!(b, b' ' | b'\t' | b'\r')
}

pub fn without_front(mut t: &[u8]) -> &[u8] {
    while let [b, rest @ ..] = t {
        if !is_blank(*b) {
            break;
        }
        t = rest;
    }
    t
}

pub fn without_end(mut t: &[u8]) -> &[u8] {
    while let [rest @ .., b] = t {
        if !is_blank(*b) {
            break;
        }
        t = rest;
    }
    t
}

pub fn trimmed(t: &[u8]) -> &[u8] {
    without_front(without_end(t))
}

/// The number in front of a blank, of few digits.
pub fn short_number(t: &[u8]) -> Option<(u32, &[u8])> {
    let mut n = 0;
    for (i, b) in t.iter().enumerate().take(8) {
        match b {
            b'0'..=b'9' => n = 10 * n + u32::from(b - b'0'),
            _ if is_blank(*b) => return Some((n, &t[i..])),
            _ => return None,
        }
    }
    None
}

/// The text up to its first blank, and the rest.
pub fn first_word(t: &[u8]) -> (&[u8], &[u8]) {
    t.split_at(t.iter().position(|b| is_blank(*b)).unwrap_or(t.len()))
}

pub fn name_length(t: &[u8]) -> usize {
    t.iter().position(|b| !b.is_ascii_alphanumeric() && *b != b'_').unwrap_or(t.len())
}

pub fn without_32(name: &[u8]) -> &[u8] {
    name.strip_suffix(b"32").unwrap_or(name)
}

/// The name of a call, without a final 32.
pub fn call_name(t: &[u8]) -> &[u8] {
    without_32(&t[..name_length(t)])
}

// ---- calls --------------------------------------------------------------------

/// The place after the quote that closes a text which begins at this place, or past the end.
fn after_quote(text: &[u8], mut i: usize) -> usize {
    while let Some(b) = text.get(i) {
        match b {
            b'\\' => i += 2,
            b'"' => return i + 1,
            _ => i += 1,
        }
    }
    i
}

/// The bytes outside of quotes, each with its place; of a quoted text its first quote alone.
struct OutsideQuotes<'a> {
    text: &'a [u8],
    at: usize,
}

fn outside_quotes(text: &[u8]) -> OutsideQuotes<'_> {
    OutsideQuotes { text, at: 0 }
}

impl Iterator for OutsideQuotes<'_> {
    type Item = (usize, u8);

    fn next(&mut self) -> Option<(usize, u8)> {
        let (i, b) = (self.at, *self.text.get(self.at)?);
        self.at = if b == b'"' { after_quote(self.text, i + 1) } else { i + 1 };
        Some((i, b))
    }
}

/// What stands between the parentheses of a call, and its result.
pub fn shape(call: &[u8]) -> Option<(&[u8], &[u8])> {
    let inner = without_front(&call[name_length(call)..]).strip_prefix(b"(")?;
    let (mut best, mut closing) = (None, None);
    for (i, b) in outside_quotes(inner) {
        match b {
            b')' => closing = Some(i),
            b'=' => best = closing.take().map(|at| (at, i + 1)).or(best),
            b if is_blank(b) => (),
            _ => closing = None,
        }
    }
    best.map(|(at, after)| (&inner[..at], trimmed(&inner[after..])))
}

/// What commas outside of brackets and quotes part.
pub struct Pieces<'a>(pub Option<&'a [u8]>);

pub fn pieces(text: &[u8]) -> Pieces<'_> {
    Pieces(Some(trimmed(text)).filter(|t| !t.is_empty()))
}

impl<'a> Iterator for Pieces<'a> {
    type Item = &'a [u8];

    fn next(&mut self) -> Option<&'a [u8]> {
        let text = self.0?;
        let mut depth = 0usize;
        for (i, b) in outside_quotes(text) {
            match b {
                b'(' | b'[' | b'{' => depth += 1,
                b')' | b']' | b'}' => depth = depth.saturating_sub(1),
                b',' if depth == 0 => {
                    self.0 = Some(&text[i + 1..]);
                    return Some(trimmed(&text[..i]));
                }
                _ => (),
            }
        }
        self.0 = None;
        Some(trimmed(text))
    }
}

/// What stands between a bracket at the front and the one that closes it, or else all after it.
fn bracketed(text: &[u8]) -> &[u8] {
    let mut depth = 0usize;
    for (i, b) in outside_quotes(text) {
        match b {
            b'(' | b'[' | b'{' => depth += 1,
            b')' | b']' | b'}' if depth == 1 => return &text[1..i],
            b')' | b']' | b'}' => depth -= 1,
            _ => (),
        }
    }
    &text[1..]
}

/// What stands between these two bytes at the text's ends.
pub fn between(text: &[u8], open: u8, close: u8) -> Option<&[u8]> {
    match text {
        [first, inner @ .., last] if *first == open && *last == close => Some(inner),
        _ => None,
    }
}

/// VALUE of a text NAME=VALUE.
pub fn member<'a>(name: &[u8], text: &'a [u8]) -> Option<&'a [u8]> {
    Some(without_front(without_front(text.strip_prefix(name)?).strip_prefix(b"=")?))
}

// ---- results --------------------------------------------------------------------

pub const PAST: u64 = 1 << 32; // what numbers past the greatest one count as

#[derive(Clone, Copy)]
pub enum Outcome {
    NoReturn,
    Number(u64),
    Error(&'static str),
    Other,
}

pub fn is_digits(t: &[u8]) -> bool {
    !t.is_empty() && t.iter().all(u8::is_ascii_digit)
}

pub fn outcome(text: &[u8]) -> Outcome {
    if text.first() == Some(&b'?') {
        return Outcome::NoReturn;
    }
    if is_digits(text) {
        return Outcome::Number(number(text).map_or(PAST, u64::from));
    }
    let Some(rest) = text.strip_prefix(b"-1").filter(|rest| rest.first().is_some_and(|b| is_blank(*b))) else {
        return Outcome::Other;
    };
    let rest = without_front(rest);
    let name = &rest[..name_length(rest)];
    if name == b"ENOSYS" {
        return Outcome::NoReturn;
    }
    ERRNOS.iter().find(|e| e.as_bytes() == name).map_or(Outcome::Other, |e| Outcome::Error(e))
}

// ---- quoted texts --------------------------------------------------------------------

#[derive(Clone, Copy, PartialEq)]
pub enum Quote {
    Whole,
    Cut,
    None,
}

/// What a quoted text is; its bytes come into `out`.
pub fn quote(text: &[u8], out: &mut Vec<u8>) -> Quote {
    out.clear();
    let Some(mut t) = text.strip_prefix(b"\"") else { return Quote::None };
    loop {
        match t {
            [b'"', tail @ ..] => {
                return match trimmed(tail) {
                    b"" => Quote::Whole,
                    b"..." => Quote::Cut,
                    _ => Quote::None,
                }
            }
            [b'\\', rest @ ..] => {
                let digits = rest.iter().take(3).take_while(|b| (b'0'..=b'7').contains(b)).count();
                let (byte, length) = match rest.first() {
                    Some(b'0'..=b'7') => (rest[..digits].iter().fold(0, |n, b| 8 * n + u32::from(b - b'0')), digits),
                    Some(b'n') => (10, 1),
                    Some(b't') => (9, 1),
                    Some(b'v') => (11, 1),
                    Some(b'f') => (12, 1),
                    Some(b'r') => (13, 1),
                    Some(b @ (b'\\' | b'"')) => (u32::from(*b), 1),
                    _ => return Quote::None,
                };
                if byte > 255 {
                    return Quote::None;
                }
                out.push(byte as u8);
                t = &rest[length..];
            }
            [] => return Quote::None,
            _ => {
                let plain = t.iter().position(|b| matches!(b, b'"' | b'\\')).unwrap_or(t.len());
                out.extend_from_slice(&t[..plain]);
                t = &t[plain..];
            }
        }
    }
}

// ---- words that bars part --------------------------------------------------------------------

pub fn barred(text: &[u8]) -> impl Iterator<Item = &[u8]> {
    text.split(|b| *b == b'|').map(trimmed)
}

pub fn has_flag(flags: &[u8], word: &[u8]) -> bool {
    barred(flags).any(|flag| flag == word)
}

/// The flags of a birth.
pub fn birth_flags(inside: &[u8]) -> &[u8] {
    let flags_of = |argument| {
        member(b"flags", argument).or_else(|| {
            let braces = Some(argument).filter(|a| a.first() == Some(&b'{'))?;
            pieces(bracketed(braces)).find_map(|m| member(b"flags", m))
        })
    };
    pieces(inside).find_map(flags_of).unwrap_or(b"")
}

pub fn hexadecimal(text: &[u8]) -> Option<u32> {
    let digits = text.strip_prefix(b"0x").filter(|d| !d.is_empty())?;
    digits.iter().try_fold(0u32, |n, b| {
        let digit = (*b as char).to_digit(16)?;
        (n >> 28 == 0).then_some(n << 4 | digit)
    })
}

/// The set of an argument of capset.
pub fn mask(text: &[u8]) -> Option<u64> {
    barred(text).try_fold(0, |set, term| match term {
        b"0" => Some(set),
        _ => Some(set | 1 << cap_of(term.strip_prefix(b"1<<")?)?),
    })
}

pub fn securebits(text: &[u8]) -> Option<u32> {
    if text == b"0" {
        return Some(0);
    }
    hexadecimal(text).or_else(|| {
        barred(text).try_fold(0, |bits, word| {
            let (name, locked) = match word.strip_suffix(b"_LOCKED") {
                Some(name) => (name, 1),
                None => (word, 0),
            };
            let bit = match name {
                b"SECBIT_NOROOT" => 0x01,
                b"SECBIT_NO_SETUID_FIXUP" => 0x04,
                b"SECBIT_KEEP_CAPS" => 0x10,
                b"SECBIT_NO_CAP_AMBIENT_RAISE" => 0x40,
                _ => return None,
            };
            Some(bits | bit << locked)
        })
    })
}

fn place(text: &[u8], of: &[u8; 2]) -> Option<usize> {
    text.windows(2).position(|w| w == of)
}

/// The capability that arguments of prctl begin with, whether or not there is one. A comment after it is passed over, also
/// one with commas.
pub fn capability(arguments: &[u8]) -> Option<u32> {
    let arguments = trimmed(arguments);
    let mut text = pieces(arguments).next()?;
    if let Some(at) = place(text, b"/*") {
        let comment = &arguments[at + 2..];
        let left = without_front(&comment[place(comment, b"*/")? + 2..]);
        if left.first().is_some_and(|b| *b != b',') {
            return None;
        }
        text = without_end(&arguments[..at]);
    }
    cap_of(text).map(|k| k as u32).or_else(|| number(text)).or_else(|| hexadecimal(text))
}
