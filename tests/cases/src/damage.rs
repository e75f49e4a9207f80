//! Ways to damage a text.

use crate::random::Random;

#[derive(Clone, Copy, Debug, PartialEq, Eq, PartialOrd, Ord)]
pub enum Damage {
    ByteChanged,
    ByteRemoved,
    ByteInserted,
    Truncated,
    NoLastNewline,
    CarriageReturn,
    LeadingZero,
    SixDigits,
    NoDigit,
    Blank,
    BlankLine,
    NoTasks,
    TooManyTasks,
    MoreTasks,
    LineMissing,
    LineTwice,
    UpperCase,
    NulByte,
    RandomBytes,
    Empty,
}

use Damage::*;

pub const ALL: [Damage; 20] = [
    ByteChanged,
    ByteRemoved,
    ByteInserted,
    Truncated,
    NoLastNewline,
    CarriageReturn,
    LeadingZero,
    SixDigits,
    NoDigit,
    Blank,
    BlankLine,
    NoTasks,
    TooManyTasks,
    MoreTasks,
    LineMissing,
    LineTwice,
    UpperCase,
    NulByte,
    RandomBytes,
    Empty,
];

pub fn name(damage: Damage) -> &'static str {
    match damage {
        ByteChanged => "byte changed",
        ByteRemoved => "byte removed",
        ByteInserted => "byte inserted",
        Truncated => "truncated",
        NoLastNewline => "no last byte 10",
        CarriageReturn => "CR LF",
        LeadingZero => "leading zero",
        SixDigits => "six digits",
        NoDigit => "no digit",
        Blank => "blank",
        BlankLine => "blank line",
        NoTasks => "tasks=0",
        TooManyTasks => "tasks=65",
        MoreTasks => "more tasks",
        LineMissing => "line missing",
        LineTwice => "line twice",
        UpperCase => "upper case",
        NulByte => "byte 0",
        RandomBytes => "random bytes",
        Empty => "empty",
    }
}

/// The text after the damage. A text too short for the damage comes back as it is.
pub fn apply(damage: Damage, random: &mut Random, text: &[u8]) -> Vec<u8> {
    match damage {
        RandomBytes => random_bytes(random),
        Empty => Vec::new(),
        _ if text.is_empty() => Vec::new(),
        ByteChanged => with(text, |text| {
            let at = random.below(text.len());
            text[at] = any_byte(random);
        }),
        ByteRemoved => with(text, |text| {
            text.remove(random.below(text.len()));
        }),
        ByteInserted => with(text, |text| {
            text.insert(random.below(text.len() + 1), any_byte(random));
        }),
        Truncated => text[..random.below(text.len())].to_vec(),
        NoLastNewline => text[..text.len() - 1].to_vec(),
        UpperCase => with(text, |text| {
            let at = random.below(text.len());
            text[at..].make_ascii_uppercase();
        }),
        NulByte => with(text, |text| text.insert(random.below(text.len() + 1), 0)),
        NoTasks => count_line(text, b"tasks=0\n"),
        TooManyTasks => count_line(text, b"tasks=65\n"),
        MoreTasks => count_line(text, b"tasks=64\n"),
        _ => on_a_line(damage, random, text),
    }
}

/// Damage that is done to one line, any of them.
fn on_a_line(damage: Damage, random: &mut Random, text: &[u8]) -> Vec<u8> {
    let mut lines: Vec<Vec<u8>> =
        text.split_inclusive(|&byte| byte == b'\n').map(Vec::from).collect();
    let at = random.below(lines.len());
    let number = lines[at].iter().position(|&byte| byte == b'=').map_or(0, |place| place + 1);
    let end = lines[at].iter().position(|&byte| byte == b'\n').unwrap_or(lines[at].len());
    match damage {
        CarriageReturn => lines[at].insert(end, b'\r'),
        LeadingZero => lines[at].insert(number, b'0'),
        SixDigits => lines[at] = [&lines[at][..number], &b"123456\n"[..]].concat(),
        NoDigit => lines[at] = [&lines[at][..number], &b"\n"[..]].concat(),
        Blank => {
            let place = random.below(end + 1);
            lines[at].insert(place, random.pick(b" \t"));
        }
        BlankLine => lines.insert(at, b"\n".to_vec()),
        LineMissing => {
            lines.remove(at);
        }
        LineTwice => lines.insert(at, lines[at].clone()),
        _ => unreachable!("damage to the whole text"),
    }
    lines.concat()
}

/// The text with another first line.
fn count_line(text: &[u8], line: &[u8]) -> Vec<u8> {
    let end = text.iter().position(|&byte| byte == b'\n').map_or(text.len(), |place| place + 1);
    [line, &text[end..]].concat()
}

fn random_bytes(random: &mut Random) -> Vec<u8> {
    (0..random.below(200)).map(|_| any_byte(random)).collect()
}

/// Any byte, but often one that texts are made of.
fn any_byte(random: &mut Random) -> u8 {
    if random.one_in(2) {
        random.pick(b"0123456789\n=taskcdr ")
    } else {
        random.below(256) as u8
    }
}

fn with(text: &[u8], change: impl FnOnce(&mut Vec<u8>)) -> Vec<u8> {
    let mut text = text.to_vec();
    change(&mut text);
    text
}
