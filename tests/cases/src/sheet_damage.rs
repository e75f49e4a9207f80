//! Ways to damage a sheet.

use crate::random::Random;
use crate::sheets::{quoted, Record, Sheet};

#[derive(Clone, Copy, Debug, PartialEq, Eq)]
pub enum SheetDamage {
    ByteChanged,
    ByteRemoved,
    ByteInserted,
    ByteDoubled,
    Truncated,
    QuoteInside,
    AfterQuote,
    NotClosed,
    CarriageReturn,
    BlankLine,
    FieldMissing,
    FieldMore,
    LeadingZero,
    SixDigits,
    NoDigit,
    Blank,
    NameTwice,
    NameMissing,
    NameUpper,
    ByteOrderMark,
    NoHeader,
    HeaderAlone,
    TooManyRecords,
    Marks,
    Empty,
}

use SheetDamage::*;

/// Each with its name.
#[rustfmt::skip]
const NAMES: [(SheetDamage, &str); 25] = [
    (ByteChanged, "sheet byte changed"), (ByteRemoved, "sheet byte removed"),
    (ByteInserted, "sheet byte inserted"), (ByteDoubled, "sheet byte doubled"),
    (Truncated, "sheet truncated"), (QuoteInside, "quote inside a field"),
    (AfterQuote, "something after a closing quote"), (NotClosed, "quote not closed"),
    (CarriageReturn, "CR alone"), (BlankLine, "blank line in a sheet"),
    (FieldMissing, "field missing"), (FieldMore, "field more"),
    (LeadingZero, "leading zero in a field"), (SixDigits, "six digits in a field"),
    (NoDigit, "empty field"), (Blank, "blank in a field"), (NameTwice, "name twice"),
    (NameMissing, "name missing"), (NameUpper, "name in upper case"),
    (ByteOrderMark, "byte order mark"), (NoHeader, "no header"), (HeaderAlone, "header alone"),
    (TooManyRecords, "more than 64 records"), (Marks, "marks"), (Empty, "empty sheet"),
];

pub const ALL: [SheetDamage; NAMES.len()] = {
    let mut all = [Empty; NAMES.len()];
    let mut index = 0;
    while index < all.len() {
        all[index] = NAMES[index].0;
        index += 1;
    }
    all
};

pub fn name(damage: SheetDamage) -> &'static str {
    NAMES[NAMES.iter().position(|(kind, _)| *kind == damage).expect("each has a name")].1
}

/// The sheet's bytes after the damage.
pub fn apply(damage: SheetDamage, random: &mut Random, sheet: &Sheet) -> Vec<u8> {
    match damage {
        ByteChanged | ByteRemoved | ByteInserted | ByteDoubled | Truncated => {
            on_bytes(damage, random, sheet.bytes())
        }
        Marks => (0..random.below(100)).map(|_| random.pick(b"\",\r\n1x")).collect(),
        Empty => Vec::new(),
        NameTwice | NameMissing | NameUpper | ByteOrderMark => {
            let mut sheet = sheet.clone();
            on_header(damage, random, &mut sheet.records[0]);
            sheet.bytes()
        }
        NoHeader | HeaderAlone | TooManyRecords | BlankLine => on_records(damage, random, sheet),
        _ => {
            let mut sheet = sheet.clone();
            let at = random.below(sheet.records.len());
            on_record(damage, random, &mut sheet.records[at]);
            sheet.bytes()
        }
    }
}

fn on_bytes(damage: SheetDamage, random: &mut Random, mut bytes: Vec<u8>) -> Vec<u8> {
    let at = random.below(bytes.len());
    match damage {
        ByteChanged => bytes[at] = any_byte(random),
        ByteRemoved => {
            bytes.remove(at);
        }
        ByteInserted => bytes.insert(at, any_byte(random)),
        ByteDoubled => bytes.insert(at, bytes[at]),
        _ => bytes.truncate(at),
    }
    bytes
}

/// Any byte, but often one of those that sheets are cut by.
fn any_byte(random: &mut Random) -> u8 {
    if random.one_in(2) {
        random.pick(b"\",\r\n0123456789 ")
    } else {
        random.below(256) as u8
    }
}

fn on_header(damage: SheetDamage, random: &mut Random, header: &mut Record) {
    let names = &mut header.fields;
    let at = random.below(names.len());
    match damage {
        NameTwice => names.insert(random.below(names.len() + 1), names[at].clone()),
        NameMissing => names[at] = b"other".to_vec(),
        NameUpper => names[at].make_ascii_uppercase(),
        _ => names[0] = [b"\xef\xbb\xbf", &names[0][..]].concat(),
    }
}

fn on_records(damage: SheetDamage, random: &mut Random, sheet: &Sheet) -> Vec<u8> {
    let mut sheet = sheet.clone();
    let records = &mut sheet.records;
    let last = records[records.len() - 1].clone();
    match damage {
        NoHeader => {
            records.remove(0);
        }
        HeaderAlone => records.truncate(1),
        TooManyRecords => {
            let count = random.pick(&[65, 66, 80]);
            records.resize(1 + count, Record { end: b"\n".to_vec(), ..last });
        }
        _ => {
            let end = random.pick(&[&b"\n"[..], b"\r\n"]).to_vec();
            records.insert(random.below(records.len() + 1), Record { fields: vec![], end });
        }
    }
    sheet.bytes()
}

/// Damage to one record, mostly to one of its fields.
fn on_record(damage: SheetDamage, random: &mut Random, record: &mut Record) {
    let at = random.below(record.fields.len());
    let field = &mut record.fields[at];
    let inner = usize::from(field.starts_with(b"\""));
    match damage {
        QuoteInside => field.insert(field.len() / 2, b'"'),
        AfterQuote => *field = [quoted(b"1"), vec![any_byte(random)]].concat(),
        NotClosed => *field = [b"\"", &field[..]].concat(),
        LeadingZero => field.insert(inner, b'0'),
        SixDigits => *field = b"123456".to_vec(),
        NoDigit => field.clear(),
        Blank => field.insert(random.pick(&[inner, field.len() - inner]), random.pick(b" \t")),
        CarriageReturn => record.end = b"\r".to_vec(),
        FieldMissing => {
            record.fields.remove(at);
        }
        _ => record.fields.insert(at, b"7".to_vec()),
    }
}
