//! Sheets: every sentence of the request has a case.

use crate::convert::{to_sheet, to_text};
use crate::sheet::sheet_of;
use crate::writer::set_text;
use crate::*;

const HEADER: &str = "execution,deadline,period,release";
const FILL: u32 = 0xdead_beef;

/// The words that a sheet is read to. Beyond them, and after a refusal, the table has to stay.
fn words(sheet: impl AsRef<[u8]>) -> Result<Vec<u32>, Refusal> {
    let mut table = [FILL; 260];
    let answer = read_sheet(sheet.as_ref(), &mut table);
    let filled = 4 * answer.unwrap_or(0);
    assert!(table[filled..].iter().all(|&word| word == FILL));
    answer.map(|_| table[..filled].to_vec())
}

/// With the plain header before it.
fn below_header(records: impl AsRef<[u8]>) -> Result<Vec<u32>, Refusal> {
    words([HEADER.as_bytes(), b"\r\n", records.as_ref()].concat())
}

fn reads(sheet: impl AsRef<[u8]>, wanted: &[u32]) {
    let sheet = sheet.as_ref();
    assert_eq!(words(sheet), Ok(wanted.to_vec()), "{}", sheet.escape_ascii());
}

fn record_refused(record: usize) -> Result<Vec<u32>, Refusal> {
    Err(Refusal::Record { record })
}

/// Each of these is a bad record 2.
fn bad_records(records: &[&str]) {
    for record in records {
        assert_eq!(below_header(record), record_refused(2), "{record:?}");
        let later = format!("1,2,3,4\n{record}");
        assert_eq!(below_header(later), record_refused(3), "{record:?}");
    }
}

fn bad_headers(headers: &[&str]) {
    for header in headers {
        for end in ["", "\n", "\r\n", "\n1,2,3,4\n"] {
            let sheet = format!("{header}{end}");
            assert_eq!(words(&sheet), Err(Refusal::Header), "{sheet:?}");
        }
    }
}

/// With a column for comments, whose field is this one.
fn comment(field: impl AsRef<[u8]>) -> Result<Vec<u32>, Refusal> {
    let start = b"note,execution,deadline,period,release\r\n";
    words([start, field.as_ref(), b",1,2,3,4\r\n5,6,7,8,9\r\n"].concat())
}

fn comments_skipped(fields: &[&[u8]]) {
    for field in fields {
        assert_eq!(comment(field), Ok(vec![1, 2, 3, 4, 6, 7, 8, 9]), "{}", field.escape_ascii());
    }
}

#[test]
fn plain_sheets() {
    reads(format!("{HEADER}\r\n1,2,3,4\r\n"), &[1, 2, 3, 4]);
    reads(format!("{HEADER}\r\n1,2,3,4\r\n50,60,70,80\r\n"), &[1, 2, 3, 4, 50, 60, 70, 80]);
}

/// CR LF, a bare LF, both in one sheet; the last record may end with the sheet.
#[test]
fn line_ends() {
    for end in ["\r\n", "\n", ""] {
        for inner in ["\r\n", "\n"] {
            let sheet = format!("{HEADER}{inner}1,2,3,4\n5,6,7,8{end}");
            reads(sheet, &[1, 2, 3, 4, 5, 6, 7, 8]);
        }
    }
    reads(format!("{HEADER}\n1,2,3,\"4\""), &[1, 2, 3, 4]);
}

/// A CR that no LF follows is not as due: within the line, at its end, at the end of the sheet.
#[test]
fn carriage_returns_alone() {
    bad_records(&[
        "1,2,3,4\r",
        "1,2,3,4\r5,6,7,8\r\n",
        "1,2\r,3,4\r\n",
        "1,2,3,4\r\r\n",
        "\r1,2,3,4",
    ]);
    bad_records(&["\"1\"\r,2,3,4\n", "1,2,3,\"4\"\r", "\r"]);
    bad_headers(&["execution,deadline,period\r,release", "\rexecution,deadline,period,release"]);
    assert_eq!(words(format!("{HEADER}\r")), Err(Refusal::Header));
    assert_eq!(words(format!("{HEADER}\r1,2,3,4\r")), Err(Refusal::Header));
    assert_eq!(comment("a\rb"), record_refused(2));
    assert_eq!(comment("a\r"), record_refused(2));
}

/// A blank line is a record of one empty field, so it is never as due; after the last line end there
/// is no further record.
#[test]
fn blank_lines() {
    bad_records(&["\r\n", "\n", "\n1,2,3,4\n", "\r\n\r\n", "\"\"\n"]);
    assert_eq!(below_header("1,2,3,4\r\n\r\n"), record_refused(3));
    assert_eq!(below_header("1,2,3,4\n\n"), record_refused(3));
    assert_eq!(below_header("1,2,3,4\n\n5,6,7,8\n"), record_refused(3));
    assert_eq!(words(format!("\n{HEADER}\n1,2,3,4\n")), Err(Refusal::Header));
    assert_eq!(words(format!("\r\n{HEADER}\n1,2,3,4\n")), Err(Refusal::Header));
}

#[test]
fn quotes_that_are_not_as_due() {
    // Inside a plain field.
    bad_records(&["1\",2,3,4\n", "1\"\",2,3,4", "1,2,3,4\"", " \"1\",2,3,4\n"]);
    assert_eq!(comment("a\"b"), record_refused(2));
    assert_eq!(comment(" \"b\""), record_refused(2));
    assert_eq!(comment("b\"\"\"\""), record_refused(2));
    // Something after a closing quote.
    bad_records(&["\"1\"0,2,3,4\n", "\"1\" ,2,3,4\n", "1,2,3,\"4\"5", "\"1\"\"\"2,2,3,4\n"]);
    assert_eq!(comment("\"a\"b"), record_refused(2));
    assert_eq!(comment("\"a\"\t"), record_refused(2));
    assert_eq!(comment("\"\"a\"\""), record_refused(2));
    // Not closed; what follows is all inside.
    bad_records(&["\"1,2,3,4\n", "1,2,3,\"4", "1,2,3,\"4\n5,6,7,8\n", "1,2,3,\"", "1,2,3,\"4\"\""]);
    assert_eq!(comment("\""), record_refused(2));
    assert_eq!(comment("\"\"\""), record_refused(2));
    assert_eq!(comment("\"a\"\""), record_refused(2));
    bad_headers(&[
        "\"note,execution,deadline,period,release",
        "no\"te,execution,deadline,period,release",
        "\"note\"s,execution,deadline,period,release",
        "\"execution\" ,deadline,period,release",
        "execution,deadline,period,\"release",
    ]);
}

/// Commas, line ends and doubled quotes inside quotes are text, in skipped columns of any kind.
#[test]
fn quoted_fields() {
    comments_skipped(&[
        b"\"\"",
        b"\"a\"",
        b"\"a,b\"",
        b"\",,,,\"",
        b"\"a\nb\"",
        b"\"a\r\nb\"",
        b"\"a\rb\"",
        b"\"\r\"",
        b"\"\n\n1,2,3,4,5\n\"",
        b"\"\"\"\"",
        b"\"\"\"\"\"\"",
        b"\"a \"\"b\"\" c\"",
        b"\"\"\"a\"\"\"",
        b"\"\"\",\"\"\"",
        b"\"\"\"\n\"",
    ]);
    reads("\"a\"\"\n,b\",execution,deadline,period,release\n\",\",1,2,3,4\n", &[1, 2, 3, 4]);
}

/// Bytes of 128 and above, byte 0, tabs and the like are text.
#[test]
fn any_other_byte_is_text() {
    comments_skipped(&[b"", b" ", b"\t", b"\0", b"\0\0\x0b\x0c\x7f", b"\x80\xff", b"\xc3\xa4"]);
    comments_skipped(&[b"\"\0\"", b"\"\xff\t\"", b"#", b"'", b";", b"=1+1", b"\\", b"'a'"]);
    for byte in (0..=255).filter(|byte| !b"\",\r\n".contains(byte)) {
        assert_eq!(comment([byte]), Ok(vec![1, 2, 3, 4, 6, 7, 8, 9]), "{byte}");
        assert_eq!(comment([b'"', byte, b'"']), Ok(vec![1, 2, 3, 4, 6, 7, 8, 9]), "{byte}");
    }
    bad_records(&["1\t,2,3,4\n", "1\0,2,3,4\n", "\u{a0}1,2,3,4\n", "1,2,3,4\0", "1;2;3;4\n"]);
}

#[test]
fn columns_in_any_order() {
    reads("release,period,deadline,execution\n4,3,2,1\n", &[1, 2, 3, 4]);
    reads("period,execution,release,deadline\r\n3,1,4,2\r\n", &[1, 2, 3, 4]);
    reads("a,period,b,execution,c,release,d,deadline,e\n?,3,?,1,?,4,?,2,?\n", &[1, 2, 3, 4]);
    for places in [[0, 1, 2, 3], [1, 0, 3, 2], [3, 0, 1, 2], [2, 3, 0, 1], [0, 2, 1, 3]] {
        let names = places.map(|place| ["execution", "deadline", "period", "release"][place]);
        let numbers = places.map(|place| ["10", "20", "30", "40"][place]);
        reads(format!("{}\n{}", names.join(","), numbers.join(",")), &[10, 20, 30, 40]);
    }
}

/// By content: quoted or plain. Lower-case letters, nothing around them, nothing missing.
#[test]
fn names() {
    reads("\"execution\",deadline,\"period\",\"release\"\n1,2,3,4", &[1, 2, 3, 4]);
    bad_headers(&[
        "",
        ",,,",
        "execution",
        "deadline,period,release",
        "execution,period,release",
        "execution,deadline,release",
        "execution,deadline,period",
        "Execution,deadline,period,release",
        "EXECUTION,DEADLINE,PERIOD,RELEASE",
        "execution ,deadline,period,release",
        "execution,deadline, period,release",
        "\"execution \",deadline,period,release",
        "\"exec\"\"ution\",deadline,period,release",
        "\"execution\"\"\",deadline,period,release",
        "executio,deadline,period,release",
        "executions,deadline,period,release",
        "execution;deadline;period;release",
        "execution,deadline,period,release\0",
        "1,2,3,4",
        "\u{feff}execution,deadline,period,release",
    ]);
    // A byte order mark is part of a name; before a column that is skipped it does no harm.
    reads("\u{feff}note,execution,deadline,period,release\n,1,2,3,4", &[1, 2, 3, 4]);
    reads("\u{feff}execution,execution,deadline,period,release\n,1,2,3,4", &[1, 2, 3, 4]);
}

#[test]
fn names_twice() {
    bad_headers(&[
        "execution,execution,deadline,period,release",
        "execution,deadline,period,release,release",
        "execution,deadline,period,release,\"deadline\"",
        "\"period\",execution,deadline,period,release",
        "execution,deadline,period,release,execution,deadline,period,release",
    ]);
    // Of the other columns two may have one name, also an empty one.
    reads("a,a,execution,deadline,period,release\n7,8,1,2,3,4", &[1, 2, 3, 4]);
    reads(",execution,,deadline,,period,release,\n7,1,8,2,9,3,4,\n", &[1, 2, 3, 4]);
    reads("Release,release,execution,deadline,period\n7,4,1,2,3\n", &[1, 2, 3, 4]);
}

#[test]
fn header_missing() {
    assert_eq!(words(""), Err(Refusal::Header));
    assert_eq!(words("\n"), Err(Refusal::Header));
    assert_eq!(words("1,2,3,4\n"), Err(Refusal::Header));
    assert_eq!(words("\0"), Err(Refusal::Header));
    assert_eq!(words("\""), Err(Refusal::Header));
}

#[test]
fn no_record_after_the_header() {
    for end in ["", "\n", "\r\n"] {
        assert_eq!(words(format!("{HEADER}{end}")), Err(Refusal::NoRecord), "{end:?}");
        assert_eq!(words(format!("{HEADER},\"\"{end}")), Err(Refusal::NoRecord), "{end:?}");
    }
    assert_eq!(words(format!("{HEADER}\n\n")), record_refused(2));
}

#[test]
fn numbers_by_the_digit_rule() {
    let good = [
        ("0", 0),
        ("1", 1),
        ("9", 9),
        ("10", 10),
        ("12", 12),
        ("65536", 65_536),
        ("99999", 99_999),
    ];
    for (number, value) in good {
        for field in [number.to_string(), format!("\"{number}\"")] {
            reads(format!("{HEADER}\n{field},2,3,4\n"), &[value, 2, 3, 4]);
            reads(format!("{HEADER}\n1,2,3,{field}"), &[1, 2, 3, value]);
        }
    }
    for bad in [
        "", " 12", "12 ", "012", "00", "01", "123456", "100000", "000001", "-1", "+1", "1.0",
        "1e3", "0x1", "x", "1 2", "\t1", "１",
    ] {
        for place in 0..4 {
            for field in [bad.to_string(), format!("\"{bad}\"")] {
                let mut fields = ["1", "2", "3", "4"];
                fields[place] = &field;
                let record = fields.join(",");
                bad_records(&[&format!("{record}\n"), &record]);
            }
        }
    }
    bad_records(&["\"1,2\",3,4,5\n", "\"1\n\",2,3,4\n", "\"1\"\"\",2,3,4\n", "\"\"\"1\",2,3,4\n"]);
}

#[test]
fn as_many_fields_as_the_header() {
    bad_records(&[
        "1,2,3\n",
        "1,2,3,4,5\n",
        "1,2,3,4,\n",
        ",1,2,3,4\n",
        "1\n",
        "1,2,3",
        "1,2,3,4,",
    ]);
    let header = "a,execution,deadline,period,release,b\n";
    reads(format!("{header},1,2,3,4,"), &[1, 2, 3, 4]);
    for record in ["1,2,3,4", ",1,2,3,4", ",1,2,3,4,,", "x,1,2,3,4,\"a\",\"b\""] {
        assert_eq!(words(format!("{header}{record}\n")), record_refused(2), "{record}");
    }
    let wide = |count: usize| ",".repeat(count);
    let sheet = |more: usize| format!("{HEADER}{}\n1,2,3,4{}\n", wide(5000), wide(more));
    reads(sheet(5000), &[1, 2, 3, 4]);
    assert_eq!(words(sheet(4999)), record_refused(2));
    assert_eq!(words(sheet(5001)), record_refused(2));
}

#[test]
fn sixty_four_records_and_one_more() {
    for end in ["\r\n", "\n"] {
        let record = format!("1,2,3,4{end}");
        for count in [1, 2, 63, 64] {
            assert_eq!(below_header(record.repeat(count)), Ok([1, 2, 3, 4].repeat(count)));
        }
        for count in [65, 66, 100] {
            assert_eq!(below_header(record.repeat(count)), record_refused(66));
        }
        // Whatever the 65th holds.
        for last in ["1,2,3,4", "x", "\n", "\"", ",,,,,,,,"] {
            assert_eq!(below_header(record.repeat(64) + last), record_refused(66), "{last:?}");
        }
    }
}

#[test]
fn the_first_bad_record() {
    let record = "1,2,3,4\n";
    for bad in 0..64 {
        let sheet = record.repeat(bad) + "1,2,3\n" + &record.repeat(70 - bad);
        assert_eq!(below_header(sheet), record_refused(bad + 2));
    }
    assert_eq!(below_header("1,2,3,4\nx,2,3,4\n1\n"), record_refused(3));
    // A line end inside quotes begins no record.
    let start = "note,execution,deadline,period,release\n";
    assert_eq!(words(format!("{start}\"a\nb\nc\",1,2,3,4\n,1,2,3,x\n")), record_refused(3));
}

/// 13, 14, 15, 6.
#[test]
fn order_of_refusals() {
    let short = |sheet: &str, length: usize| read_sheet(sheet.as_bytes(), &mut vec![0; length]);
    assert_eq!(short("", 0), Err(Refusal::Header));
    assert_eq!(short("x\n1,2\n", 0), Err(Refusal::Header));
    assert_eq!(short(&format!("{HEADER}\n1,2,3,4\n1\n"), 0), Err(Refusal::Record { record: 3 }));
    assert_eq!(short(HEADER, 0), Err(Refusal::NoRecord));
    let sheet = format!("{HEADER}\n1,2,3,4\n5,6,7,8\n");
    for length in 0..8 {
        let mut table = vec![FILL; length];
        assert_eq!(read_sheet(sheet.as_bytes(), &mut table), Err(Refusal::ShortBuffer));
        assert!(table.iter().all(|&word| word == FILL));
    }
    assert_eq!(short(&sheet, 8), Ok(2));
}

#[test]
fn numbers_of_the_refusals() {
    let refusals = [Refusal::Header, Refusal::Record { record: 2 }, Refusal::NoRecord];
    assert_eq!(refusals.map(Refusal::number), [13, 14, 15]);
}

#[test]
fn written_sheets() {
    let sheet = b"execution,deadline,period,release\r\n1,9,10,0\r\n65535,99,100,65535\r\n";
    let table = [1, 9, 10, 0, 65_535, 99, 100, 65_535];
    let mut lent = [7; 80];
    assert_eq!(write_sheet(&table, &mut lent), Ok(sheet.len()));
    assert_eq!(&lent[..sheet.len()], sheet);
    assert!(lent[sheet.len()..].iter().all(|&byte| byte == 7));
    assert_eq!(words(sheet), Ok(table.to_vec()));
    for length in 0..sheet.len() {
        let mut lent = vec![7; length];
        assert_eq!(write_sheet(&table, &mut lent), Err(Refusal::ShortBuffer));
        assert!(lent.iter().all(|&byte| byte == 7));
    }
}

/// 1, 2, 3, 4, 6.
#[test]
fn refusals_of_the_writer() {
    let refused = |table: &[u32]| {
        let mut lent = [7; 30];
        let answer = write_sheet(table, &mut lent);
        assert_eq!(lent, [7; 30]);
        answer.unwrap_err()
    };
    assert_eq!(refused(&[]), Refusal::NoWord);
    assert_eq!(refused(&[0; 5]), Refusal::NotFours);
    assert_eq!(refused(&[0; 257]), Refusal::NotFours);
    assert_eq!(refused(&[0; 260]), Refusal::TooManyWords);
    assert_eq!(refused(&[1, 1, 1, 0, 1, 0, 1, 0]), Refusal::OutOfRange { word: 5 });
    assert_eq!(refused(&[1, 1, 1, 65_536]), Refusal::OutOfRange { word: 3 });
    assert_eq!(refused(&[1, 1, 1, 0]), Refusal::ShortBuffer);
}

/// A sheet written from a valid table reads back to it, and the two formats agree.
#[test]
fn written_then_read() {
    for count in [1, 2, 63, 64] {
        let table: Vec<u32> = (0..4 * count).map(|word| 1 + word * word * 7919 % 65_535).collect();
        let back = words(sheet_of(&table)).unwrap();
        assert_eq!(back, table);
        assert_eq!(to_text(&sheet_of(&table)), Ok(set_text(&table)));
        assert_eq!(to_sheet(&set_text(&table)), Ok(sheet_of(&table)));
    }
}

#[test]
fn words_for_a_sheet() {
    let header =
        "the header must name execution, deadline, period and release once each (refusal 13)";
    let told = |sheet: String| to_text(sheet.as_bytes()).unwrap_err();
    let below = |records: &str| told(format!("{HEADER}\n{records}"));
    let range = |words: &str| format!("{words} to 65535 (refusal 4)");
    assert_eq!(told(String::new()), header);
    assert_eq!(below("1,2,3,4\n1,2,3\n"), "record 3 is not as due (refusal 14)");
    assert_eq!(
        below(&"1,2,3,4\n".repeat(65)),
        "record 66 is one too many: a tile has at most 64 kernels (refusal 14)"
    );
    assert_eq!(below(""), "no record comes after the header (refusal 15)");
    assert_eq!(below("0,2,3,4\n"), range("record 2: execution is out of its range, which is 1"));
    assert_eq!(
        below("1,2,3,4\n1,65536,3,4\n"),
        range("record 3: deadline is out of its range, which is 1")
    );
    assert_eq!(below("1,2,0,4\n"), range("record 2: period is out of its range, which is 1"));
    assert_eq!(below("1,2,3,99999\n"), range("record 2: release is out of its range, which is 0"));
    // In the order of the table and not of the columns.
    let sheet = "release,execution,period,deadline\n99999,1,0,2\n";
    assert_eq!(told(sheet.to_string()), range("record 2: period is out of its range, which is 1"));
}

#[test]
fn words_for_a_text() {
    let told = |text: &str| to_sheet(text.as_bytes()).unwrap_err();
    assert_eq!(told(""), "line 1 is missing or not as due (refusal 7)");
    assert_eq!(told("tasks=1\nc=1\nd=1\n"), "line 4 is missing or not as due (refusal 7)");
    assert_eq!(
        told("tasks=1\nc=0\nd=1\nt=1\nr=0\n"),
        "line 2 is out of its range, which is 1 to 65535 (refusal 4)"
    );
    assert_eq!(
        told("tasks=1\nc=1\nd=1\nt=1\nr=65536\n"),
        "line 5 is out of its range, which is 0 to 65535 (refusal 4)"
    );
    // The first set alone, whatever follows it.
    let first = "tasks=1\nc=1\nd=2\nt=3\nr=0\n";
    let sheet = format!("{HEADER}\r\n1,2,3,0\r\n").into_bytes();
    for after in ["", first, "x", "\n", "tasks=1\nc=0\nd=1\nt=1\nr=0\n"] {
        assert_eq!(to_sheet(format!("{first}{after}").as_bytes()), Ok(sheet.clone()), "{after:?}");
    }
}

#[test]
fn the_longest_input() {
    let start = "note,execution,deadline,period,release\n,1,2,3,4\n";
    let sheet =
        |length: usize| start.replace("\n,", &format!("\n{},", "x".repeat(length - start.len())));
    let long = "the input has more than 32768 bytes".to_string();
    assert_eq!(to_text(sheet(32_768).as_bytes()), Ok(set_text(&[1, 2, 3, 4])));
    assert_eq!(to_text(sheet(32_769).as_bytes()), Err(long.clone()));
    let text = |length: usize| {
        let mut text = set_text(&[1, 2, 3, 4]);
        text.resize(length, b'x');
        text
    };
    assert_eq!(to_sheet(&text(32_768)), Ok(sheet_of(&[1, 2, 3, 4])));
    assert_eq!(to_sheet(&text(32_769)), Err(long));
}
