//! Random sheets, and the ones at the edges.

use crate::random::Random;
use crate::sheet_damage;
use crate::tables;
use oracle::sheet::COLUMNS;

pub const HEADER: &[u8] = b"execution,deadline,period,release";
const ENDS: [&[u8]; 2] = [b"\r\n", b"\n"];
/// What the strings of `short_strings` are made of.
const MARKS: &[u8] = b"\",\r\n1x";

/// Fields as they stand in the sheet, and the line end.
#[derive(Clone)]
pub struct Record {
    pub fields: Vec<Vec<u8>>,
    pub end: Vec<u8>,
}

/// The header is the first record.
#[derive(Clone)]
pub struct Sheet {
    pub records: Vec<Record>,
}

impl Sheet {
    pub fn bytes(&self) -> Vec<u8> {
        let line = |record: &Record| [record.fields.join(&b","[..]), record.end.clone()].concat();
        self.records.iter().flat_map(line).collect()
    }
}

/// How a sheet is written: one field in so many is quoted without need, and the line ends.
struct Style {
    quoted: Option<usize>,
    ends: &'static [&'static [u8]],
}

impl Style {
    fn any(random: &mut Random) -> Style {
        Style {
            quoted: random.pick(&[None, Some(5), Some(1)]),
            ends: random.pick(&[&ENDS[..1], &ENDS[1..], &ENDS[..]]),
        }
    }

    fn field(&self, random: &mut Random, content: &[u8]) -> Vec<u8> {
        let needed = content.iter().any(|byte| b"\",\r\n".contains(byte));
        if needed || self.quoted.is_some_and(|odds| random.one_in(odds)) {
            quoted(content)
        } else {
            content.to_vec()
        }
    }

    fn record(&self, random: &mut Random, contents: &[Vec<u8>]) -> Record {
        let fields = contents.iter().map(|content| self.field(random, content)).collect();
        Record { fields, end: random.pick(self.ends).to_vec() }
    }
}

pub fn quoted(content: &[u8]) -> Vec<u8> {
    let doubled =
        content.iter().flat_map(|&byte| if byte == b'"' { vec![byte; 2] } else { vec![byte] });
    [b'"'].into_iter().chain(doubled).chain([b'"']).collect()
}

/// A well-formed sheet of these words. The columns stand in any order and among others, fields are
/// plain or quoted, and the last line end may be missing.
pub fn of_words(random: &mut Random, words: &[u32]) -> Sheet {
    let style = Style::any(random);
    let columns = columns(random);
    let names: Vec<Vec<u8>> = columns.iter().map(|column| column.name.clone()).collect();
    let mut records = vec![style.record(random, &names)];
    for task in words.chunks(4) {
        let contents: Vec<Vec<u8>> =
            columns.iter().map(|column| column.content(random, task)).collect();
        records.push(style.record(random, &contents));
    }
    if random.one_in(4) {
        records.last_mut().expect("the header is there").end.clear();
    }
    Sheet { records }
}

/// A column, and which word of a task it holds; the others hold anything.
struct Column {
    name: Vec<u8>,
    word: Option<usize>,
}

impl Column {
    fn content(&self, random: &mut Random, task: &[u32]) -> Vec<u8> {
        match self.word {
            Some(index) => task[index].to_string().into_bytes(),
            None => comment(random),
        }
    }
}

/// The four columns in any order, mostly with others among them.
fn columns(random: &mut Random) -> Vec<Column> {
    let mut columns: Vec<Column> = Vec::new();
    for (index, name) in COLUMNS.iter().enumerate() {
        let column = Column { name: name.as_bytes().to_vec(), word: Some(index) };
        columns.insert(random.below(columns.len() + 1), column);
    }
    let most = random.pick(&[0, 1, 4, 4, 30]);
    for _ in 0..random.below(most + 1) {
        let column = Column { name: other_name(random), word: None };
        columns.insert(random.below(columns.len() + 1), column);
    }
    columns
}

/// A name that is none of the four, though often like one.
fn other_name(random: &mut Random) -> Vec<u8> {
    let name = match random.below(4) {
        0 => comment(random),
        1 => random.pick(&COLUMNS).to_ascii_uppercase().into_bytes(),
        2 => [random.pick(&COLUMNS).as_bytes(), random.pick(&[&b" "[..], b"s", b"\"", b","])]
            .concat(),
        _ => random.pick(&["", "name", "note", "tasks=1", "exec"]).as_bytes().to_vec(),
    };
    if COLUMNS.iter().any(|column| column.as_bytes() == name) {
        return Vec::new();
    }
    name
}

/// Anything: words with commas, quotes and line ends, or a number, or any bytes, seldom very many.
fn comment(random: &mut Random) -> Vec<u8> {
    let most = if random.one_in(200) { 3000 } else { 8 };
    let length = random.below(most);
    match random.below(4) {
        0 => random.between(0, 99_999).to_string().into_bytes(),
        1 => (0..length).map(|_| random.below(256) as u8).collect(),
        2 => (0..length).map(|_| random.pick(b"\",\r\n a1")).collect(),
        _ => (0..length).map(|_| random.pick(b"a kernel")).collect(),
    }
}

/// One well-formed sheet; the reader doesn't judge the range, so the words go up to 99,999.
pub fn readable(random: &mut Random) -> Sheet {
    let count = if random.one_in(12) { random.pick(&[62, 63, 64]) } else { random.between(1, 5) };
    let words: Vec<u32> = (0..4 * count).map(|_| word(random)).collect();
    of_words(random, &words)
}

fn word(random: &mut Random) -> u32 {
    let most = random.pick(&[0, 9, 99, 999, 9999, 65_535, 65_536, 99_999]);
    random.between(0, most)
}

/// One well-formed sheet of words in range, so that a text can be made of it.
pub fn in_range(random: &mut Random) -> Sheet {
    let table = tables::in_range(random);
    of_words(random, &table)
}

/// What the program may be given: sheets that become texts and sheets that are refused.
pub fn for_program(random: &mut Random) -> Vec<u8> {
    let sheet = if random.one_in(4) { readable(random) } else { in_range(random) };
    if random.one_in(2) {
        return sheet.bytes();
    }
    let kind = random.pick(&sheet_damage::ALL);
    sheet_damage::apply(kind, random, &sheet)
}

/// Every string of up to so many bytes over quote, comma, CR, LF, a digit and a letter.
pub fn short_strings(most: usize) -> Vec<Vec<u8>> {
    let mut strings = vec![Vec::new()];
    let mut begin = 0;
    for _ in 0..most {
        let end = strings.len();
        for index in begin..end {
            let longer = MARKS.iter().map(|&mark| [&strings[index][..], &[mark]].concat());
            let longer: Vec<Vec<u8>> = longer.collect();
            strings.extend(longer);
        }
        begin = end;
    }
    strings
}

/// Where a short string may stand: alone, at the header's end or start, and in the first record.
pub fn around(string: &[u8]) -> [Vec<u8>; 6] {
    [
        string.to_vec(),
        [HEADER, string].concat(),
        [string, b",", HEADER, b"\n1,2,3,4,5\n"].concat(),
        [HEADER, b"\n1,2,3,", string].concat(),
        [b"note,", HEADER, b"\n", string, b",1,2,3,4\n"].concat(),
        [HEADER, b"\n1,2,3,4\n1,", string, b",3,4"].concat(),
    ]
}

/// Sheets of so many records, of very many columns, of very long fields, and of marks alone.
pub fn extreme() -> Vec<Vec<u8>> {
    let mut sheets = Vec::new();
    for count in [0, 1, 2, 62, 63, 64, 65, 66, 130] {
        for end in ENDS {
            let record = [b"1,2,3,4", end].concat();
            let sheet = [HEADER, end, &record.repeat(count)].concat();
            sheets.push(sheet[..sheet.len() - end.len()].to_vec());
            sheets.extend([&b"x"[..], b"\n", b"\"", b"\r"].map(|more| [&sheet, more].concat()));
            sheets.push(sheet);
        }
    }
    for good in [0, 1, 30, 62, 63, 64] {
        let (before, after) = (b"1,2,3,4\n".repeat(good), b"1,2,3,4\n".repeat(80 - good));
        sheets.push([HEADER, b"\n", &before, b"1,2,3\n", &after].concat());
    }
    for count in [1, 100, 10_000] {
        sheets.extend(MARKS.iter().map(|&mark| vec![mark; count]));
        sheets.extend([count - 1, count, count + 1].map(|fields| wide(count, fields)));
        sheets.extend(MARKS.iter().map(|&mark| long(&vec![mark; count])));
        sheets.extend(MARKS.iter().map(|&mark| long(&quoted(&vec![mark; count]))));
    }
    sheets
}

/// So many more columns than the four, and a record with so many more fields.
fn wide(columns: usize, fields: usize) -> Vec<u8> {
    let marks = |count: usize| b",".repeat(count);
    [HEADER, &marks(columns), b"\r\n1,2,3,4", &marks(fields), b"\r\n"].concat()
}

/// A first record with this field in a column that is skipped.
fn long(field: &[u8]) -> Vec<u8> {
    [b"note,", HEADER, b"\r\n", field, b",1,2,3,4\r\n,5,6,7,8\r\n"].concat()
}
