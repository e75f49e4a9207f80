//! The sheets of document 02, request 2: comma-separated values, read and written.

use crate::reader::number;
use crate::refusal::Refusal;
use crate::table::{self, MOST_TASKS};
use crate::writer::push_number;
use std::borrow::Cow;

/// The columns that the header has to name, in the order of a task's words.
pub const COLUMNS: [&str; 4] = ["execution", "deadline", "period", "release"];

/// What a field holds: for a quoted one the bytes between its quotes, each doubled quote as one.
type Content<'a> = Cow<'a, [u8]>;

/// The task count; the words go to the start of the lent table.
pub fn read_sheet(sheet: &[u8], table: &mut [u32]) -> Result<usize, Refusal> {
    let words = sheet_words(sheet)?;
    if table.len() < words.len() {
        return Err(Refusal::ShortBuffer);
    }
    table[..words.len()].copy_from_slice(&words);
    Ok(words.len() / 4)
}

/// The words of the tasks, whatever their range.
fn sheet_words(sheet: &[u8]) -> Result<Vec<u32>, Refusal> {
    let (names, mut rest) = record(sheet).ok_or(Refusal::Header)?;
    let places = places(&names).ok_or(Refusal::Header)?;
    let mut words = Vec::new();
    while !rest.is_empty() {
        let number = words.len() / 4 + 2;
        let (task, after) =
            task(rest, names.len(), places).ok_or(Refusal::Record { record: number })?;
        if number > MOST_TASKS + 1 {
            return Err(Refusal::Record { record: number });
        }
        words.extend(task);
        rest = after;
    }
    if words.is_empty() {
        return Err(Refusal::NoRecord);
    }
    Ok(words)
}

/// Where each of the four columns stands, if each is named once.
fn places(names: &[Content]) -> Option<[usize; 4]> {
    let mut places = [0; 4];
    for (place, column) in places.iter_mut().zip(COLUMNS) {
        let mut named = (0..names.len()).filter(|&i| *names[i] == *column.as_bytes());
        *place = named.next()?;
        if named.next().is_some() {
            return None;
        }
    }
    Some(places)
}

/// The words of the first record, and what follows it.
fn task(sheet: &[u8], fields: usize, places: [usize; 4]) -> Option<([u32; 4], &[u8])> {
    let (record, rest) = record(sheet)?;
    if record.len() != fields {
        return None;
    }
    let mut words = [0; 4];
    for (word, place) in words.iter_mut().zip(places) {
        *word = number(&record[place])?;
    }
    Some((words, rest))
}

/// The fields of the first record, and what follows its line end.
fn record(sheet: &[u8]) -> Option<(Vec<Content<'_>>, &[u8])> {
    let mut fields = Vec::new();
    let mut rest = sheet;
    loop {
        let (content, after) = field(rest)?;
        fields.push(content);
        match after {
            [b',', after @ ..] => rest = after,
            [b'\r', b'\n', after @ ..] | [b'\n', after @ ..] => return Some((fields, after)),
            [] => return Some((fields, after)),
            _ => return None,
        }
    }
}

/// The first field, and what follows it.
fn field(text: &[u8]) -> Option<(Content<'_>, &[u8])> {
    match text.strip_prefix(b"\"") {
        Some(text) => quoted(text),
        None => Some(plain(text)),
    }
}

/// Any bytes but quote, comma, CR, LF; perhaps none.
fn plain(text: &[u8]) -> (Content<'_>, &[u8]) {
    let end = text.iter().position(|byte| b"\",\r\n".contains(byte)).unwrap_or(text.len());
    (Cow::Borrowed(&text[..end]), &text[end..])
}

/// Up to the first quote that isn't doubled. The opening quote is left out.
fn quoted(text: &[u8]) -> Option<(Content<'_>, &[u8])> {
    let mut content = Vec::new();
    let mut rest = text;
    loop {
        let quote = rest.iter().position(|&byte| byte == b'"')?;
        content.extend_from_slice(&rest[..quote]);
        rest = &rest[quote + 1..];
        match rest.strip_prefix(b"\"") {
            Some(after) => {
                content.push(b'"');
                rest = after;
            }
            None => return Some((Cow::Owned(content), rest)),
        }
    }
}

/// The length of the sheet written to the start of the lent bytes.
pub fn write_sheet(words: &[u32], sheet: &mut [u8]) -> Result<usize, Refusal> {
    table::tasks(words)?;
    let full = sheet_of(words);
    if sheet.len() < full.len() {
        return Err(Refusal::ShortBuffer);
    }
    sheet[..full.len()].copy_from_slice(&full);
    Ok(full.len())
}

/// The sheet of a table, whatever the range of its words.
pub fn sheet_of(words: &[u32]) -> Vec<u8> {
    let mut sheet = COLUMNS.join(",").into_bytes();
    sheet.extend(b"\r\n");
    for task in words.chunks(4) {
        for (index, &word) in task.iter().enumerate() {
            if index > 0 {
                sheet.push(b',');
            }
            push_number(&mut sheet, word);
        }
        sheet.extend(b"\r\n");
    }
    sheet
}
