//! `cases texts FOLDER COUNT` writes that many texts for the program into a folder;
//! `cases exact LENGTH` prints a text of well-formed sets of exactly that many bytes;
//! `cases sheets FOLDER COUNT` writes that many drawn sheets and those at the edges as sheet-N.in, and
//! as many texts to be made into sheets as back-N.in; beside each, what has to be written for it to
//! standard output (.out) and to standard error (.err).

use cases::{sheets, texts, Random};
use std::io::{self, Write};
use std::path::Path;
use std::process::ExitCode;

const SEED: u64 = 2516;
const USAGE: &str =
    "usage: cases texts FOLDER COUNT | cases exact LENGTH | cases sheets FOLDER COUNT";

fn main() -> ExitCode {
    let words: Vec<String> = std::env::args().skip(1).collect();
    let words: Vec<&str> = words.iter().map(String::as_str).collect();
    let done = match words.as_slice() {
        ["texts", folder, count] => count.parse().ok().map(|count| write_texts(folder, count)),
        ["exact", length] => length.parse().ok().map(print_exact),
        ["sheets", folder, count] => count.parse().ok().map(|count| write_sheets(folder, count)),
        _ => None,
    };
    match done {
        Some(Ok(())) => ExitCode::SUCCESS,
        Some(Err(error)) => {
            eprintln!("cases: {error}");
            ExitCode::FAILURE
        }
        None => {
            eprintln!("{USAGE}");
            ExitCode::from(2)
        }
    }
}

fn write_texts(folder: &str, count: usize) -> io::Result<()> {
    let mut random = Random::new(SEED);
    for number in 1..=count {
        let text = texts::for_program(&mut random);
        std::fs::write(Path::new(folder).join(format!("{number:05}.txt")), text)?;
    }
    Ok(())
}

fn print_exact(length: usize) -> io::Result<()> {
    let text = texts::exact(&mut Random::new(SEED), length);
    io::stdout().lock().write_all(&text)
}

fn write_sheets(folder: &str, count: usize) -> io::Result<()> {
    let mut random = Random::new(SEED);
    let drawn: Vec<Vec<u8>> = (0..count).map(|_| sheets::for_program(&mut random)).collect();
    for (number, sheet) in drawn.into_iter().chain(sheets::extreme()).enumerate() {
        let path = Path::new(folder).join(format!("sheet-{number:05}"));
        write_case(&path, &sheet, oracle::convert::to_text(&sheet))?;
    }
    for number in 0..count {
        let path = Path::new(folder).join(format!("back-{number:05}"));
        let text = texts::for_program(&mut random);
        write_case(&path, &text, oracle::convert::to_sheet(&text))?;
    }
    Ok(())
}

fn write_case(path: &Path, input: &[u8], wanted: Result<Vec<u8>, String>) -> io::Result<()> {
    let (out, told) = match wanted {
        Ok(made) => (made, String::new()),
        Err(told) => (Vec::new(), format!("tilecheck: {told}\n")),
    };
    std::fs::write(path.with_extension("in"), input)?;
    std::fs::write(path.with_extension("out"), out)?;
    std::fs::write(path.with_extension("err"), told)
}
