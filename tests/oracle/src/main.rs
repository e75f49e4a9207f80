//! `oracle program` prints what the program must print for its standard input;
//! `oracle call` prints the number that the C call must hand back for it;
//! `oracle numbers` prints the number of each answer;
//! `oracle generate SEED COUNT` prints the texts of so many sets drawn from the seed;
//! `oracle sheet` makes a sheet on standard input into a text, `oracle sheet --back` the first set of
//! a text into a sheet, or says on standard error why not, and ends in status 2.

use std::io::{self, Read, Write};
use std::process::ExitCode;

const USAGE: &str = "usage: oracle program | oracle call | oracle numbers | \
                     oracle generate SEED COUNT | oracle sheet [--back]";

fn main() -> ExitCode {
    let words: Vec<String> = std::env::args().skip(1).collect();
    let words: Vec<&str> = words.iter().map(String::as_str).collect();
    let done = match words.as_slice() {
        ["program"] => answer(oracle::program::output),
        ["call"] => answer(|text| format!("{}\n", oracle::tile_check(text))),
        ["numbers"] => print(oracle::numbers::table().as_bytes()),
        ["generate", seed, count] => match (seed.parse(), count.parse()) {
            (Ok(seed), Ok(count)) => print(&oracle::generator::texts(seed, count)),
            _ => return usage(),
        },
        ["sheet"] => convert(oracle::convert::to_text),
        ["sheet", "--back"] => convert(oracle::convert::to_sheet),
        _ => return usage(),
    };
    done.unwrap_or_else(|error| {
        eprintln!("oracle: {error}");
        ExitCode::FAILURE
    })
}

fn usage() -> ExitCode {
    eprintln!("{USAGE}");
    ExitCode::from(2)
}

fn answer(to: fn(&[u8]) -> String) -> io::Result<ExitCode> {
    print(to(&input()?).as_bytes())
}

fn convert(make: fn(&[u8]) -> Result<Vec<u8>, String>) -> io::Result<ExitCode> {
    match make(&input()?) {
        Ok(made) => print(&made),
        Err(told) => {
            eprintln!("tilecheck: {told}");
            Ok(ExitCode::from(2))
        }
    }
}

fn input() -> io::Result<Vec<u8>> {
    let mut input = Vec::new();
    io::stdin().lock().read_to_end(&mut input)?;
    Ok(input)
}

fn print(text: &[u8]) -> io::Result<ExitCode> {
    io::stdout().lock().write_all(text)?;
    Ok(ExitCode::SUCCESS)
}
