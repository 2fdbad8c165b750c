//! The second program: the commands. `list`, `selftest [days]`, `cases DIR`.

mod check;
mod flow;
mod inputs;
mod listing;
mod order;
mod plan;
mod planfile;
mod rng;
mod selftest;

use std::io::{self, Read, Write};
use std::path::Path;
use std::process::ExitCode;

const USAGE: &str = "usage: second list | second selftest [days] | second cases DIR";
const DEFAULT_DAYS: usize = 20_000;

fn main() -> ExitCode {
    let words: Vec<String> = std::env::args().skip(1).collect();
    let words: Vec<&str> = words.iter().map(String::as_str).collect();
    let outcome = match words[..] {
        ["list"] => list(),
        ["selftest"] => selftest(DEFAULT_DAYS),
        ["selftest", days] => match days.parse() {
            Ok(days) => selftest(days),
            Err(_) => Err(io::Error::other(USAGE)),
        },
        ["cases", folder] => write_cases(Path::new(folder)),
        _ => Err(io::Error::other(USAGE)),
    };
    match outcome {
        Ok(true) => ExitCode::SUCCESS,
        Ok(false) => ExitCode::FAILURE,
        Err(error) => {
            eprintln!("second: {error}");
            ExitCode::from(2)
        }
    }
}

/// The scope page names no exit code for `planlist`. Here a refusal is an
/// answer like any other, with exit code 0.
fn list() -> io::Result<bool> {
    let mut file = Vec::new();
    // One byte more than a file may have is enough to know it has too many.
    let enough = order::MOST_BYTES as u64 + 1;
    io::stdin().lock().take(enough).read_to_end(&mut file)?;
    io::stdout().write_all(&listing::listing(&file))?;
    Ok(true)
}

fn selftest(days: usize) -> io::Result<bool> {
    let tally = selftest::run(days);
    io::stdout().write_all(tally.summary().as_bytes())?;
    Ok(tally.differences() == 0)
}

/// `NAME` holds the order, `NAME.expected` the listing.
fn write_cases(folder: &Path) -> io::Result<bool> {
    std::fs::create_dir_all(folder)?;
    let cases = inputs::cases();
    for case in &cases {
        std::fs::write(folder.join(case.name), &case.file)?;
        std::fs::write(folder.join(format!("{}.expected", case.name)), &case.expected)?;
    }
    writeln!(io::stdout(), "second: {} cases written", cases.len())?;
    Ok(true)
}
