//! The command line.

use second::{cases, replay, sheet, vectors};
use std::io::{self, BufWriter, Read, Write};
use std::process::ExitCode;

const USAGE: &str = "usage: second vectors
       second replay
       second sheet
       second cases box|aux|sample|stream|issuer|volume SEED COUNT";

fn main() -> ExitCode {
    let words: Vec<String> = std::env::args().skip(1).collect();
    let words: Vec<&str> = words.iter().map(String::as_str).collect();
    match run(&words) {
        Ok(true) => ExitCode::SUCCESS,
        Ok(false) => {
            eprintln!("{USAGE}");
            ExitCode::from(2)
        }
        Err(error) => {
            eprintln!("second: {error}");
            ExitCode::FAILURE
        }
    }
}

/// False if the words are no command.
fn run(words: &[&str]) -> io::Result<bool> {
    let mut input = io::stdin().lock();
    let mut out = BufWriter::new(io::stdout().lock());
    let known = match words {
        ["vectors"] => vectors::print(&mut out).map(|()| true)?,
        ["replay"] => replay::run(&mut input, &mut out).map(|()| true)?,
        ["sheet"] => {
            let mut bytes = Vec::new();
            // One byte past the limit is enough; a read error counts as the end of the input.
            let _ = input
                .take(sheet::LONGEST as u64 + 1)
                .read_to_end(&mut bytes);
            out.write_all(sheet::lines(&bytes).as_bytes())?;
            true
        }
        ["cases", set, seed, count] => match (seed.parse(), count.parse()) {
            (Ok(seed), Ok(count)) => cases::print(set, seed, count, &mut out)?,
            _ => false,
        },
        _ => false,
    };
    out.flush()?;
    Ok(known)
}
