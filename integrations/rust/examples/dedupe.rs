//! Sorts and dedupes lines of JSON by value: cargo run --example dedupe < lines.json
//!
//! Of lines with equal values the first one is kept, as it is. A line that is no document is reported on standard
//! error, and the status is then 1.

use std::collections::BTreeMap;
use std::io::{self, BufRead, Write};
use std::process::ExitCode;
use vizhoniku::{sort_key, Mode};

fn main() -> io::Result<ExitCode> {
    let (mut kept, mut status) = (BTreeMap::new(), ExitCode::SUCCESS);
    for (number, line) in io::stdin().lock().lines().enumerate() {
        let line = line?;
        match sort_key(&line, Mode::ExtendedJson) {
            Ok(key) => {
                kept.entry(key).or_insert(line);
            }
            Err(error) => {
                eprintln!("document {}: {error}", number + 1);
                status = ExitCode::FAILURE;
            }
        }
    }
    let mut out = io::BufWriter::new(io::stdout().lock());
    for line in kept.values() {
        writeln!(out, "{line}")?;
    }
    out.flush()?;
    Ok(status)
}
