//! `pralakuon-oracle MODE`: README.md says what each mode reads and writes.

use pralakuon_oracle::sheet::{Record, Sheet, COLOUR, FILE, HEAD, HEADS, LINE, MODULE, PLACES, STRAIGHT, STRICT};
use pralakuon_oracle::{examples, inputs, judge, meaning, sample, stream, VERSIONS};
use std::io::{self, Read, Write};
use std::process::ExitCode;

const USAGE: &str = "usage: pralakuon-oracle lines | segments | text | examples | versions
       pralakuon-oracle sample FILE [SEED]
       pralakuon-oracle meaning LIST CRATES FOLDER STEP
       pralakuon-oracle seeds LIST FOLDER
       pralakuon-oracle compare [places | reports] N [SEED]                    (built by oracle/compare)
       pralakuon-oracle compare paths | bytes | letters | strict | heads | wide   (built by oracle/compare)
       pralakuon-oracle speed              (built by oracle/speed)
       pralakuon-oracle sheet [--colour] [--straight] [--strict] [--heads] [--places] --template TEXT
                              [--record KEY=VALUE,..]..
       keys of a record: source level file line module timestamp head message (the rest, commas too)";

fn main() -> ExitCode {
    let words: Vec<String> = std::env::args().skip(1).collect();
    let words: Vec<&str> = words.iter().map(String::as_str).collect();
    let done = match words[..] {
        ["lines"] => stream::lines(io::stdin().lock(), io::stdout().lock()),
        ["segments"] => stream::segments(io::stdin().lock(), io::stdout().lock()),
        ["text"] => text(),
        ["examples"] => return ExitCode::from(u8::from(!examples::run())),
        ["versions"] => writeln!(io::stdout(), "{VERSIONS}"),
        ["sample", file] => sample::run(file, sample::SEED),
        ["sample", file, seed] => match seed.parse() {
            Ok(seed) => sample::run(file, seed),
            Err(_) => return usage(),
        },
        ["meaning", list, crates, folder, step] => match step.parse() {
            Ok(step) => meaning::run(list, crates, folder, step),
            Err(_) => return usage(),
        },
        ["seeds", list, folder] => inputs::seeds(list, folder),
        #[cfg(feature = "port")]
        ["compare", ref words @ ..] => return compare(words),
        #[cfg(feature = "port")]
        ["speed"] => {
            pralakuon_oracle::speed::run();
            Ok(())
        }
        ["sheet", ref options @ ..] => match sheet(options) {
            Some(sheet) => io::stdout().write_all(&sheet.write()),
            None => return usage(),
        },
        _ => return usage(),
    };
    match done {
        Ok(()) => ExitCode::SUCCESS,
        Err(error) => {
            eprintln!("pralakuon-oracle: {error}");
            ExitCode::FAILURE
        }
    }
}

fn usage() -> ExitCode {
    eprintln!("{USAGE}");
    ExitCode::from(2)
}

#[cfg(feature = "port")]
fn compare(words: &[&str]) -> ExitCode {
    use pralakuon_oracle::compare::{
        run, run_bytes, run_heads, run_letters, run_paths, run_places, run_reports, run_strict, run_wide,
    };
    let alike = match words {
        ["paths"] => Some(run_paths()),
        ["bytes"] => Some(run_bytes()),
        ["letters"] => Some(run_letters()),
        ["strict"] => Some(run_strict()),
        ["heads"] => Some(run_heads()),
        ["wide"] => Some(run_wide()),
        ["places", numbers @ ..] => of_chance(run_places, numbers),
        ["reports", numbers @ ..] => of_chance(run_reports, numbers),
        numbers => of_chance(run, numbers),
    };
    alike.map_or_else(usage, |alike| ExitCode::from(u8::from(!alike)))
}

/// None where the words are not how many cases, and perhaps a seed.
#[cfg(feature = "port")]
fn of_chance(run: fn(u64, u64) -> bool, words: &[&str]) -> Option<bool> {
    let numbers: Vec<u64> = words.iter().map(|word| word.parse().ok()).collect::<Option<_>>()?;
    match numbers[..] {
        [count] => Some(run(count, pralakuon_oracle::compare::SEED)),
        [count, seed] => Some(run(count, seed)),
        _ => None,
    }
}

fn text() -> io::Result<()> {
    let mut bytes = Vec::new();
    io::stdin().read_to_end(&mut bytes)?;
    let sheet = Sheet::read(&bytes);
    judge::set_colour(sheet.as_ref().map_or(false, Sheet::colour));
    io::stdout().write_all(&judge::answer(sheet.as_ref()).printed())
}

fn sheet(mut options: &[&str]) -> Option<Sheet> {
    let mut sheet = Sheet::default();
    loop {
        options = match options {
            [] => return Some(sheet),
            ["--colour", rest @ ..] => {
                sheet.settings |= COLOUR;
                rest
            }
            ["--straight", rest @ ..] => {
                sheet.settings |= STRAIGHT;
                rest
            }
            ["--strict", rest @ ..] => {
                sheet.settings |= STRICT;
                rest
            }
            ["--heads", rest @ ..] => {
                sheet.settings |= HEADS;
                rest
            }
            ["--places", rest @ ..] => {
                sheet.settings |= PLACES;
                rest
            }
            ["--template", text, rest @ ..] => {
                sheet.template = text.as_bytes().to_vec();
                rest
            }
            ["--record", text, rest @ ..] => {
                sheet.records.push(record(text)?);
                rest
            }
            _ => return None,
        };
    }
}

/// A field that is named is present.
fn record(text: &str) -> Option<Record> {
    let mut record = Record::default();
    let mut rest = text;
    while !rest.is_empty() {
        let (key, after) = rest.split_once('=')?;
        let (value, after) = match key {
            "message" => (after, ""),
            _ => after.split_once(',').unwrap_or((after, "")),
        };
        let bytes = value.as_bytes().to_vec();
        match key {
            "source" => record.source = value.parse().ok()?,
            "level" => record.level = value.parse().ok()?,
            "file" => (record.file, record.mask) = (bytes, record.mask | FILE),
            "line" => (record.line, record.mask) = (value.parse().ok()?, record.mask | LINE),
            "module" => (record.module, record.mask) = (bytes, record.mask | MODULE),
            "timestamp" => record.timestamp = bytes,
            "head" => (record.head, record.mask) = (bytes, record.mask | HEAD),
            "message" => record.message = bytes,
            _ => return None,
        }
        rest = after;
    }
    Some(record)
}
