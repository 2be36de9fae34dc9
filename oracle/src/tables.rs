//! The tables of letters and of wide characters. The former is made by asking the Rust that compiles this about every
//! character, the latter from wide-17.txt. Nothing else of this folder is needed: oracle/letters and oracle/wide compile
//! this file alone.

use std::process::ExitCode;
use std::{env, fs};

const USAGE: &str = "usage: tables letters | wide [--check] MEANING TABLE";

/// First and last, both included; neighbours are joined.
type Range = (u32, u32);

struct Table {
    /// The script that makes it, and what is in it.
    script: &'static str,
    what: &'static str,
    /// Before the list, in the meaning.
    before: &'static str,
    unicode: String,
    ranges: Vec<Range>,
}

fn main() -> ExitCode {
    let words: Vec<String> = env::args().skip(1).collect();
    let words: Vec<&str> = words.iter().map(String::as_str).collect();
    let (table, files) = match words[..] {
        ["letters", ref files @ ..] => (letters(), files),
        ["wide", ref files @ ..] => (wide(), files),
        _ => {
            eprintln!("{USAGE}");
            return ExitCode::FAILURE;
        }
    };
    let done = match files {
        ["--check", meaning, ends] => run(&table, meaning, ends, holds),
        [meaning, ends] => run(&table, meaning, ends, put),
        _ => Err(USAGE.to_string()),
    };
    match done {
        Ok(said) => {
            println!("{said}");
            ExitCode::SUCCESS
        }
        Err(wrong) => {
            eprintln!("oracle/{}: {wrong}", table.script);
            ExitCode::FAILURE
        }
    }
}

/// What is done with a file, what it holds and what it must hold.
type Deed = fn(&Table, &str, &str, &str) -> Result<(), String>;

/// Both files are made before one of them is written.
fn run(table: &Table, meaning: &str, ends: &str, deed: Deed) -> Result<String, String> {
    let Table { what, unicode, ranges, .. } = table;
    let held = [read(meaning)?, read(ends)?];
    let made = [with_list(&held[0], table), with_ends(&held[1], ranges)];
    let [Some(list), Some(numbers)] = made else {
        return Err(format!("no list of {what} between its marks in {meaning}, or none in {ends}"));
    };
    if !held[0].lines().next().unwrap_or("").contains(unicode) {
        return Err(format!("these are the {what} of {unicode}, and the first line of {meaning} doesn't say so"));
    }
    deed(table, meaning, &held[0], &list)?;
    deed(table, ends, &held[1], &numbers)?;
    let count: u32 = ranges.iter().map(|(first, last)| last - first + 1).sum();
    Ok(format!("{unicode}: {count} {what} in {} ranges, in both files", ranges.len()))
}

fn read(file: &str) -> Result<String, String> {
    fs::read_to_string(file).map_err(|error| format!("{file} cannot be read: {error}"))
}

fn holds(table: &Table, file: &str, held: &str, made: &str) -> Result<(), String> {
    let Table { script, what, unicode, .. } = table;
    if held == made {
        Ok(())
    } else {
        Err(format!("{file} doesn't have the {what} of {unicode}: oracle/{script} makes it anew"))
    }
}

fn put(_: &Table, file: &str, held: &str, made: &str) -> Result<(), String> {
    if held == made {
        return Ok(());
    }
    fs::write(file, made).map_err(|error| format!("{file} cannot be written: {error}"))
}

/// As this Rust has them.
fn letters() -> Table {
    let (major, minor, update) = char::UNICODE_VERSION;
    let mut ranges: Vec<Range> = Vec::new();
    for letter in ('\0'..=char::MAX).filter(|character| character.is_alphabetic()).map(u32::from) {
        match ranges.last_mut() {
            Some((_, last)) if *last + 1 == letter => *last = letter,
            _ => ranges.push((letter, letter)),
        }
    }
    let unicode = format!("Unicode {major}.{minor}.{update}");
    Table { script: "letters", what: "letters", before: "\nalphabetic =\n    ", unicode, ranges }
}

/// As wide-17.txt has them; its first line names the version between two commas or brackets.
fn wide() -> Table {
    let (first, rest) = include_str!("../wide-17.txt").split_once('\n').expect("a first line");
    let version = first.split([',', '(']).map(str::trim).find(|part| part.starts_with("Unicode "));
    let unicode = version.expect("a version in the first line").to_string();
    let number = |word| u32::from_str_radix(word, 16).expect("a hexadecimal number");
    let ranges = rest.lines().map(|line| line.split_once(' ').map(|(first, last)| (number(first), number(last))));
    let ranges = ranges.collect::<Option<_>>().expect("two numbers in each line");
    Table { script: "wide", what: "wide characters", before: "\nwide =\n    ", unicode, ranges }
}

fn with_list(text: &str, table: &Table) -> Option<String> {
    let line = |(first, last): &Range| format!("0x{first:X} to 0x{last:X}\n    ");
    let lines: Vec<String> = table.ranges.iter().map(line).collect();
    between(text, table.before, "∷ []", &lines.join("∷ "))
}

/// Where each range begins and the code point after it, by turns; how many they are stands in the type. Laid out as `rt fmt`
/// does.
fn with_ends(text: &str, ranges: &[Range]) -> Option<String> {
    const WIDTH: usize = 99;
    let mut lines = vec![String::from("   ")];
    for end in ranges.iter().flat_map(|(first, last)| [*first, last + 1]) {
        let end = format!(" 0x{end:X},");
        if lines.last()?.len() + end.len() > WIDTH {
            lines.push(String::from("   "));
        }
        lines.last_mut()?.push_str(&end);
    }
    between(text, "static ENDS: [u32; ", "];", &format!("{}] = [\n{}\n", 2 * ranges.len(), lines.join("\n")))
}

/// The text with this in place of what stands between the two marks.
fn between(text: &str, before: &str, after: &str, new: &str) -> Option<String> {
    let from = text.find(before)? + before.len();
    let to = from + text[from..].find(after)?;
    Some([&text[..from], new, &text[to..]].concat())
}
