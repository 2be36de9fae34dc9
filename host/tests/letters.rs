//! Letters, of which names are made, are those of Rust's `char::is_alphabetic`: the table of the proved crate `letters` is
//! held against Rust's own, and the archive is asked about every character of Unicode.

use pralakuon::{check, Refusal, Settings};
use std::io::{self, Write};

/// The ranges of letters that the meaning speaks of, and the table that the code looks in.
const MEANING: &str = include_str!("../../crates/letters/specs/Alphabetic.antt");
const CODE: &str = include_str!("../../crates/letters/src/table.rt");

/// The version of Unicode that both are of.
const UNICODE: (u8, u8, u8) = (17, 0, 0);

/// So many ranges of letters it has.
const RANGES: usize = 761;

fn number(digits: &str) -> u32 {
    let hex = digits.trim().strip_prefix("0x").unwrap_or_else(|| panic!("a number such as 0x41, and not {digits:?}"));
    u32::from_str_radix(hex, 16).unwrap()
}

/// Where each range of letters begins, and the code point after it, by turns: from lines such as `∷ 0x61 to 0x7A`.
fn ends_of_meaning() -> Vec<u32> {
    let lines = MEANING.lines().map(|line| line.trim_start_matches([' ', '∷'])).filter(|line| line.starts_with("0x"));
    let ranges = lines.map(|line| line.split_once(" to ").unwrap_or_else(|| panic!("FIRST to LAST, and not {line}")));
    ranges.flat_map(|(first, last)| [number(first), number(last) + 1]).collect()
}

/// The same, as they stand in `static ENDS: [u32; 1522] = [ 0x41, 0x5B, .. ];`.
fn ends_of_code() -> Vec<u32> {
    let begin = format!("static ENDS: [u32; {}] = [", 2 * RANGES);
    let (_, rest) = CODE.split_once(&begin).expect("the table");
    let (table, _) = rest.split_once("];").expect("the end of the table");
    table.split(',').filter(|word| !word.trim().is_empty()).map(number).collect()
}

/// The same, by asking Rust: where a character is a letter and the one before it is none, or the other way round.
fn ends_of_rust() -> Vec<u32> {
    let is_letter = |point: u32| char::from_u32(point).map_or(false, char::is_alphabetic);
    (1..=0x11_0000).filter(|&point| is_letter(point) != is_letter(point - 1)).collect()
}

fn rust_can_tell() -> bool {
    char::UNICODE_VERSION == UNICODE
}

#[test]
fn the_table_is_rusts_own() {
    let (meaning, code) = (ends_of_meaning(), ends_of_code());
    assert_eq!((meaning.len(), code.len()), (2 * RANGES, 2 * RANGES));
    assert!(meaning == code, "the ranges of the meaning are not those of the code");
    if rust_can_tell() {
        assert!(meaning == ends_of_rust(), "the ranges are not those of char::is_alphabetic");
        return;
    }
    let dotted = |(major, minor, update): (u8, u8, u8)| format!("{major}.{minor}.{update}");
    // `eprintln!` would be heard only where the test fails.
    let _ = writeln!(
        io::stderr(),
        "left out: the table of letters against Rust's own. This Rust has Unicode {} and not {}, so meaning and code were \
         compared with each other only",
        dotted(char::UNICODE_VERSION),
        dotted(UNICODE)
    );
}

/// What is due to `{sC}` and to `{s:boldC}`, in which a name stands right before the character C.
fn due(character: char, is_letter: bool) -> Result<(), Refusal> {
    match character {
        // The brace is not closed, so there is none.
        '{' | '\\' => Err(Refusal::NoMessage),
        // What follows it is empty, and is tried as a group in the end, which needs a specifier.
        ':' => Err(Refusal::Failure),
        // The whole run is no name, so it is text of a group, which needs a specifier.
        _ if is_letter => Err(Refusal::Failure),
        // The name ends before it, and it is dropped; or it is a `}`, which closes the brace, and the second one is text.
        _ => Ok(()),
    }
}

/// Where Rust has another Unicode, the table of the meaning says what a letter is: the test above tells of it.
#[test]
fn a_name_goes_on_through_every_letter_and_ends_before_all_else() {
    let ends = if rust_can_tell() { ends_of_rust() } else { ends_of_meaning() };
    let mut letters = 0;
    for character in '\0'..=char::MAX {
        let is_letter = ends.partition_point(|&end| end <= character.into()) % 2 == 1;
        for name in ["{s", "{s:bold"] {
            let template = format!("{name}{character}}}");
            let answer = check(template.as_bytes(), Settings::PLAIN);
            assert_eq!(answer, due(character, is_letter), "{name}{}}}", character.escape_unicode());
        }
        letters += usize::from(is_letter);
    }
    assert_eq!(letters, 147_421);
}
