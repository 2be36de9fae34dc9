//! The stored answers of the crate itself (crates/replay/stdin), through the archive as it is linked here; and the same
//! sheets in both editions of the template rules, and by both rules of what widths count.

mod common;

use common::{printed, printed_alone, told, written};
use pralakuon::{check, session, RawRecord, Refusal, Sheet};

const LIST: &[u8] = include_bytes!("../../crates/replay/stdin");

/// A refusal's number for cases that the port refuses, 0 for those that it prints alike, 255 for other listed differences.
struct Case {
    number: u8,
    sheet: &'static [u8],
    output: &'static [u8],
}

fn split(bytes: &mut &'static [u8], count: usize) -> &'static [u8] {
    let (taken, rest) = bytes.split_at(count);
    *bytes = rest;
    taken
}

fn part(bytes: &mut &'static [u8]) -> &'static [u8] {
    let length = u32::from_le_bytes(split(bytes, 4).try_into().unwrap());
    split(bytes, length as usize)
}

fn cases() -> Vec<Case> {
    let header = LIST.windows(2).position(|two| two == b"\n\n").expect("a header and an empty line") + 2;
    let told = std::str::from_utf8(&LIST[..header]).unwrap();
    let count = told.lines().find_map(|line| line.strip_prefix("Cases: ")).expect("the number of cases");
    let mut rest = &LIST[header..];
    let mut cases = Vec::new();
    while !rest.is_empty() {
        let number = split(&mut rest, 1)[0];
        cases.push(Case { number, sheet: part(&mut rest), output: part(&mut rest) });
    }
    assert_eq!(cases.len(), count.parse().unwrap());
    cases
}

/// The cases as sheets; a case with 15 is none, and reading it says so.
fn sheets() -> Vec<(&'static [u8], Sheet<'static>)> {
    let (none, cases): (Vec<_>, Vec<_>) = cases().into_iter().partition(|case| case.output == b"! 15\n");
    assert!(!none.is_empty());
    for Case { sheet, .. } in none {
        assert_eq!(Sheet::read(sheet), Err(Refusal::NotASheet), "{:?}", String::from_utf8_lossy(sheet));
    }
    cases.iter().map(|case| (case.sheet, Sheet::read(case.sheet).unwrap())).collect()
}

#[test]
fn a_session_prints_what_the_crate_prints() {
    let mut compared = 0;
    for Case { number, sheet, output } in cases() {
        match number {
            0 => assert!(printed(sheet) == output, "{:?}", String::from_utf8_lossy(sheet)),
            // A record's refusal is told in its place, a template's is the answer.
            11 | 12 => assert_eq!(session(sheet), Ok(told(number)), "{:?}", String::from_utf8_lossy(sheet)),
            255 => continue,
            _ => {
                assert_eq!(session(sheet).map_err(Refusal::number), Err(number), "{:?}", String::from_utf8_lossy(sheet))
            }
        }
        compared += 1;
    }
    assert!(compared > 4_000, "only {compared} cases were compared");
}

/// What a session call answers, put together from its lines.
fn one_by_one(sheet: &Sheet) -> Result<Vec<u8>, Refusal> {
    check(sheet.template, sheet.settings).map(|()| sheet.lines().flat_map(printed_alone).collect())
}

#[test]
fn a_session_is_its_lines() {
    for (bytes, sheet) in sheets() {
        assert!(one_by_one(&sheet) == session(bytes), "{:?}", String::from_utf8_lossy(bytes));
    }
}

#[test]
fn every_sheet_is_written_as_it_was_read() {
    for (bytes, sheet) in sheets() {
        assert!(written(&sheet) == bytes);
    }
}

/// What a session call answers to the same sheet in the other edition.
fn in_edition(sheet: &Sheet, strict: bool) -> Result<Vec<u8>, Refusal> {
    let mut sheet = sheet.clone();
    sheet.settings.strict = strict;
    session(&written(&sheet))
}

/// The strict edition answers what the first answers, or that a template which the first reads is not used up.
#[test]
fn the_strict_edition_changes_no_line() {
    let (mut read, mut dropped) = (0, 0);
    for (_, sheet) in sheets() {
        let (first, strict) = (in_edition(&sheet, false), in_edition(&sheet, true));
        match strict {
            Err(Refusal::Dropped { place }) => {
                assert!(first.is_ok() && place > 0 && place < sheet.template.len(), "{place}");
                assert_eq!(check(sheet.template, sheet.settings.with_strict(true)), Err(Refusal::Dropped { place }));
                dropped += 1;
            }
            _ => {
                assert!(strict == first, "{:?}", String::from_utf8_lossy(sheet.template));
                read += usize::from(first.is_ok());
            }
        }
    }
    assert!(read > 1_000 && dropped > 100, "only {read} were read and {dropped} refused with 17");
}

/// No character before U+1100 is wide, and its bytes are all below 0xE1.
fn has_nothing_wide(sheet: &Sheet) -> bool {
    let texts =
        |record: &RawRecord| [record.file, record.module_path, record.timestamp, record.message, record.head].concat();
    sheet.template.iter().copied().chain(sheet.records.iter().flat_map(texts)).all(|byte| byte < 0xe1)
}

#[test]
fn the_places_rule_changes_no_line_without_wide_characters() {
    let by = |sheet: &Sheet, places| {
        let mut sheet = sheet.clone();
        sheet.settings.places = places;
        session(&written(&sheet))
    };
    let mut compared = 0;
    for (_, sheet) in sheets() {
        if has_nothing_wide(&sheet) {
            let [characters, places] = [false, true].map(|places| by(&sheet, places));
            assert!(characters == places, "{:?}", String::from_utf8_lossy(sheet.template));
            compared += usize::from(places.is_ok());
        }
    }
    assert!(compared > 1_000, "only {compared} sheets have nothing wide");
}
