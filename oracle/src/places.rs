//! The places rule (document 02, E14) and the crate, which counts characters. With every wide character written twice, a
//! character is a place. So the crate is asked about template and record written so, and its line must be the due one,
//! written so as well.

use crate::judge::{Answer, Shown};
use crate::ruling::wide::is_wide;
use crate::sheet::{Record, Sheet};
use std::str::from_utf8;

/// The text with every wide character twice.
pub fn twice(text: &str) -> String {
    let mut long = String::new();
    for character in text.chars() {
        long.push(character);
        if is_wide(character) {
            long.push(character);
        }
    }
    long
}

/// The text with every wide character once, or None where one doesn't stand twice.
fn once(text: &str) -> Option<String> {
    let (mut short, mut characters) = (String::new(), text.chars());
    while let Some(character) = characters.next() {
        short.push(character);
        if is_wide(character) && characters.next() != Some(character) {
            return None;
        }
    }
    Some(short)
}

/// The record with every wide character of its texts twice. What is no UTF-8 stays: the crate isn't asked about it.
pub fn record_twice(record: &Record) -> Record {
    let twice = |bytes: &Vec<u8>| from_utf8(bytes).map_or_else(|_| bytes.clone(), |text| twice(text).into_bytes());
    Record {
        file: twice(&record.file),
        module: twice(&record.module),
        timestamp: twice(&record.timestamp),
        message: twice(&record.message),
        head: twice(&record.head),
        ..*record
    }
}

/// The sheet as the crate is asked about it, by the rule that it chooses.
pub fn asked(sheet: &Sheet) -> Sheet {
    if !sheet.places() {
        return sheet.clone();
    }
    let template = from_utf8(&sheet.template).map_or_else(|_| sheet.template.clone(), |text| twice(text).into_bytes());
    Sheet { settings: sheet.settings, template, records: sheet.records.iter().map(record_twice).collect() }
}

/// What the crate's answer for that sheet says of the sheet itself.
pub fn answered(sheet: &Sheet, answer: Answer) -> Answer {
    let shown = |shown: Shown| match shown {
        Shown::Line(line) => {
            let text = from_utf8(&line).ok().and_then(once);
            Shown::Line(text.expect("wide characters stand twice").into_bytes())
        }
        other => other,
    };
    match answer {
        Answer::Read(lines) if sheet.places() => Answer::Read(lines.into_iter().map(shown).collect()),
        other => other,
    }
}
