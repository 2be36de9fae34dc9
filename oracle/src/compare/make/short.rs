//! Every short string of tokens, in five places of a template.

use super::heads;
use crate::sheet::{Record, FILE, HOST, LINE, MODULE};

/// Braces, separators, a name of each kind, digits, a letter beyond ASCII, a plain byte.
const TOKENS: [&str; 16] =
    ["{", "}", ":", "%", "\\", "s", "L", "f", "bold", "red", "severity", "0", "7", "<", "é", "["];

/// At the top level, alone and behind a message; the content of a brace at odd and at even depth; the tail of a group.
const PLACES: [(&str, &str); 5] = [("", ""), ("{s}", ""), ("{", "}{s}"), ("{x{", "}{s}}"), ("{[{s}]", "}")];

/// Strings of up to so many tokens come in order, longer ones spread out.
const IN_ORDER: u32 = 4;

/// Prime, so that steps of it reach every string of a length.
const STEP: u64 = 611_953;

pub fn template(seed: u64, nth: u64) -> Vec<u8> {
    let places = PLACES.len() as u64;
    let (before, after) = PLACES[(nth % places) as usize];
    [before, &string(seed, nth / places), after].concat().into_bytes()
}

/// The strings by their length.
fn string(seed: u64, mut number: u64) -> String {
    let tokens = TOKENS.len() as u64;
    let mut length = 0;
    while number >= tokens.pow(length) {
        number -= tokens.pow(length);
        length += 1;
    }
    if length > IN_ORDER {
        number = (number * STEP + seed) % tokens.pow(length);
    }
    (0..length).map(|i| TOKENS[(number / tokens.pow(i) % tokens) as usize]).collect()
}

/// Every field is there and no two show the same; in turn with and without a reset in the message, and in either layout.
pub fn record(nth: u64) -> Vec<u8> {
    let message = if nth % 3 == 0 { "w\x1b[0mall" } else { "wall" };
    let record = Record {
        source: if nth % 11 == 0 { HOST } else { 0 },
        level: 1 + (nth % 7 % 5) as u8,
        mask: FILE | LINE | MODULE,
        line: 42,
        file: b"/srv/src/gauge.rs".to_vec(),
        module: b"scan::head".to_vec(),
        timestamp: b"0.25".to_vec(),
        message: message.into(),
        ..Record::default()
    };
    heads::in_turn(nth, record)
}
