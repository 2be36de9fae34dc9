//! Every path of up to seven tokens, each shown by `{f}` to `{ffff}`.

use super::tokens;
use crate::sheet::{Record, FILE};

const TOKENS: [&str; 5] = [".", "..", "/", "a", ".a"];

/// Of up to this many tokens.
const LONGEST: u32 = 7;

pub const TEMPLATES: [&str; 4] = ["{f}|{s}", "{ff}|{s}", "{fff}|{s}", "{ffff}|{s}"];

/// How many there are.
pub fn count() -> u64 {
    tokens::count(&TOKENS, LONGEST) * TEMPLATES.len() as u64
}

pub fn template(nth: u64) -> &'static str {
    TEMPLATES[(nth % TEMPLATES.len() as u64) as usize]
}

pub fn record(nth: u64) -> Record {
    let file = tokens::string(&TOKENS, nth / TEMPLATES.len() as u64).into_bytes();
    Record { level: 3, mask: FILE, file, message: b"hello".to_vec(), ..Record::default() }
}
