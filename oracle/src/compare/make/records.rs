//! Records of every shape, also such as are refused.

use super::{edges, heads};
use crate::sample::random::Rng;
use crate::sheet::{Layout, Record, FILE, HEAD, LENGTHS, LINE, MODULE};

const FILES: &[&str] =
    &["", ".", "./", "./a", "././a/b.rs", ".//a", "./..", "/.", "//a//b//", "/../a", "a/./.", "é/ü.rs", "/", ".."];
const PIECES: &[&str] = &[
    "\x1b[0m",
    "\x1b[0m",
    "\x1b[1;31m",
    "\x1b[m",
    "\x1b[",
    "\x1b",
    "0m",
    "m",
    "[",
    ";",
    "0",
    "a",
    "é",
    "漢",
    "🦀",
    "\n",
    "::",
    "/",
    ".",
    " ",
];

/// Beside a serial that is wrong: which comes first?
const WRONG: &[&[u8]] = &[b"\xff", &[0xff; 4097], &[b'm'; 4097], &[b'm'; 4096]];

/// Made for the layout, which may have no place for what it says of a head.
pub fn record(rng: &mut Rng, layout: Layout) -> Vec<u8> {
    let mut record = rng.record();
    heads::give(rng, layout, &mut record);
    match rng.below(24) {
        0 | 1 => impossible(rng, &mut record),
        2 => {
            let text = long(rng);
            *any_field(rng, layout, &mut record) = text;
        }
        3 => {
            let text = edges::text(rng);
            *any_field(rng, layout, &mut record) = text;
        }
        4 | 5 => {
            record.mask |= FILE;
            record.file = rng.pick(FILES).into();
        }
        6..=8 => record.message = rng.report(),
        9..=12 => {
            let text = mixed(rng);
            *any_field(rng, layout, &mut record) = text;
        }
        13 => return of_wrong_size(rng, &record, layout),
        14 | 15 if layout == Layout::New => {
            record.mask |= HEAD;
            record.head = heads::serial(rng);
            if rng.one_in(3) {
                let other = rng.pick(WRONG).to_vec();
                *any_field(rng, layout, &mut record) = other;
            }
        }
        _ => {}
    }
    record.write(layout)
}

/// One of those that the layout has, and present.
fn any_field<'a>(rng: &mut Rng, layout: Layout, record: &'a mut Record) -> &'a mut Vec<u8> {
    match rng.below(7) {
        0 => {
            record.mask |= FILE;
            &mut record.file
        }
        1 => {
            record.mask |= MODULE;
            &mut record.module
        }
        2 => &mut record.timestamp,
        3 if layout == Layout::New => {
            record.mask |= HEAD;
            &mut record.head
        }
        _ => &mut record.message,
    }
}

/// Each way that refusal 14 names, and its near misses.
fn impossible(rng: &mut Rng, record: &mut Record) {
    let byte = rng.below(256) as u8;
    match rng.below(10) {
        0 => record.source = *rng.pick(&[&1, &2, &byte]),
        1 => record.level = *rng.pick(&[&0, &5, &6, &byte]),
        2 | 3 => record.mask = *rng.pick(&[&7, &8, &15, &16, &23, &24, &byte]),
        4 => (record.source, record.level) = (1, 0),
        5 => record.mask &= !FILE,
        6 => record.mask &= !LINE,
        7 => record.mask &= !MODULE,
        8 => record.mask ^= HEAD,
        _ => (record.source, record.level, record.mask) = (byte & 3, byte >> 2 & 7, byte >> 4),
    }
}

/// On both sides of 4,096 bytes.
fn long(rng: &mut Rng) -> Vec<u8> {
    let size = 4095 + rng.below(3);
    let piece = rng.pick(&["m", "é", "\x1b[0m", "a/", "a::", "\x1b[", "\x1b[31m漢\x1b[0m"]).as_bytes();
    let mut text = piece.repeat(size / piece.len());
    text.resize(size, b'.');
    if rng.one_in(8) {
        text[size - 1] = 0xc3;
    }
    text
}

/// Now and then longer than a block of 128 bytes, in which characters are counted.
fn mixed(rng: &mut Rng) -> Vec<u8> {
    let pieces = if rng.one_in(6) { 150 } else { 9 };
    (0..rng.below(pieces)).flat_map(|_| rng.pick(PIECES).bytes()).collect()
}

/// Among them a record of one layout that is of a right size in the other.
fn of_wrong_size(rng: &mut Rng, record: &Record, layout: Layout) -> Vec<u8> {
    let mut bytes = record.write(layout);
    let numbers = Layout::Old.numbers();
    match rng.below(6) {
        0 => bytes.push(b'x'),
        1 => bytes.truncate(rng.below(bytes.len())),
        2 => bytes.clear(),
        3 => drop(bytes.splice(numbers..numbers, [0, 0])),
        4 => drop(bytes.drain(numbers..bytes.len().min(numbers + 2))),
        _ => {
            let length = LENGTHS + rng.below(layout.numbers() - LENGTHS);
            bytes[length] = bytes[length].wrapping_add(1);
        }
    }
    bytes
}
