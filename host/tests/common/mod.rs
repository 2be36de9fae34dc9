//! What several tests need.
#![allow(dead_code)] // Each test file is a crate of its own and takes what it needs.

use pralakuon::{line, session, RawRecord, Refusal, Settings, Sheet, SheetWriter};
use std::fs;
use std::path::Path;

/// What lent memory holds before a call.
pub const PAINT: u8 = 0xa5;

/// The line of a record in a buffer with room to spare. Checks on the way that a refusal left the buffer as it was, and
/// that a line changed nothing behind itself.
pub fn line_of<'r>(template: &[u8], settings: Settings, record: impl Into<RawRecord<'r>>) -> Result<Vec<u8>, Refusal> {
    let mut out = vec![PAINT; 300_000];
    let answer = line(template, settings, record, &mut out);
    let changed = answer.unwrap_or(0);
    assert!(out[changed..].iter().all(|&byte| byte == PAINT), "memory behind the line was changed");
    out.truncate(changed);
    answer.map(|_| out)
}

/// A device's INFO record with the message `hello`.
pub fn hello() -> RawRecord<'static> {
    RawRecord::new().with_level(3).with_message(b"hello")
}

/// The body of a device's INFO record, laid out by hand.
pub fn hand_laid(message: &[u8]) -> Vec<u8> {
    [&hand_laid_lengths(message, 0)[..], message].concat()
}

/// The same with a head: 17 bytes of numbers, and the serial behind the message.
pub fn hand_laid_with_head(message: &[u8], mask: u8, serial: &[u8]) -> Vec<u8> {
    let length = (serial.len() as u16).to_le_bytes();
    [&hand_laid_lengths(message, mask)[..], &length, message, serial].concat()
}

/// What both layouts begin with: 15 bytes.
fn hand_laid_lengths(message: &[u8], mask: u8) -> Vec<u8> {
    let length = (message.len() as u16).to_le_bytes();
    [&[0, 3, mask, 0, 0, 0, 0, 0, 0, 0, 0, 0, 0], &length[..]].concat()
}

/// The outer layout of a sheet from any bodies, so that wrong ones can be written as well.
pub fn sheet_of(bodies: &[&[u8]]) -> Vec<u8> {
    let mut sheet = (bodies.len() as u16).to_le_bytes().to_vec();
    for body in bodies {
        sheet.extend((body.len() as u32).to_le_bytes());
    }
    sheet.extend(bodies.concat());
    sheet
}

/// A file of samples/.
pub fn sample(name: &str) -> Vec<u8> {
    let path = Path::new(env!("CARGO_MANIFEST_DIR")).join("../samples").join(name);
    fs::read(&path).unwrap_or_else(|error| panic!("{}: {error}", path.display()))
}

/// A sheet that was read, written again.
pub fn written(sheet: &Sheet) -> Vec<u8> {
    let mut writer = SheetWriter::with_heads(sheet.settings, sheet.template, sheet.heads).unwrap();
    for record in &sheet.records {
        writer.push(record).unwrap();
    }
    assert_eq!(writer.size(), writer.clone().finish().len());
    writer.finish()
}

/// What the program prints for a refusal.
pub fn told(number: u8) -> Vec<u8> {
    format!("! {number}\n").into_bytes()
}

/// The archive says that this is no sheet.
pub fn archive_refuses(sheet: &[u8]) -> bool {
    session(sheet) == Err(Refusal::NotASheet)
}

/// What the program prints for a sheet, by what a session call answers.
pub fn printed(sheet: &[u8]) -> Vec<u8> {
    session(sheet).unwrap_or_else(|refusal| told(refusal.number()))
}

/// What the program prints for a record: its line, or its refusal.
pub fn printed_alone(line: Result<Vec<u8>, Refusal>) -> Vec<u8> {
    match line {
        Ok(line) => [&line[..], b"\n"].concat(),
        Err(refusal) => told(refusal.number()),
    }
}
