//! Inputs of the fuzzer. Byte 0 is the room beyond what is needed. After an even byte 1 the rest is a sheet as it is.
//! After an odd one come settings, source, level, mask and u32 line, then template, file, module, timestamp, message and
//! serial between bytes 255, which are in no text: so a change of a text doesn't spoil the layout, and a change of the
//! settings lays the same record out anew.

use crate::sample;
use crate::sheet::{Record, Sheet};
use std::path::Path;
use std::{fs, io};

const SHEET: u8 = 0;
const LOOSE: u8 = 1;
const BETWEEN: u8 = 255;

/// Bytes after byte 1 and before the texts.
const LOOSE_HEAD: usize = 8;

pub enum Input {
    Sheet(Vec<u8>),
    /// A sheet of one record.
    Loose(Sheet),
}

/// None for what is too short.
pub fn read(input: &[u8]) -> Option<(usize, Input)> {
    let [room, layout, rest @ ..] = input else { return None };
    let read = if layout % 2 == SHEET { Input::Sheet(rest.to_vec()) } else { Input::Loose(read_loose(rest)?) };
    Some(((*room).into(), read))
}

fn read_loose(bytes: &[u8]) -> Option<Sheet> {
    if bytes.len() < LOOSE_HEAD {
        return None;
    }
    let (head, texts) = bytes.split_at(LOOSE_HEAD);
    let mut texts = texts.splitn(6, |byte| *byte == BETWEEN).map(<[u8]>::to_vec);
    let mut next = || texts.next().unwrap_or_default();
    let template = next();
    let record = Record {
        source: head[1],
        level: head[2],
        mask: head[3],
        line: u32::from_le_bytes([head[4], head[5], head[6], head[7]]),
        file: next(),
        module: next(),
        timestamp: next(),
        message: next(),
        head: next(),
    };
    Some(Sheet { settings: head[0], template, records: vec![record] })
}

fn write_loose(sheet: &Sheet, record: &Record) -> Vec<u8> {
    let mut bytes = vec![0, LOOSE, sheet.settings, record.source, record.level, record.mask];
    bytes.extend(record.line.to_le_bytes());
    let texts: Vec<&[u8]> = std::iter::once(&sheet.template[..]).chain(record.fields()).collect();
    bytes.extend(texts.join(&BETWEEN));
    bytes
}

/// Writes the sheets of the stored list, in both layouts where it can be, as inputs to begin with.
pub fn seeds(list: &str, folder: &str) -> io::Result<()> {
    fs::create_dir_all(folder)?;
    for (i, stored) in sample::stored(&fs::read(list)?).into_iter().enumerate() {
        let file = |layout: &str| Path::new(folder).join(format!("{i}-{layout}"));
        fs::write(file("sheet"), [&[0, SHEET], stored.sheet].concat())?;
        let Some(sheet) = Sheet::read(stored.sheet) else { continue };
        for record in sheet.records.iter().take(1) {
            fs::write(file("loose"), write_loose(&sheet, record))?;
        }
    }
    Ok(())
}
