//! Asks the crate. None of the port's limits is applied: these are the crate's own answers.

use crate::sheet::{Layout, Record, Sheet, DEVICE};
use crate::stub::format::{self, Refusal, Template};
use crate::stub::{DefmtRecord, Payload};
use crate::tree::Segment;
use std::cell::Cell;
use std::fmt;
use std::panic::{self, AssertUnwindSafe};
use std::sync::Once;

pub const LINE: u8 = 0;
pub const PANIC: u8 = 255;

/// What the crate makes of a whole sheet.
#[derive(Debug, PartialEq)]
pub enum Answer {
    Read(Vec<Shown>),
    /// 2, 3, 4 or 15, as document 01 numbers them.
    Refused(u8),
    Panic,
}

/// What the crate makes of one record.
#[derive(PartialEq)]
pub enum Shown {
    Line(Vec<u8>),
    /// 12 or 14: a record that the crate's types cannot hold.
    Impossible(u8),
    Panic,
}

/// Sets `colored`'s switch, which is one for the whole process: no two threads may want different ones.
pub fn set_colour(on: bool) {
    colored::control::set_override(on);
}

/// The answer for a sheet, under the colour that `set_colour` set last.
pub fn answer(sheet: Option<&Sheet>) -> Answer {
    let Some(sheet) = sheet else { return Answer::Refused(15) };
    let Ok(template) = std::str::from_utf8(&sheet.template) else { return Answer::Refused(2) };
    match read(template) {
        None => Answer::Panic,
        Some(Err(refusal)) => Answer::Refused(refusal as u8),
        Some(Ok(template)) => Answer::Read(sheet.records.iter().map(|r| asked(&template, r, sheet.layout())).collect()),
    }
}

fn asked(template: &Template, record: &Record, layout: Layout) -> Shown {
    if record.is_possible(layout) {
        shown(template, record)
    } else {
        Shown::Impossible(14)
    }
}

/// The answer with the sheet's own colour setting.
pub fn answer_alone(sheet: &Sheet) -> Answer {
    set_colour(sheet.colour());
    answer(Some(sheet))
}

/// None where the crate panics.
pub fn read(template: &str) -> Option<Result<Template, Refusal>> {
    quietly(|| Template::read(template))
}

/// The segments of a template without `{s}`.
pub fn read_unchecked(template: &str) -> Option<Result<Vec<Segment>, Refusal>> {
    quietly(|| Template::read_unchecked(template))
}

/// The line of a record that is possible, under the colour that `set_colour` set last. The crate knows no heads, and is not
/// given the serial.
pub fn shown(template: &Template, record: &Record) -> Shown {
    match quietly(|| line(template, record)) {
        None => Shown::Panic,
        Some(None) => Shown::Impossible(12),
        Some(Some(line)) => Shown::Line(line.into_bytes()),
    }
}

/// None for a field that is no UTF-8.
fn line(template: &Template, record: &Record) -> Option<String> {
    let text = |bytes| std::str::from_utf8(bytes).ok();
    let [file, module, timestamp, message, _] = record.fields();
    let (file, module, timestamp, message) = (text(file)?, text(module)?, text(timestamp)?, text(message)?);
    let level = level(record.level);
    let mut builder = log::Record::builder();
    builder.file(record.file().map(|_| file)).line(record.line()).module_path(record.module().map(|_| module));
    if record.source == DEVICE {
        let payload = Payload { level, timestamp: timestamp.to_string() };
        Some(
            template
                .device_line(&DefmtRecord { log_record: &builder.args(format_args!("{message}")).build(), payload }),
        )
    } else {
        let level = level.expect("a possible host record has a level");
        Some(template.host_line(&builder.level(level).args(format_args!("{message}")).build()))
    }
}

fn level(number: u8) -> Option<log::Level> {
    match number {
        1 => Some(log::Level::Error),
        2 => Some(log::Level::Warn),
        3 => Some(log::Level::Info),
        4 => Some(log::Level::Debug),
        5 => Some(log::Level::Trace),
        _ => None,
    }
}

/// The segments of a template, or `2`, `3`, `4 ` and the segments, `panic`.
pub fn segments(template: &[u8]) -> String {
    match std::str::from_utf8(template) {
        Err(_) => "2".to_string(),
        Ok(template) => quietly(|| format::dump(template)).unwrap_or_else(|| "panic".to_string()),
    }
}

impl Answer {
    /// The payload of mode `lines`.
    pub fn bytes(&self) -> Vec<u8> {
        match self {
            Answer::Refused(number) => vec![*number],
            Answer::Panic => vec![PANIC],
            Answer::Read(lines) => {
                let mut payload = vec![0];
                lines.iter().for_each(|shown| shown.put(&mut payload));
                payload
            }
        }
    }

    /// What the port's program would print if its lines were the crate's; a panic is the word `panic`.
    pub fn printed(&self) -> Vec<u8> {
        match self {
            Answer::Refused(number) => format!("! {number}\n").into_bytes(),
            Answer::Panic => b"panic\n".to_vec(),
            Answer::Read(lines) => lines.iter().flat_map(Shown::printed).collect(),
        }
    }

    pub fn panicked(&self) -> bool {
        match self {
            Answer::Read(lines) => lines.contains(&Shown::Panic),
            answer => *answer == Answer::Panic,
        }
    }
}

impl Shown {
    pub fn is(&self, line: &str) -> bool {
        matches!(self, Shown::Line(bytes) if bytes == line.as_bytes())
    }

    fn put(&self, payload: &mut Vec<u8>) {
        match self {
            Shown::Impossible(number) => payload.push(*number),
            Shown::Panic => payload.push(PANIC),
            Shown::Line(line) => {
                payload.push(LINE);
                payload.extend((line.len() as u32).to_le_bytes());
                payload.extend(line);
            }
        }
    }

    fn printed(&self) -> Vec<u8> {
        match self {
            Shown::Impossible(number) => format!("! {number}\n").into_bytes(),
            Shown::Panic => b"panic\n".to_vec(),
            Shown::Line(line) => [line, &b"\n"[..]].concat(),
        }
    }
}

impl fmt::Debug for Shown {
    fn fmt(&self, f: &mut fmt::Formatter) -> fmt::Result {
        match self {
            Shown::Impossible(number) => write!(f, "! {number}"),
            Shown::Panic => f.write_str("panic"),
            Shown::Line(line) => write!(f, "{:?}", String::from_utf8_lossy(line)),
        }
    }
}

thread_local!(static QUIET: Cell<bool> = const { Cell::new(false) });

/// Runs the crate; None when it panics. Its panics are answers here and say nothing, ours still do.
pub(crate) fn quietly<T>(run: impl FnOnce() -> T) -> Option<T> {
    static HOOK: Once = Once::new();
    HOOK.call_once(|| {
        let loud = panic::take_hook();
        panic::set_hook(Box::new(move |info| {
            if !QUIET.with(Cell::get) {
                loud(info)
            }
        }));
    });
    QUIET.with(|quiet| quiet.set(true));
    let result = panic::catch_unwind(AssertUnwindSafe(run)).ok();
    QUIET.with(|quiet| quiet.set(false));
    result
}
