//! The differences from the crate that docs/DIFFERENCES.md lists and that are no refusals, each recognised narrowly.

use crate::reports::{in_its_runs, panics, Borne, Panics};
use crate::ruling::report::{self, Report, END, LEFT, RIGHT};
use crate::ruling::{line, line_with};
use crate::sheet::{Record, FILE};
use crate::tree::{names, Segment, Specifier};

#[derive(Clone, Copy, Debug, PartialEq)]
pub enum Listed {
    EmptyFile,
    /// A line of a comparison report that is only its opening mark.
    BareMark,
    /// Where the values share a byte of 128 or more, the diff loses characters, or panics.
    Diff,
    /// Other runs, and other padding of coloured groups around them.
    Runs,
    Width,
    Kelvin,
}

pub const NAMES: [&str; 6] = [
    "empty file",
    "bare mark of a comparison",
    "dissimilar, values that share a byte of 128 or more",
    "colour runs of a comparison",
    "width over 65,535",
    "Kelvin sign",
];

impl Listed {
    /// What is listed of a line that the crate bears out so.
    pub fn of(borne: Borne) -> Option<Listed> {
        match borne {
            Borne::Same => None,
            Borne::Visible | Borne::Runs => Some(Listed::Runs),
            Borne::Lost => Some(Listed::Diff),
        }
    }
}

/// Rust's own limit.
pub const MOST_WIDTH: usize = 65535;

/// Why the crate may show something else, or panic, in place of this line.
pub fn reasons(segments: &[Segment], record: &Record, settings: u8) -> Vec<Listed> {
    let has_level = record.level > 0;
    let mut reasons = Vec::new();
    if has_level && record.file() == Some(&[]) && names_file(segments) {
        reasons.push(Listed::EmptyFile);
    }
    reasons.extend(panics(record).map(|panics| match panics {
        Panics::BareMark => Listed::BareMark,
        Panics::Diff => Listed::Diff,
    }));
    if is_too_wide(segments, record, settings) {
        reasons.push(Listed::Width);
    }
    reasons
}

/// Whether the crate asks more of Rust's formatter than it takes. With other runs it asks for other widths.
pub fn is_too_wide(segments: &[Segment], record: &Record, settings: u8) -> bool {
    let line = match report::of(record).as_ref().and_then(in_its_runs) {
        Some(report) => line_with(segments, record, settings, Some(&report)),
        None => line(segments, record, settings),
    };
    line.widest > MOST_WIDTH
}

/// The record without these reasons: of it the crate's line must be the defined one.
pub fn without(reasons: &[Listed], record: &Record) -> Record {
    let mut record = record.clone();
    for reason in reasons {
        match reason {
            Listed::EmptyFile => record.mask &= !FILE,
            Listed::BareMark => unmark(&mut record.message),
            Listed::Diff => share_nothing(&mut record),
            Listed::Width => {}
            Listed::Runs => unreachable!("no reason to change the record"),
            Listed::Kelvin => unreachable!("a reason of the template alone"),
        }
    }
    record
}

fn names_file(segments: &[Segment]) -> bool {
    names(segments, &|specifier| matches!(specifier, Specifier::FileName(_)))
}

/// As long and as wide as before, but without the mark: the first byte of the last line but one is another.
fn unmark(message: &mut [u8]) {
    let left = ["\n", LEFT].concat();
    if let Some(at) = message.windows(left.len()).rposition(|bytes| bytes == left.as_bytes()) {
        message[at + 1] = b'_';
    }
}

/// With ASCII alone in the right value.
fn share_nothing(record: &mut Record) {
    let Some(Report { head, values: [left, right], .. }) = report::of(record) else { return };
    let right = right.replace(|character: char| !character.is_ascii(), "~");
    record.message = format!("{head}\n{LEFT}{left}{END}\n{RIGHT}{right}{END}").into_bytes();
}
