//! Document 02's comparison reports (E10): which messages are laid out, and what their two values share.

use crate::sheet::{Record, DEVICE};

pub const LEFT: &str = " left: `";
pub const RIGHT: &str = "right: `";
pub const END: char = '`';

/// A message that is laid out.
#[derive(Clone, Debug, PartialEq)]
pub struct Report<'a> {
    /// The lines before the two values.
    pub head: String,
    /// The left value, and the right one.
    pub values: [&'a str; 2],
    /// The stretches that each is shown in.
    pub runs: [Vec<Run<'a>>; 2],
}

#[derive(Clone, Debug, PartialEq)]
pub struct Run<'a> {
    pub text: &'a str,
    /// With the other value.
    pub shared: bool,
}

/// "Device messages, prints without level included".
pub fn of(record: &Record) -> Option<Report<'_>> {
    let message = std::str::from_utf8(&record.message).ok().filter(|_| record.source == DEVICE)?;
    let (head, values) = last_two(message)?;
    let values = [value(values[0], LEFT)?, value(values[1], RIGHT)?];
    Some(Report { head: head.join("\n"), values, runs: runs(values) })
}

/// "Of more than two lines (Rust's `lines`)": the last two, and what stands before them.
pub fn last_two(message: &str) -> Option<(Vec<&str>, [&str; 2])> {
    let mut lines: Vec<&str> = message.lines().collect();
    let (right, left) = (lines.pop()?, lines.pop()?);
    (!lines.is_empty()).then_some((lines, [left, right]))
}

/// What stands between the opening mark and the closing one. A line that is only its opening mark has no closing one.
fn value<'a>(line: &'a str, mark: &str) -> Option<&'a str> {
    line.strip_prefix(mark)?.strip_suffix(END)
}

/// "What counts as equal is the longest shared beginning, then the longest shared end of what remains, in whole characters."
fn runs([left, right]: [&str; 2]) -> [Vec<Run<'_>>; 2] {
    let beginning = shared(left.chars(), right.chars());
    let end = shared(left[beginning..].chars().rev(), right[beginning..].chars().rev());
    [left, right].map(|value| cut(value, beginning, value.len() - end))
}

/// The bytes of the characters that both begin with.
fn shared(left: impl Iterator<Item = char>, right: impl Iterator<Item = char>) -> usize {
    left.zip(right).take_while(|(left, right)| left == right).map(|(character, _)| character.len_utf8()).sum()
}

/// What is own stands between what is shared; nothing is shown of an empty stretch.
fn cut(value: &str, from: usize, to: usize) -> Vec<Run<'_>> {
    [(&value[..from], true), (&value[from..to], false), (&value[to..], true)]
        .into_iter()
        .filter(|(text, _)| !text.is_empty())
        .map(|(text, shared)| Run { text, shared })
        .collect()
}
