//! Comparison reports (document 02, E10): who judges a line that shows one.

use super::listed::Listed;
use crate::reports::Borne;
use crate::ruling::report::{self, LEFT, RIGHT};
use crate::sheet::{Record, COLOUR};

/// Who judged a line whose message has the marks of a report.
#[derive(Clone, Copy)]
pub enum Reported {
    Ordinary,
    Plain,
    PlainRuled,
    Coloured,
    Visible,
    Runs,
    ColouredRuled,
    Alone,
}

impl Reported {
    pub const NAMES: [&'static str; 8] = [
        "not laid out",
        "plain, the crate's line",
        "plain, ruled: the crate loses characters or panics",
        "coloured, the crate's line",
        "coloured, the crate's line in its runs, and the same is visible",
        "coloured, the crate's line in its runs",
        "coloured, ruled: the crate loses characters or panics",
        "ruled alone, for `d`",
    ];

    /// None where the message doesn't have both marks. What the crate bears out is the line of the record, or without these reasons.
    pub fn of(record: &Record, settings: u8, borne: Option<Borne>, reasons: &[Listed]) -> Option<Reported> {
        if report::of(record).is_none() {
            return has_marks(record).then_some(Reported::Ordinary);
        }
        let borne = borne.filter(|_| !reasons.contains(&Listed::Diff));
        Some(match (borne, settings & COLOUR == 0) {
            (Some(Borne::Same), true) => Reported::Plain,
            (Some(Borne::Same), false) => Reported::Coloured,
            (Some(Borne::Visible), _) => Reported::Visible,
            (Some(Borne::Runs), _) => Reported::Runs,
            (Some(Borne::Lost) | None, true) => Reported::PlainRuled,
            (Some(Borne::Lost) | None, false) => Reported::ColouredRuled,
        })
    }

    /// By nobody but the ruling.
    pub fn alone(record: &Record) -> Option<Reported> {
        report::of(record).map(|_| Reported::Alone)
    }
}

fn has_marks(record: &Record) -> bool {
    let message = String::from_utf8_lossy(&record.message);
    message.contains(LEFT) && message.contains(RIGHT)
}
