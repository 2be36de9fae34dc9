//! Comparison reports (document 02, E10) and the crate. It lays them out alike, but in the runs of dissimilar's diff. So the
//! ruled line in these runs must be its line, byte by byte. Where they make up both values, what is not coloured is the same.
//! Where the values share a byte of 128 or more, they need not: the diff may lose characters there, or panic.

use crate::judge::{quietly, Shown};
use crate::ruling;
use crate::ruling::line::{without_sequences, Line};
use crate::ruling::report::{self, Report, Run, END, LEFT, RIGHT};
use crate::sheet::{Record, COLOUR, DEVICE};
use crate::tree::{names, Kind, Segment, Specifier};
use dissimilar::Chunk;

/// How the crate's answer for a record bears out the ruled line.
#[derive(Clone, Copy, Debug, PartialEq)]
pub enum Borne {
    /// It is that line.
    Same,
    /// It is that line in other runs of the same values, and the same is visible.
    Visible,
    /// It is that line in other runs of the same values.
    Runs,
    /// It is that line in the runs of a diff that lost characters.
    Lost,
}

/// None where it doesn't. Other runs show only in colour, and characters are lost only where the values share a byte.
pub fn borne_out(shown: &Shown, segments: &[Segment], record: &Record, settings: u8, line: &Line) -> Option<Borne> {
    if shown.is(&line.text) {
        return Some(Borne::Same);
    }
    let report = report::of(record)?;
    let crates = in_its_runs(&report)?;
    let other = ruling::line_with(segments, record, settings, Some(&crates)).text;
    let visible = || without_sequences(&other) == without_sequences(&line.text);
    let borne = match (is_whole(&crates), settings & COLOUR != 0) {
        (false, _) if share_a_byte(&report) => Borne::Lost,
        (true, true) if may_show_otherwise(segments, record, &report) => Borne::Runs,
        (true, true) if visible() => Borne::Visible,
        _ => return None,
    };
    shown.is(&other).then_some(borne)
}

/// Whether other runs may make a difference to what is visible. A sequence in a value may be cut, and each reset at the end of
/// a run has a coloured group insert its prefix, which counts for the group's padding.
fn may_show_otherwise(segments: &[Segment], record: &Record, report: &Report) -> bool {
    let cut = report.values.iter().any(|value| value.contains('\x1b'));
    cut || record.level > 0 && pads_by_colours(segments)
}

/// Whether a group with a width, and with a colour or a style, has the message in it.
fn pads_by_colours(segments: &[Segment]) -> bool {
    segments.iter().any(|segment| match &segment.kind {
        Kind::Group(members) => {
            let format = &segment.format;
            let pads = format.width.unwrap_or(0) > 0 && (format.styles != 0 || format.colour.is_some());
            pads && names(members, &|specifier| specifier == Specifier::Log) || pads_by_colours(members)
        }
        Kind::Text(_) | Kind::Specifier(_) => false,
    })
}

/// The report in the crate's runs; None where its diff panics.
pub fn in_its_runs<'a>(report: &Report<'a>) -> Option<Report<'a>> {
    let [left, right] = report.values;
    let chunks = quietly(|| dissimilar::diff(left, right))?;
    let run = |text, shared| Some(Run { text, shared });
    let left = chunks.iter().filter_map(|chunk| match *chunk {
        Chunk::Equal(text) => run(text, true),
        Chunk::Delete(text) => run(text, false),
        Chunk::Insert(_) => None,
    });
    let right = chunks.iter().filter_map(|chunk| match *chunk {
        Chunk::Equal(text) => run(text, true),
        Chunk::Insert(text) => run(text, false),
        Chunk::Delete(_) => None,
    });
    Some(Report { runs: [left.collect(), right.collect()], ..report.clone() })
}

/// Whether the runs make up the values.
fn is_whole(report: &Report) -> bool {
    let whole = |runs: &[Run]| runs.iter().map(|run| run.text).collect::<String>();
    report.runs.iter().zip(report.values).all(|(runs, value)| whole(runs) == value)
}

/// Whether a byte of 128 or more is in both values.
fn share_a_byte(report: &Report) -> bool {
    let [left, right] = report.values.map(|value| {
        let mut has = [false; 256];
        value.bytes().for_each(|byte| has[usize::from(byte)] = true);
        has
    });
    (128..256).any(|byte| left[byte] && right[byte])
}

/// Whether the crate panics on the message alone, and why that is listed.
pub fn panics(record: &Record) -> Option<Panics> {
    match report::of(record) {
        Some(report) => (share_a_byte(&report) && in_its_runs(&report).is_none()).then_some(Panics::Diff),
        None => has_bare_mark(record).then_some(Panics::BareMark),
    }
}

#[derive(Clone, Copy, Debug, PartialEq)]
pub enum Panics {
    /// In the diff.
    Diff,
    /// On one of the two lines that is only its opening mark.
    BareMark,
}

/// The crate looks for both marks of a line, whether they are one or two.
fn has_bare_mark(record: &Record) -> bool {
    let message = String::from_utf8_lossy(&record.message);
    let Some((_, [left, right])) = report::last_two(&message) else { return false };
    let marked = left.starts_with(LEFT) && right.starts_with(RIGHT) && left.ends_with(END) && right.ends_with(END);
    record.source == DEVICE && marked && (left == LEFT || right == RIGHT)
}

// The switch for colour is one for the whole process, and the tests of the port set it too.
#[cfg(all(test, not(feature = "port")))]
mod tests {
    use super::*;
    use crate::judge;
    use crate::ruling::Names;
    use crate::sample::random::Rng;

    const MESSAGES: usize = 100_000;

    const TEMPLATES: [&str; 4] = ["{s}", "{s:9:red}|", "{[{s}]%>60}|", "{x{s}{L}%bold%99}|"];

    fn records() -> impl Iterator<Item = Record> {
        let mut rng = Rng(1);
        (0..MESSAGES).map(move |turn| Record { level: (turn % 6) as u8, message: rng.report(), ..Record::default() })
    }

    /// Beginning and end are the same in both values, and nothing between them could be added to either.
    #[test]
    fn as_much_is_shared_as_can_be() {
        for record in records() {
            let Some(report) = report::of(&record) else { continue };
            assert!(is_whole(&report) && report.runs.iter().flatten().all(|run| !run.text.is_empty()), "{report:?}");
            let own = |runs: &[Run]| runs.iter().find(|run| !run.shared).map_or("", |run| run.text).to_string();
            let [left, right] = [&report.runs[0], &report.runs[1]].map(|runs| own(runs));
            let shared = |runs: &[Run]| runs.iter().filter(|run| run.shared).map(|run| run.text).collect::<String>();
            assert_eq!(shared(&report.runs[0]), shared(&report.runs[1]), "{report:?}");
            if !left.is_empty() && !right.is_empty() {
                assert_ne!(left.chars().next(), right.chars().next(), "{report:?}");
                assert_ne!(left.chars().last(), right.chars().last(), "{report:?}");
            }
        }
    }

    #[test]
    fn the_crate_bears_out_what_is_ruled() {
        let read = |template: &str| {
            let segments = ruling::template(template.as_bytes(), Names::All).expect("read").segments;
            (judge::read(template).and_then(Result::ok).expect("read by the crate"), segments)
        };
        let templates = TEMPLATES.map(read);
        for colour in [0, COLOUR] {
            judge::set_colour(colour != 0);
            for (record, (template, segments)) in records().zip(templates.iter().cycle()) {
                let shown = judge::shown(template, &record);
                let line = ruling::line(segments, &record, colour);
                let panics = shown == Shown::Panic && panics(&record).is_some();
                let borne = borne_out(&shown, segments, &record, colour, &line);
                assert!(panics || borne.is_some(), "{record:?}\n{shown:?}\n{:?}", line.text);
            }
        }
    }
}
