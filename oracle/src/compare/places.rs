//! The places rule (document 02, E14): how the crate judges a line in it, and how the line parts from the crate's rule.

use super::case::Seen;
use super::ruled::judged_line;
use crate::judge;
use crate::places::{record_twice, twice};
use crate::ruling::line::Line;
use crate::ruling::wide::has_wide;
use crate::ruling::{self, Reading};
use crate::sheet::{Record, PLACES, STRAIGHT};
use crate::stub::format::Template;
use crate::tree::{dump, Kind, Segment};

/// What the rule makes of a line.
#[derive(Clone, Copy)]
pub enum Placed {
    Narrow,
    Same,
    Another,
}

impl Placed {
    pub const NAMES: [&'static str; 3] = [
        "without a wide character, as by characters",
        "with a wide character, as by characters",
        "with a wide character, another than by characters",
    ];
}

/// A template as the crate read it.
pub struct Asked {
    read: Template,
    /// With every wide character twice, where it has one.
    twice: Option<Template>,
}

impl Asked {
    /// The crate must read the template with every wide character twice as the same segments, with these characters twice.
    pub fn new(template: &str, read: Template, reading: &Reading) -> Result<Asked, String> {
        let long = twice(template);
        if long == template {
            return Ok(Asked { read, twice: None });
        }
        let due = segments_twice(&reading.segments);
        match judge::read(&long) {
            Some(Ok(twice)) if twice.segments() == due => Ok(Asked { read, twice: Some(twice) }),
            _ => {
                let crates = judge::segments(long.as_bytes());
                Err(format!("reading with wide characters twice\n  the crate: {crates}\n  due: {}", dump(&due)))
            }
        }
    }

    /// The line in the crate's mode must be the crate's, by the rule of the settings.
    pub fn judged(
        &self,
        segments: &[Segment],
        record: &Record,
        settings: u8,
        line: &Line,
        seen: &mut Seen,
    ) -> Result<(), String> {
        if settings & PLACES == 0 {
            return judged_line(&self.read, segments, record, settings, line, seen);
        }
        let (segments, record) = (segments_twice(segments), record_twice(record));
        let by_characters = ruling::line(&segments, &record, settings & !PLACES);
        if twice(&line.text) != by_characters.text {
            return Err(format!("places\n  ruled: {:?}\n  wide ones twice: {:?}", line.text, by_characters.text));
        }
        let asked = self.twice.as_ref().unwrap_or(&self.read);
        judged_line(asked, &segments, &record, settings & !PLACES, &by_characters, seen)
    }
}

/// The segments of a template with every wide character twice.
fn segments_twice(segments: &[Segment]) -> Vec<Segment> {
    let kind = |kind: &Kind| match kind {
        Kind::Text(text) => Kind::Text(twice(text)),
        Kind::Specifier(specifier) => Kind::Specifier(*specifier),
        Kind::Group(members) => Kind::Group(segments_twice(members)),
    };
    segments.iter().map(|segment| Segment { kind: kind(&segment.kind), format: segment.format.clone() }).collect()
}

/// What the places rule makes of the lines in both modes. Without a wide character it may change nothing.
pub fn placed(segments: &[Segment], record: &Record, settings: u8, lines: [&Line; 2]) -> Result<Vec<Placed>, String> {
    if settings & PLACES == 0 {
        return Ok(Vec::new());
    }
    let placed = |(line, mode): (&Line, u8)| {
        let by_characters = ruling::line(segments, record, settings & !PLACES | mode).text;
        match (has_wide(&line.text), line.text == by_characters) {
            (false, true) => Ok(Placed::Narrow),
            (true, true) => Ok(Placed::Same),
            (true, false) => Ok(Placed::Another),
            (false, false) => {
                Err(format!("places, no wide character\n  ruled: {:?}\n  by characters: {by_characters:?}", line.text))
            }
        }
    };
    lines.into_iter().zip([0, STRAIGHT]).map(placed).collect()
}
