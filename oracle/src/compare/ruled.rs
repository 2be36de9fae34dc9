//! A template as documents 01 and 02 rule on it and the crate judges: the two are held against each other, and what the
//! port owes comes out.

use super::calls::Owed;
use super::case::Seen;
use super::heads::{self, Judged, Way};
use super::listed::{self, Listed};
use super::places::{placed, Asked};
use super::reports::Reported;
use crate::head::{self, StandIn};
use crate::judge::{self, Shown};
use crate::kelvin;
use crate::reports::borne_out;
use crate::ruling::line::{without_sequences, Line};
use crate::ruling::{self, Names, Reading};
use crate::sheet::{Layout, Record, PLACES, STRAIGHT, STRICT};
use crate::strict;
use crate::stub::format::{Refusal, Template};
use crate::tree::{dump, names, Kind, Segment, Specifier};

pub struct Ruled {
    /// In the first edition, by all names.
    reading: Result<Reading, u8>,
    judge: Judge,
    /// How the name `d` changes it.
    ways: Vec<Way>,
}

/// What the strict edition makes of a template; by what comes first where that is 17.
#[derive(Clone, Copy)]
pub enum Strictly {
    Read,
    Dropped,
    Lost,
    Refused,
}

impl Strictly {
    pub const NAMES: [&'static str; 4] =
        ["reads", "17, first a dropped byte", "17, first a lost parameter", "refuses as the first does"];
}

/// Who judges the lines.
pub enum Judge {
    /// The template gives none.
    Nobody,
    /// The crate, by its reading of the template.
    Crate(Asked),
    /// The crate, by the template with another letter in place of the Kelvin sign.
    Other(Box<Ruled>),
    /// The crate, by the template with another name in place of `d`.
    StandIn(Box<Ruled>, StandIn),
    /// The crate cannot be asked: the ruling stands alone.
    Alone,
}

impl Ruled {
    /// An error where ruling and crate part and no reason for it is listed. The crate is asked by its own names; where `d`
    /// changes the ruling, it is asked with another name in its place as well.
    pub fn new(template: &[u8], seen: &mut Seen) -> Result<Ruled, String> {
        let [crates, reading] = [Names::Crates, Names::All].map(|names| ruling::template(template, names));
        let judge = match crates {
            // The crate cannot be asked, or knows no such limit.
            Err(1 | 2 | 5..=8) => Judge::Nobody,
            _ => judged_reading(text_of(template), &crates, seen)?,
        };
        if reading == crates {
            return Ok(Ruled { reading, judge, ways: Vec::new() });
        }
        if !head::is_tried(text_of(template)) {
            return Err("reading\n  another by the name `d`, which is not tried".to_string());
        }
        Ok(Ruled { judge: heads::judged(text_of(template))?, ways: heads::ways(&crates, &reading), reading })
    }

    /// The refusal of the template in the edition that the settings choose. "It reads exactly the templates that the first
    /// edition reads with every byte used and every parameter still in force"; 17 is "checked after 3 to 10".
    pub fn refusal(&self, settings: u8) -> Option<Owed> {
        match &self.reading {
            Err(number) => Some(Owed::Refused(*number)),
            Ok(reading) if settings & STRICT != 0 => reading.unused.place().map(Owed::Dropped),
            Ok(_) => None,
        }
    }

    /// Whether it names `{t}`, or its refusal.
    pub fn names_timestamp(&self, settings: u8) -> Result<bool, Owed> {
        let yes = self.reading.as_ref().map_or(false, |reading| names_timestamp(&reading.segments));
        self.refusal(settings).map_or(Ok(yes), Err)
    }

    /// What became of it in the strict edition.
    pub fn seen(&self) -> Strictly {
        match &self.reading {
            Err(_) => Strictly::Refused,
            Ok(Reading { unused, .. }) => match unused.place() {
                None => Strictly::Read,
                Some(place) if unused.lost.iter().any(|lost| lost.word.start == place) => Strictly::Lost,
                Some(_) => Strictly::Dropped,
            },
        }
    }

    /// How the name `d` changes the template, in either edition.
    pub fn ways(&self) -> &[Way] {
        &self.ways
    }

    /// What is owed for a record in the crate's mode and in straight mode, in the first edition; in the strict one it is the
    /// same, or the template's refusal. Of the settings colour and rule are looked at; the colour must be what `set_colour`
    /// set last.
    pub fn owed(&self, record: &Record, layout: Layout, settings: u8, seen: &mut Seen) -> Result<[Owed; 2], String> {
        let both = |number| [Owed::Refused(number), Owed::Refused(number)];
        let segments = match &self.reading {
            Err(number) => return Ok(both(*number)),
            Ok(reading) => &reading.segments,
        };
        if let Some(number) = ruling::record(record, layout) {
            return Ok(both(number));
        }
        let crates = ruling::line(segments, record, settings);
        let straight = ruling::line(segments, record, settings | STRAIGHT);
        judged_straight(segments, record, settings & PLACES, &crates, &straight)?;
        let owed = [&crates, &straight].map(|line| Owed::Line(line.text.clone().into_bytes()));
        match &self.judge {
            Judge::Nobody => unreachable!("the crate was asked where the template is read"),
            Judge::Crate(asked) => {
                asked.judged(segments, record, settings, &crates, seen)?;
                seen.places.extend(placed(segments, record, settings, [&crates, &straight])?);
            }
            Judge::Other(ruled) => drop(ruled.owed(record, layout, settings, seen)?),
            Judge::StandIn(ruled, stand_in) => {
                same_lines(&owed, &ruled.owed(&stand_in.lent(record), layout, settings, seen)?)?;
                seen.heads.push((*stand_in).into());
            }
            Judge::Alone => {
                seen.heads.push(Judged::Alone);
                seen.reports.extend(Reported::alone(record));
                seen.places.extend(placed(segments, record, settings, [&crates, &straight])?);
            }
        }
        Ok(owed)
    }
}

/// What a stand-in shows in place of the serial is the serial: the lines are the same.
fn same_lines(owed: &[Owed; 2], others: &[Owed; 2]) -> Result<(), String> {
    (owed == others).then_some(()).ok_or_else(|| format!("line with `d`\n  {owed:?}\n  with a stand-in: {others:?}"))
}

fn text_of(template: &[u8]) -> &str {
    std::str::from_utf8(template).expect("not 2")
}

/// Where the ruling is 3, 4, 9 or that it is read, the crate must agree, segment by segment and in what is unused.
fn judged_reading(template: &str, reading: &Result<Reading, u8>, seen: &mut Seen) -> Result<Judge, String> {
    let asked = judge::read(template);
    let agree = match (reading, &asked) {
        (Err(3), Some(Err(Refusal::Failure))) | (Err(9), None) => true,
        (Err(4), Some(Err(Refusal::NoMessage))) => {
            judge::read_unchecked(template) == Some(Ok(without_message(template)))
        }
        (Ok(Reading { segments, .. }), Some(Ok(read))) => {
            read.segments() == *segments && read.has_timestamp() == names_timestamp(segments)
        }
        _ => false,
    };
    if agree {
        let (Ok(reading), Some(Ok(read))) = (reading, asked) else { return Ok(Judge::Nobody) };
        strict::judged(template, reading)?;
        return Asked::new(template, read, reading).map(Judge::Crate);
    }
    let (crates, ruled) = (judge::segments(template.as_bytes()), ruled_dump(template, reading));
    match judged_by_letters(template, reading, &crates, &ruled) {
        Some(other) => {
            seen.listed.push(Listed::Kelvin);
            Ok(Judge::Other(Box::new(other)))
        }
        None => Err(format!("reading\n  the crate: {crates}\n  ruled: {ruled}")),
    }
}

/// The ruled segments of a template that has everything but `{s}`.
fn without_message(template: &str) -> Vec<Segment> {
    ruling::parse(template.as_bytes(), Names::Crates).expect("only {s} is missing").segments
}

/// In the form of `judge::segments`.
fn ruled_dump(template: &str, reading: &Result<Reading, u8>) -> String {
    match reading {
        Ok(reading) => dump(&reading.segments),
        Err(4) => format!("4 {}", dump(&without_message(template))),
        Err(9) => "panic".to_string(),
        Err(number) => number.to_string(),
    }
}

/// The ruling of the template with another letter in place of the Kelvin sign, where the sign is why crate and ruling
/// part and nothing else is: the crate reads it for a `K` and the ruling for the other letter, and where either letter
/// stands they agree. With the other letter, which is as long, the same bytes must be unused.
fn judged_by_letters(template: &str, reading: &Result<Reading, u8>, crates: &str, ruled: &str) -> Option<Ruled> {
    let agreed = |letter| Ruled::new(kelvin::with(letter, template).as_bytes(), &mut Seen::default()).ok();
    let explained = template.contains(kelvin::SIGN)
        && kelvin::is_read_as(crates, kelvin::LARGE_K, template)
        && kelvin::is_read_as(ruled, kelvin::OTHER, template)
        && agreed(kelvin::LARGE_K).is_some();
    let other = ruling::template(kelvin::with(kelvin::OTHER, template).as_bytes(), Names::Crates);
    let unused = |reading: &Result<Reading, u8>| reading.as_ref().map(|reading| reading.unused.clone()).ok();
    (explained && unused(&other) == unused(reading)).then(|| agreed(kelvin::OTHER)).flatten()
}

fn names_timestamp(segments: &[Segment]) -> bool {
    names(segments, &|specifier| specifier == Specifier::Timestamp)
}

/// The crate must show this line, or something else for a listed reason, without which it must agree.
pub fn judged_line(
    asked: &Template,
    segments: &[Segment],
    record: &Record,
    settings: u8,
    line: &Line,
    seen: &mut Seen,
) -> Result<(), String> {
    let shown = judge::shown(asked, record);
    let borne = borne_out(&shown, segments, record, settings, line);
    if borne.is_some() {
        seen.line(record, settings, borne, &[]);
        return Ok(());
    }
    let reasons = listed::reasons(segments, record, settings);
    let changed = listed::without(&reasons, record);
    let same = ruling::line(segments, &changed, settings);
    let again = judge::shown(asked, &changed);
    let borne = borne_out(&again, segments, &changed, settings, &same);
    let explained = borne.is_some() || again == Shown::Panic && listed::is_too_wide(segments, &changed, settings);
    if reasons.is_empty() || !explained {
        return Err(format!("line, settings {settings}\n  the crate: {shown:?}\n  ruled: {:?}", line.text));
    }
    seen.line(record, settings, borne, &reasons);
    Ok(())
}

/// The crate has no straight mode. Where it inserts nothing the two modes are one; and without byte 27 in any text,
/// what is visible is the plain line, which the crate has judged.
fn judged_straight(
    segments: &[Segment],
    record: &Record,
    rule: u8,
    crates: &Line,
    straight: &Line,
) -> Result<(), String> {
    let same = crates.inserted || straight.text == crates.text;
    let foreign = record.fields().iter().any(|field| field.contains(&27)) || has_escape(segments);
    let visible = foreign || without_sequences(&straight.text) == ruling::line(segments, record, rule).text;
    if same && visible {
        Ok(())
    } else {
        Err(format!("straight mode\n  crate's mode: {:?}\n  straight: {:?}", crates.text, straight.text))
    }
}

fn has_escape(segments: &[Segment]) -> bool {
    segments.iter().any(|segment| match &segment.kind {
        Kind::Text(text) => text.contains('\x1b'),
        Kind::Specifier(_) => false,
        Kind::Group(members) => has_escape(members),
    })
}
