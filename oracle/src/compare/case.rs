//! One case, compared in all its answers.

use super::calls::{self, Owed};
use super::heads::{Judged, Way};
use super::listed::Listed;
use super::places::Placed;
use super::reports::Reported;
use super::ruled::{Ruled, Strictly};
use crate::reports::Borne;
use crate::ruling::{self, line::without_sequences, Names};
use crate::sheet::{write_bodies, Layout, Record, Sheet, COLOUR, PLACES, STRAIGHT, STRICT};
use crate::strict;
use crate::stub::format;
use crate::tree::dump;
use std::fmt;

pub enum Case {
    /// A template and a record in either layout, by itself and as a sheet, in every setting, but in the places rule only
    /// where `places` says so; `unknown` is a settings byte with a bit that is not known.
    Line {
        template: Vec<u8>,
        record: Vec<u8>,
        unknown: u8,
        places: bool,
    },
    Sheet(Vec<u8>),
    /// Style, location, timestamp, host.
    BuiltIn([u8; 4]),
    /// Any bytes, of which the visible ones are asked for.
    Text(Vec<u8>),
}

/// What came up on the way.
#[derive(Default)]
pub struct Seen {
    /// Of each owed answer its number, 0 for a line.
    pub answers: Vec<u8>,
    pub strictly: Vec<Strictly>,
    pub listed: Vec<Listed>,
    /// Templates that the name `d` changes, by how it does.
    pub ways: Vec<(Way, Vec<u8>)>,
    /// Lines by such templates.
    pub heads: Vec<Judged>,
    /// Lines in the places rule.
    pub places: Vec<Placed>,
    /// Lines whose message has the marks of a comparison report.
    pub reports: Vec<Reported>,
}

impl Seen {
    fn template(&mut self, template: &[u8], ruled: &Ruled) {
        self.strictly.push(ruled.seen());
        self.ways.extend(ruled.ways().iter().map(|way| (*way, template.to_vec())));
    }

    /// A line that the crate judged, of the record as it is or without these reasons.
    pub fn line(&mut self, record: &Record, settings: u8, borne: Option<Borne>, reasons: &[Listed]) {
        self.listed.extend(reasons);
        self.listed.extend(borne.and_then(Listed::of));
        self.reports.extend(Reported::of(record, settings, borne, reasons));
    }
}

impl Case {
    /// The half of the comparison that the crate can answer under this colour, which must be the one that is set.
    pub fn compare(&self, colour: bool, more: usize, seen: &mut Seen) -> Result<(), String> {
        match self {
            Case::Line { template, record, unknown, places } => {
                let ruled = Ruled::new(template, seen)?;
                if !colour {
                    seen.template(template, &ruled);
                    compare_unknown(*unknown, template, record, more)?;
                }
                let rules = if *places { &[0, PLACES][..] } else { &[0] };
                for rule in rules {
                    let chosen = rule | if colour { COLOUR } else { 0 };
                    compare_line(&ruled, template, record, chosen, more, seen)?;
                }
                Ok(())
            }
            Case::Sheet(bytes) => {
                let sheet = ruling::sheet(bytes);
                if sheet.as_ref().map_or(false, Sheet::colour) != colour {
                    return Ok(());
                }
                let owed = session(sheet.as_ref(), seen)?;
                calls::session(bytes, &owed, more)?;
                match owed {
                    Owed::Line(lines) if colour => compare_visible(&lines, more),
                    _ => Ok(()),
                }
            }
            Case::BuiltIn(choice) if !colour => compare_built_in(*choice, more),
            Case::Text(text) if !colour => compare_visible(text, more),
            Case::BuiltIn(_) | Case::Text(_) => Ok(()),
        }
    }
}

/// An unknown settings bit comes first, whatever template and record are.
fn compare_unknown(settings: u8, template: &[u8], record: &[u8], more: usize) -> Result<(), String> {
    let owed = Owed::Refused(15);
    calls::check(template, settings, Err(owed.clone()))?;
    calls::line(template, settings, record, &owed, more)?;
    calls::session(&sheet_of(settings, template, record), &owed, more)
}

/// In all settings with this colour and this rule. The bytes of a record are read in one layout and in the other: what is
/// right in one is of a wrong size in the other.
fn compare_line(
    ruled: &Ruled,
    template: &[u8],
    bytes: &[u8],
    chosen: u8,
    more: usize,
    seen: &mut Seen,
) -> Result<(), String> {
    for layout in Layout::BOTH {
        let record = Record::read(bytes, layout);
        let lines = record.map(|record| ruled.owed(&record, layout, chosen, seen)).transpose()?;
        for others in [0, STRAIGHT, STRICT, STRICT | STRAIGHT] {
            let settings = chosen | others | layout.bit();
            calls::check(template, settings, ruled.names_timestamp(settings))?;
            let owed = match (&lines, ruled.refusal(settings)) {
                (None, _) => Owed::Refused(15),
                (Some(_), Some(refusal)) => refusal,
                (Some(lines), None) => lines[usize::from(settings & STRAIGHT != 0)].clone(),
            };
            compare_owed(ruled, template, settings, bytes, &owed, more)?;
            seen.answers.push(owed.number());
            match owed {
                Owed::Line(line) if settings & (COLOUR | STRICT) == COLOUR => compare_visible(&line, more)?,
                _ => {}
            }
        }
    }
    Ok(())
}

/// A line call, and the sheet of its record alone.
fn compare_owed(
    ruled: &Ruled,
    template: &[u8],
    settings: u8,
    record: &[u8],
    owed: &Owed,
    more: usize,
) -> Result<(), String> {
    calls::line(template, settings, record, owed, more)?;
    let sheet = sheet_of(settings, template, record);
    let session = match (ruling::sheet(&sheet), ruled.refusal(settings)) {
        (None, _) => Owed::Refused(15),
        (Some(_), Some(refusal)) => refusal,
        (Some(_), None) => Owed::Line(printed(&in_the_program(owed.clone()))),
    };
    calls::session(&sheet, &session, more)
}

/// The sheet of this record alone, which may be of a wrong size.
fn sheet_of(settings: u8, template: &[u8], record: &[u8]) -> Vec<u8> {
    write_bodies(&[[&[settings], template].concat(), record.to_vec()])
}

/// The ruling knows texts only. A sequence is ASCII, so that any bytes may be given to it as the characters of the same
/// numbers.
fn compare_visible(text: &[u8], more: usize) -> Result<(), String> {
    let characters: String = text.iter().copied().map(char::from).collect();
    let owed = without_sequences(&characters).chars().map(|character| character as u8).collect();
    calls::visible(text, owed, more)
}

/// What a session call owes: a refusal of the whole sheet, or the lines of its records.
fn session(sheet: Option<&Sheet>, seen: &mut Seen) -> Result<Owed, String> {
    let whole = |refusal: Owed, seen: &mut Seen| {
        seen.answers.push(refusal.number());
        Ok(refusal)
    };
    let Some(sheet) = sheet else {
        return whole(Owed::Refused(15), seen);
    };
    let ruled = Ruled::new(&sheet.template, seen)?;
    seen.template(&sheet.template, &ruled);
    if let Some(refusal) = ruled.refusal(sheet.settings) {
        return whole(refusal, seen);
    }
    let mut lines = Vec::new();
    for record in &sheet.records {
        let [crates, straight] = ruled.owed(record, sheet.layout(), sheet.settings & (COLOUR | PLACES), seen)?;
        let owed = in_the_program(if sheet.settings & STRAIGHT != 0 { straight } else { crates });
        seen.answers.push(owed.number());
        lines.extend(printed(&owed));
    }
    Ok(Owed::Line(lines))
}

/// What a record gets in a sheet: the program's own buffer has an end.
fn in_the_program(owed: Owed) -> Owed {
    match owed {
        Owed::Line(line) if line.len() > ruling::LINE_ROOM => Owed::Refused(13),
        owed => owed,
    }
}

fn printed(owed: &Owed) -> Vec<u8> {
    match owed {
        Owed::Line(line) => [line, &b"\n"[..]].concat(),
        refusal => format!("! {}\n", refusal.number()).into_bytes(),
    }
}

/// The words of a built-in are the crate's, and what the crate's own formatter reads of them is what is ruled, with nothing
/// unused.
fn compare_built_in(choice: [u8; 4], more: usize) -> Result<(), String> {
    let [oneline, location, timestamp, host] = choice.map(|byte| byte != 0);
    let suffix = if host { " (HOST)" } else { "" };
    let template = format::built_in(oneline, location, timestamp).to_string() + suffix;
    let reading =
        ruling::template(template.as_bytes(), Names::All).map_err(|number| format!("{template:?} is {number}"))?;
    if dump(&reading.segments) != format::built_in_dump(oneline, location, timestamp, host) {
        return Err(format!("the crate's own formatter reads {template:?} otherwise"));
    }
    strict::judged(&template, &reading)?;
    if reading.unused.place().is_some() {
        return Err(format!("the strict edition refuses {template:?}"));
    }
    calls::built_in(choice, template.as_bytes(), more)
}

impl fmt::Display for Case {
    fn fmt(&self, f: &mut fmt::Formatter) -> fmt::Result {
        match self {
            Case::Line { template, record, .. } => {
                writeln!(f, "  template: \"{}\"", template.escape_ascii())?;
                write!(f, "  record: \"{}\"", record.escape_ascii())
            }
            Case::Sheet(bytes) => write!(f, "  sheet: \"{}\"", bytes.escape_ascii()),
            Case::BuiltIn(choice) => write!(f, "  style, location, timestamp, host: {choice:?}"),
            Case::Text(text) => write!(f, "  text: \"{}\"", text.escape_ascii()),
        }
    }
}
