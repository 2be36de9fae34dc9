//! What the name `d` changes (document 02, E7): how the ruling with it parts from the ruling by the crate's own names, and
//! who judges the one with it.

use super::case::Seen;
use super::ruled::{Judge, Ruled};
use crate::head::StandIn;
use crate::ruling::{self, Names, Reading};
use crate::sample::DROPPED;
use crate::tree::Segment;
use std::fmt;

/// How the two rulings on a template part in an edition.
#[derive(Clone, Copy, Debug, PartialEq, Eq, PartialOrd, Ord)]
pub struct Way {
    strict: bool,
    without: Outcome,
    with: Outcome,
}

/// In the order of printing.
#[derive(Clone, Copy, Debug, PartialEq, Eq, PartialOrd, Ord)]
enum Outcome {
    Read,
    /// 3, 4 or 17.
    Refused(u8),
    /// 5 to 9: nearly any of them can become nearly any other number.
    Limit,
}

/// Who judges a line by a template that the name changes.
#[derive(Clone, Copy)]
pub enum Judged {
    AsFile,
    AsModule,
    Alone,
}

impl Judged {
    pub const NAMES: [&'static str; 3] =
        ["judged by the crate, as {F}", "judged by the crate, as {m}", "by the ruling alone"];
}

impl From<StandIn> for Judged {
    fn from(stand_in: StandIn) -> Judged {
        match stand_in {
            StandIn::File => Judged::AsFile,
            StandIn::Module => Judged::AsModule,
        }
    }
}

type Ruling = Result<Reading, u8>;

/// What an edition makes of a template: a refusal's number, and with 17 the place.
type Made<'a> = Result<&'a [Segment], (u8, usize)>;

/// The ways of both editions; of the strict one where 17 has a part in it.
pub fn ways(without: &Ruling, with: &Ruling) -> Vec<Way> {
    let [first, strict] = [first, strictly].map(|edition| [edition(without), edition(with)]);
    let dropped = strict.iter().any(|made| outcome(made) == Outcome::Refused(DROPPED));
    [(false, first, true), (true, strict, dropped)]
        .into_iter()
        .filter(|(_, [without, with], counts)| *counts && without != with)
        .map(|(strict, [without, with], _)| Way { strict, without: outcome(&without), with: outcome(&with) })
        .collect()
}

fn first(ruling: &Ruling) -> Made<'_> {
    ruling.as_ref().map(|reading| &reading.segments[..]).map_err(|number| (*number, 0))
}

fn strictly(ruling: &Ruling) -> Made<'_> {
    let place = ruling.as_ref().ok().and_then(|reading| reading.unused.place());
    place.map_or_else(|| first(ruling), |place| Err((DROPPED, place)))
}

fn outcome(made: &Made) -> Outcome {
    match made {
        Ok(_) => Outcome::Read,
        Err((5..=9, _)) => Outcome::Limit,
        Err((number, _)) => Outcome::Refused(*number),
    }
}

/// Who judges the lines by a template that the name changes. The reading is judged here: with another name put in for `d`,
/// where the crate must agree, it must be the same and leave the same unused.
pub fn judged(template: &str) -> Result<Judge, String> {
    let for_lines = StandIn::for_lines(template);
    let stand_in = for_lines.unwrap_or(StandIn::File);
    let other = stand_in.put_in(template);
    let ruled = Ruled::new(other.as_bytes(), &mut Seen::default())?;
    let [ours, theirs] = [template, &other].map(|template| ruling::parse(template.as_bytes(), Names::All));
    let alike = match (&ours, &theirs) {
        (Ok(ours), Ok(theirs)) => ours.unused == theirs.unused && stand_in.is_read_as(&ours.segments, &theirs.segments),
        _ => ours == theirs,
    };
    if !alike {
        return Err(format!("reading with `d`\n  ruled: {ours:?}\n  {other:?}: {theirs:?}"));
    }
    Ok(for_lines.map_or(Judge::Alone, |stand_in| Judge::StandIn(Box::new(ruled), stand_in)))
}

impl fmt::Display for Way {
    fn fmt(&self, f: &mut fmt::Formatter) -> fmt::Result {
        let edition = if self.strict { ", strict" } else { "" };
        let Way { without, with, .. } = self;
        let other = if without == with { ", another" } else { "" };
        write!(f, "d as a name{edition}: {without} without it, {with} with it{other}")
    }
}

impl fmt::Display for Outcome {
    fn fmt(&self, f: &mut fmt::Formatter) -> fmt::Result {
        match self {
            Outcome::Read => f.write_str("read"),
            Outcome::Refused(number) => write!(f, "{number}"),
            Outcome::Limit => f.write_str("5 to 9"),
        }
    }
}
