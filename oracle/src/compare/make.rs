//! The cases: each is made from the seed and its place alone, and kinds take turns, so that any number of cases has all
//! kinds.

mod bytes;
mod crossed;
mod edges;
mod heads;
mod letters;
mod paths;
mod places;
mod records;
mod reports;
mod sheets;
mod short;
mod strict;
mod texts;
mod tokens;

use super::case::Case;
use crate::sample::cases;
use crate::sample::random::Rng;
use crate::sheet::{Record, Sheet, UNKNOWN as UNKNOWN_LEAST};

pub const KINDS: [&str; 12] = [
    "short templates",
    "long templates",
    "records",
    "sheets",
    "boundaries",
    "built-ins",
    "texts",
    "letters",
    "strict",
    "heads",
    "places",
    "reports",
];

/// The last two of them.
const PLACES: usize = 10;
const REPORTS: usize = 11;

/// Places in `KINDS`. Short templates are cheap, and so many turns show all of up to five tokens in ten million cases.
const TURNS: [usize; 64] = [
    0, 1, 0, 2, 0, 3, 0, 0, 8, 0, 11, 0, 4, 0, 0, 7, 0, 9, 0, 0, 10, 0, 7, 0, 3, 0, 0, 9, 0, 2, 5, 0, //
    0, 1, 0, 2, 0, 3, 0, 0, 8, 0, 10, 0, 4, 0, 0, 11, 0, 8, 0, 0, 1, 0, 9, 0, 10, 0, 0, 11, 0, 2, 6, 0,
];

/// Settings bytes with a bit that is not known.
const UNKNOWN: &[&u8] = &[&32, &33, &36, &40, &48, &63, &64, &80, &96, &128, &129, &131, &144, &159, &248, &255];

/// The places rule is asked for in one case of so many.
const PLACES_ONE_IN: u64 = 5;

/// A record of chance has the message of a comparison report, or nearly, in one case of so many.
const REPORT_ONE_IN: usize = 6;

/// Widths beyond a block of 128 bytes, in which characters are counted.
const WIDE: &[&str] = &[
    "{s:^300}|",
    "{[{s}{t}]%>500%bold}|",
    "{m:0250}|{s:<130}|",
    "{F:>290}|{s}",
    "{ff:^199}{c:99}|{s:red:400}|",
    "{d:>200}|{s}",
];

/// How many cases there are of every path, and each of them.
pub fn path_count() -> u64 {
    paths::count()
}

pub fn path_case(index: u64) -> (usize, Case) {
    let record = heads::in_turn(index / paths::TEMPLATES.len() as u64, paths::record(index));
    (2, systematic(index, paths::template(index), record))
}

/// How many cases there are of every four bytes at the edges of UTF-8, and each of them.
pub fn byte_count() -> u64 {
    bytes::count()
}

pub fn byte_case(index: u64) -> (usize, Case) {
    let (template, record) = bytes::case(index);
    (2, systematic(index, template, record))
}

/// How many cases there are of every character, and each of them.
pub fn letter_count() -> u64 {
    letters::count()
}

pub fn letter_case(index: u64) -> (usize, Case) {
    let record = heads::in_turn(index / letters::PLACES.len() as u64, letters::record());
    (7, systematic(index, &letters::nth_template(index), record))
}

/// How many cases there are of templates that leave something unused or nearly do, and each of them.
pub fn strict_count() -> u64 {
    strict::TEMPLATES.count()
}

pub fn strict_case(index: u64) -> (usize, Case) {
    (8, systematic(index, &strict::TEMPLATES.nth(index), short::record(index)))
}

/// How many cases there are of templates in which `d` is tried as a name or nearly is, and each of them.
pub fn head_count() -> u64 {
    heads::TEMPLATES.count()
}

pub fn head_case(index: u64) -> (usize, Case) {
    (9, systematic(index, &heads::TEMPLATES.nth(index), short::record(index)))
}

/// How many cases there are of every character in a padded message, and each of them.
pub fn wide_count() -> u64 {
    letters::CHARACTERS
}

pub fn wide_case(index: u64) -> (usize, Case) {
    let record = heads::in_turn(index, places::saying(letters::nth_character(index)));
    let template = places::TEMPLATE.into();
    (PLACES, Case::Line { template, record, unknown: UNKNOWN_LEAST, places: true })
}

/// A case of chance in which padding meets wide characters.
pub fn places_case(seed: u64, index: u64) -> (usize, Case) {
    (PLACES, places::case(&mut rng(seed, index)))
}

/// A case of chance with comparison reports, and what is nearly one; in the places rule as well as often as others are.
pub fn report_case(seed: u64, index: u64) -> (usize, Case) {
    let mut case = reports::case(&mut rng(seed, index));
    in_places(index, &mut case);
    (REPORTS, case)
}

fn systematic(index: u64, template: &str, record: Vec<u8>) -> Case {
    Case::Line { template: template.into(), record, unknown: UNKNOWN_LEAST, places: is_in_places(index) }
}

/// Each time one place further on, so that none of the turns in which cases are made keeps step with it.
fn is_in_places(index: u64) -> bool {
    (index + index / PLACES_ONE_IN) % PLACES_ONE_IN == 0
}

fn in_places(index: u64, case: &mut Case) {
    if let Case::Line { places, .. } = case {
        *places |= is_in_places(index);
    }
}

/// Chance of its own for each case.
fn rng(seed: u64, index: u64) -> Rng {
    Rng(seed ^ index.wrapping_mul(0xd134_2543_de82_ef95))
}

pub struct Maker {
    seed: u64,
    boundaries: Vec<Sheet>,
}

impl Maker {
    pub fn new(seed: u64) -> Maker {
        Maker { seed, boundaries: cases::all(seed).into_iter().map(|case| case.sheet).collect() }
    }

    /// The place of its kind, and the case.
    pub fn case(&self, index: u64) -> (usize, Case) {
        let turn = (index % TURNS.len() as u64) as usize;
        let kind = TURNS[turn];
        let of_kind = |turns: &[usize]| turns.iter().filter(|other| **other == kind).count() as u64;
        let nth = index / TURNS.len() as u64 * of_kind(&TURNS) + of_kind(&TURNS[..turn]);
        let mut rng = rng(self.seed, index);
        let mut case = match kind {
            0 => line(&mut rng, short::template(self.seed, nth), short::record(nth)),
            1 => long_template(&mut rng),
            2 => record(&mut rng),
            3 => Case::Sheet(sheets::sheet(&mut rng)),
            4 => self.boundary(&mut rng, nth as usize),
            5 => Case::BuiltIn(built_in(&mut rng, nth)),
            6 => Case::Text(texts::text(&mut rng)),
            7 => with_letters(&mut rng),
            8 => strictly(&mut rng),
            9 => with_heads(&mut rng),
            PLACES => places::case(&mut rng),
            _ => reports::case(&mut rng),
        };
        in_places(index, &mut case);
        (kind, case)
    }

    /// First the stored list's cases as they are; then their templates with other records and their records with other
    /// templates.
    fn boundary(&self, rng: &mut Rng, nth: usize) -> Case {
        let sheet = &self.boundaries[nth % self.boundaries.len()];
        match (nth / self.boundaries.len(), sheet.records.first()) {
            (0, _) => Case::Sheet(sheet.write()),
            (round, Some(first)) if round % 2 == 0 => {
                let template = crossed::template(rng);
                line(rng, template, first.write(sheet.layout()))
            }
            _ => {
                let record = any_record(rng);
                line(rng, sheet.template.clone(), record)
            }
        }
    }
}

fn line(rng: &mut Rng, template: Vec<u8>, record: Vec<u8>) -> Case {
    Case::Line { template, record, unknown: *rng.pick(UNKNOWN), places: false }
}

/// Of every shape, in either layout.
fn any_record(rng: &mut Rng) -> Vec<u8> {
    let layout = heads::layout(rng);
    records::record(rng, layout)
}

/// In either layout, and mostly not refused.
fn right_record(rng: &mut Rng) -> Vec<u8> {
    let mut record = rng.record();
    if rng.one_in(REPORT_ONE_IN) {
        record.message = rng.report();
    }
    heads::written(rng, record)
}

fn long_template(rng: &mut Rng) -> Case {
    let template = crossed::template(rng);
    let record = right_record(rng);
    line(rng, template, record)
}

fn with_letters(rng: &mut Rng) -> Case {
    let template = letters::template(rng);
    let record = right_record(rng);
    line(rng, template, record)
}

/// 17 comes before whatever is wrong with the record.
fn strictly(rng: &mut Rng) -> Case {
    let template = strict::template(rng);
    let record = if rng.one_in(4) { any_record(rng) } else { right_record(rng) };
    line(rng, template, record)
}

fn with_heads(rng: &mut Rng) -> Case {
    let template = heads::template(rng);
    let record = if rng.one_in(4) { any_record(rng) } else { right_record(rng) };
    line(rng, template, record)
}

/// A record of every shape and a template that is mostly read; a few lines of millions of bytes.
fn record(rng: &mut Rng) -> Case {
    if rng.one_in(8000) {
        return swollen(rng);
    }
    let depth = 1 + rng.below(3);
    let template = match rng.below(8) {
        0 => rng.pick(WIDE).to_string(),
        1 => {
            let whole = rng.template(depth);
            rng.headed(&whole)
        }
        _ => rng.template(depth),
    };
    let record = any_record(rng);
    line(rng, template.into_bytes(), record)
}

/// Groups in groups, each of which puts its prefix behind every reset of the message once more.
fn swollen(rng: &mut Rng) -> Case {
    let mut template = "{s}".repeat(1 + rng.below(8));
    for _ in 0..rng.below(7) {
        template = format!("{{{{L}}{template}%red%bold%underline%italic%strike}}");
    }
    let record = Record { level: 1, message: b"\x1b[0m".repeat(1024), ..Record::default() };
    let record = heads::written(rng, record);
    line(rng, template.into_bytes(), record)
}

/// All sixteen choices, then other bytes than 1 for yes.
fn built_in(rng: &mut Rng, nth: u64) -> [u8; 4] {
    if nth < 16 {
        return [8, 4, 2, 1].map(|bit| u8::from(nth & bit != 0));
    }
    [(); 4].map(|()| if rng.one_in(2) { 0 } else { rng.below(256) as u8 })
}
