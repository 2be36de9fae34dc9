//! The port through its C entries and the crate, side by side in one process, over as many cases as are asked for.

mod calls;
pub(crate) mod case;
mod found;
mod heads;
mod lent;
mod listed;
mod make;
mod places;
mod reports;
mod ruled;

use crate::judge;
use crate::stream::side_by_side;
use case::{Case, Seen};
use found::Found;
use make::Maker;
use std::ops::Range;

pub const SEED: u64 = 1;

/// Cases that are compared under one colour before the other has its turn: the crate's switch is one for all threads.
const BATCH: u64 = 8192;

/// Cases that are handed to a thread as one: few enough that all threads end together.
const SHARE: u64 = 64;

/// Cases after which a word is said, so that a long run is seen to go on.
const PROGRESS: u64 = 1_000_000;

/// True where nothing parts but what is listed.
pub fn run(count: u64, seed: u64) -> bool {
    let maker = Maker::new(seed);
    run_over(count, |index| maker.case(index))
}

/// The same over every path of a few tokens.
pub fn run_paths() -> bool {
    run_over(make::path_count(), make::path_case)
}

/// The same over every four bytes at the edges of UTF-8.
pub fn run_bytes() -> bool {
    run_over(make::byte_count(), make::byte_case)
}

/// The same over every character in four places of a template.
pub fn run_letters() -> bool {
    run_over(make::letter_count(), make::letter_case)
}

/// The same over templates that leave something unused or nearly do.
pub fn run_strict() -> bool {
    run_over(make::strict_count(), make::strict_case)
}

/// The same over templates in which `d` is tried as a name or nearly is.
pub fn run_heads() -> bool {
    run_over(make::head_count(), make::head_case)
}

/// The same over every character in a padded message.
pub fn run_wide() -> bool {
    run_over(make::wide_count(), make::wide_case)
}

/// The same over cases of chance in which padding meets wide characters.
pub fn run_places(count: u64, seed: u64) -> bool {
    run_over(count, |index| make::places_case(seed, index))
}

/// The same over cases of chance with comparison reports, and what is nearly one.
pub fn run_reports(count: u64, seed: u64) -> bool {
    run_over(count, |index| make::report_case(seed, index))
}

fn run_over(count: u64, case: impl Fn(u64) -> (usize, Case) + Sync) -> bool {
    let mut found = Found::default();
    for batch in in_steps(0..count, BATCH) {
        let shares = in_steps(batch.clone(), SHARE);
        for colour in [false, true] {
            judge::set_colour(colour);
            for part in side_by_side(&shares, |share| compare(&case, share.clone(), colour)) {
                found.add(part);
            }
        }
        if batch.start / PROGRESS < batch.end / PROGRESS {
            eprintln!("{} of {count} cases", batch.end / PROGRESS * PROGRESS);
        }
    }
    found.print(count)
}

fn in_steps(range: Range<u64>, step: u64) -> Vec<Range<u64>> {
    let end = range.end;
    range.step_by(step as usize).map(|from| from..(from + step).min(end)).collect()
}

fn compare(case: &impl Fn(u64) -> (usize, Case), share: Range<u64>, colour: bool) -> Found {
    let mut found = Found::default();
    for index in share {
        let (kind, case) = case(index);
        let more = 1 + (index % 61) as usize;
        let mut seen = Seen::default();
        if let Err(parting) = case.compare(colour, more, &mut seen) {
            found.part(index, format!("{}, {parting}\n{case}", make::KINDS[kind]));
        }
        if !colour {
            found.count_kind(kind);
        }
        found.count(&seen);
    }
    found
}
