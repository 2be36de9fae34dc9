//! Comparison reports, and what is nearly one, by templates with groups around the message.

use super::{places, UNKNOWN};
use crate::compare::case::Case;
use crate::sample::random::{Rng, STYLES};
use crate::sheet::{Layout, Record, Sheet, DEVICE, HOST};

/// Alone, with parameters that are not for a layout, twice, and in groups that insert and pad, or do one of both.
const TEMPLATES: &[&str] = &[
    "{s}",
    "{s:>90:red:bold}|",
    "{t} {[{L}]%bold} {s} {({c:bold} {fff}:{l:1})%dimmed}",
    "{L} {s}\n└─ {m} @ {F}:{l}",
    "{s}{s:9}|",
    "{[{s}]%red}|",
    "{[{s}]%>70}|",
    "{{s}%bold%90}|",
    "{[{s}{L}]%severity%^120}|",
    "{x{y{s}%red%70}%bold%^099}|",
    "{\x1b[{s}x%italic%60}|",
    "{{s}\x1b[%80}0m|",
    "\x1b[{s}0m",
    "{d} {s}",
    "{壁{s}%werror%<75}|",
];

pub fn case(rng: &mut Rng) -> Case {
    let template = template(rng).into_bytes();
    if rng.one_in(8) {
        let settings = rng.below(32) as u8;
        let records = (0..1 + rng.below(3)).map(|_| record(rng, Layout::of(settings))).collect();
        return Case::Sheet(Sheet { settings, template, records }.write());
    }
    let layout = Layout::BOTH[rng.below(2)];
    let record = record(rng, layout).write(layout);
    Case::Line { template, record, unknown: *rng.pick(UNKNOWN), places: false }
}

/// Mostly a device's, and now and then a print without level.
fn record(rng: &mut Rng, layout: Layout) -> Record {
    let mask = rng.below(8) as u8;
    let mut record = Record { source: DEVICE, ..rng.record_with(mask) };
    super::heads::give(rng, layout, &mut record);
    match rng.below(16) {
        0 => (record.source, record.level) = (HOST, record.level.max(1)),
        1 | 2 => record.level = 0,
        _ => {}
    }
    record.message = rng.report();
    record
}

fn template(rng: &mut Rng) -> String {
    match rng.below(8) {
        0..=2 => rng.pick(TEMPLATES).to_string(),
        3 => {
            let depth = 1 + rng.below(4);
            rng.template(depth)
        }
        4 => places::template(rng),
        _ => around(rng),
    }
}

/// Up to three groups around the message, about as wide as what they hold; each has a specifier of its own.
fn around(rng: &mut Rng) -> String {
    let mut template = "{s}".to_string();
    for own in &["", "{L:0}", "{t}"][..1 + rng.below(3)] {
        let text = rng.pick(&["", "[", "壁", "x\x1b["]);
        template = format!("{{{text}{own}{template}{}}}", looks(rng));
    }
    template + "|"
}

fn looks(rng: &mut Rng) -> String {
    let mut words = Vec::new();
    if !rng.one_in(4) {
        words.push([rng.pick(&["", "<", "^", ">", "^0"]), &rng.below(200).to_string()].concat());
    }
    if rng.one_in(2) {
        words.push(rng.colour());
    }
    if rng.one_in(3) {
        words.push(rng.pick(STYLES).to_string());
    }
    words.into_iter().map(|word| format!("%{word}")).collect()
}
