//! Texts, records and templates in which padding meets wide characters, and what is nearly one; and every character of
//! Unicode in a padded message.

use super::{any_record, Case, REPORT_ONE_IN, UNKNOWN};
use crate::ruling::wide;
use crate::sample::random::{Rng, SPECIFIERS, STYLES};
use crate::sheet::{Layout, Record, Sheet, FILE, HEAD, LINE, MODULE, PLACES};

/// Alone, and in a padded group round a colour.
pub const TEMPLATE: &str = "{s:3}|{[{s:red}]%bold%9}|";

/// Japanese, Chinese, Korean, fullwidth, emoji; marks and a filler that most screens give no place; unassigned ones among
/// them.
const WIDE: &[&str] = &[
    "壁",
    "測定",
    "クラック",
    "の",
    "。",
    "墙体",
    "벽",
    "ᄀ",
    "Ａ",
    "￥",
    "😀",
    "🦀",
    "⌚",
    "⚡",
    "\u{302a}",
    "\u{3099}",
    "\u{16ff0}",
    "\u{3164}",
    "\u{3000}",
    "\u{4dc0}",
    "\u{fa6e}",
    "\u{20000}",
    "\u{2fffd}",
    "\u{3fffd}",
];

/// ASCII, halfwidth, ambiguous, marks, a joiner, a regional indicator, symbols beside emoji, no characters yet.
const NARROW: &[&str] = &[
    "a",
    "B3",
    "0.4",
    " ",
    "ｶ",
    "ﾞ",
    "￨",
    "é",
    "→",
    "±",
    "①",
    "Ω",
    "└",
    "\u{301}",
    "\u{200d}",
    "\u{fe0f}",
    "\u{1f1ef}",
    "\u{1160}",
    "\u{303f}",
    "☺",
    "𝄞",
    "\u{e000}",
    "\u{10ffff}",
];

/// Colour sequences, whole and broken, and what splits paths and modules.
const MARKS: &[&str] = &["\x1b[0m", "\x1b[0m", "\x1b[1;31m", "\x1b[m", "\x1b[", "\x1b", "0m", "m", "/", "::", "."];

/// A message.
pub fn saying(character: char) -> Record {
    Record { level: 3, message: character.to_string().into_bytes(), ..Record::default() }
}

/// One of eight is a sheet in the places rule, the others are compared in both rules.
pub fn case(rng: &mut Rng) -> Case {
    let template = template(rng);
    if rng.one_in(8) {
        let settings = PLACES | rng.below(16) as u8;
        let records = (0..1 + rng.below(3)).map(|_| record(rng, Layout::of(settings))).collect();
        return Case::Sheet(Sheet { settings, template: template.into_bytes(), records }.write());
    }
    let record = if rng.one_in(10) {
        any_record(rng)
    } else {
        let layout = Layout::BOTH[rng.below(2)];
        record(rng, layout).write(layout)
    };
    Case::Line { template: template.into_bytes(), record, unknown: *rng.pick(UNKNOWN), places: true }
}

/// Mostly with all texts, which mostly have such characters.
pub fn record(rng: &mut Rng, layout: Layout) -> Record {
    let mask = if rng.one_in(4) { rng.below(8) as u8 } else { FILE | LINE | MODULE };
    let mut record = rng.record_with(mask);
    let mut put = |field: &mut Vec<u8>| {
        if !rng.one_in(4) {
            *field = text(rng).into_bytes();
        }
    };
    put(&mut record.message);
    put(&mut record.timestamp);
    if mask & FILE != 0 {
        put(&mut record.file);
    }
    if mask & MODULE != 0 {
        put(&mut record.module);
    }
    if rng.one_in(REPORT_ONE_IN) {
        record.message = rng.report();
    }
    if layout == Layout::New && !rng.one_in(4) {
        record.mask |= HEAD;
        record.head = serial(rng);
    }
    record
}

/// Not more than the 32 bytes that it may have.
fn serial(rng: &mut Rng) -> Vec<u8> {
    let mut serial = text(rng);
    while serial.len() > 32 {
        serial.pop();
    }
    serial.into_bytes()
}

/// One character at the edge of a range, or some pieces; now and then so many that any place in a block is met.
fn text(rng: &mut Rng) -> String {
    match rng.below(40) {
        0..=9 => edge(rng),
        10..=12 => {
            let before = filling(rng);
            before + &pieces(rng) + &filling(rng)
        }
        _ => pieces(rng),
    }
}

fn pieces(rng: &mut Rng) -> String {
    (0..rng.below(8)).map(|_| piece(rng)).collect()
}

fn piece(rng: &mut Rng) -> String {
    match rng.below(9) {
        0..=3 => rng.pick(WIDE).to_string(),
        4 | 5 => rng.pick(NARROW).to_string(),
        6 => edge(rng),
        _ => rng.pick(MARKS).to_string(),
    }
}

fn filling(rng: &mut Rng) -> String {
    let count = rng.below(140);
    rng.pick(&["x", "x", "é", "壁", "ｶ", "😀"]).repeat(count)
}

/// The first or the last of a range, or the character before it or behind it.
fn edge(rng: &mut Rng) -> String {
    let ranges: Vec<(u32, u32)> = wide::ranges().collect();
    let (first, last) = ranges[rng.below(ranges.len())];
    let point = [first - 1, first, last, last + 1][rng.below(4)];
    char::from_u32(point).expect("no range ends at a surrogate").to_string()
}

/// Of chance, with such characters in its texts.
pub fn template(rng: &mut Rng) -> String {
    let mut items: Vec<String> = (0..1 + rng.below(3)).map(|_| brace(rng, 4)).collect();
    if rng.one_in(3) {
        items.push(plain(rng));
    }
    if !items.concat().contains("{s") {
        items.push(specifier(rng, "s"));
    }
    rng.shuffle(&mut items);
    let template = items.concat() + "|";
    if rng.one_in(12) {
        return rng.damaged(&template);
    }
    template
}

fn brace(rng: &mut Rng, depth: usize) -> String {
    if depth <= 1 || rng.one_in(2) {
        return any_specifier(rng);
    }
    let mut members = vec![any_specifier(rng)];
    for _ in 0..1 + rng.below(3) {
        members.push(match rng.below(5) {
            0..=2 => plain(rng),
            _ => brace(rng, depth - 1),
        });
    }
    rng.shuffle(&mut members);
    // A group begins with a text that is no name.
    format!("{{{}{}{}}}", rng.pick(&["[", "壁", "(", "ｶ:", "\x1b["]), members.concat(), parameters(rng, '%'))
}

fn any_specifier(rng: &mut Rng) -> String {
    let name = match rng.below(4) {
        0 | 1 => "s",
        2 => "d",
        _ => rng.pick(SPECIFIERS),
    };
    specifier(rng, name)
}

fn specifier(rng: &mut Rng, name: &str) -> String {
    format!("{{{name}{}}}", parameters(rng, ':'))
}

/// A text of a template, which ends before a brace or a percent sign.
fn plain(rng: &mut Rng) -> String {
    (0..1 + rng.below(3)).map(|_| piece(rng)).collect()
}

/// Mostly a width, of up to 20 places, beside a colour and a style.
fn parameters(rng: &mut Rng, separator: char) -> String {
    let mut words = Vec::new();
    if !rng.one_in(6) {
        let sign = rng.pick(&["", "<", "^", ">"]);
        let zero = rng.pick(&["", "", "0"]);
        words.push(format!("{sign}{zero}{}", rng.below(21)));
    }
    if rng.one_in(3) {
        words.push(rng.colour());
    }
    if rng.one_in(4) {
        words.push(rng.pick(STYLES).to_string());
    }
    rng.shuffle(&mut words);
    words.into_iter().map(|word| format!("{separator}{word}")).collect()
}
