//! Records of both layouts, with and without the serial of a head; and templates in which `d` is tried as a name or nearly is,
//! of chance and systematically.

use super::crossed::{put_before, put_behind};
use super::tokens::Templates;
use crate::examples::heads::{GIVEN_BACK, LIMITS, PARTED, STRICTLY};
use crate::sample::random::Rng;
use crate::sheet::{Layout, Record, HEAD};

/// In either layout.
pub fn written(rng: &mut Rng, mut record: Record) -> Vec<u8> {
    let layout = layout(rng);
    give(rng, layout, &mut record);
    record.write(layout)
}

pub fn layout(rng: &mut Rng) -> Layout {
    Layout::BOTH[rng.below(2)]
}

/// In the new layout mostly a serial.
pub fn give(rng: &mut Rng, layout: Layout, record: &mut Record) {
    if layout == Layout::New && !rng.one_in(4) {
        record.head = rng.record_with(HEAD).head;
        record.mask |= HEAD;
    }
}

/// In the layouts in turn, and in the new one mostly with a serial.
pub fn in_turn(turn: u64, mut record: Record) -> Vec<u8> {
    let layout = Layout::BOTH[(turn % 2) as usize];
    if layout == Layout::New && turn % 8 != 1 {
        record.head = b"H-07".to_vec();
        record.mask |= HEAD;
    }
    record.write(layout)
}

/// On both sides of 32 bytes and of nothing, mostly UTF-8.
pub fn serial(rng: &mut Rng) -> Vec<u8> {
    let size = *rng.pick(&[&0, &1, &2, &31, &32, &32, &33, &33, &34, &64, &4096, &4097]);
    let piece = rng.pick(&["H", "é", "漢", "\x1b[0m", "::", "/"]).as_bytes();
    let mut serial = piece.repeat(size / piece.len());
    serial.resize(size, b'7');
    if rng.one_in(4) && size > 0 {
        let at = rng.below(size);
        serial[at] = *rng.pick(&[&0x80, &0xc3, &0xed, &0xff]);
    }
    serial
}

/// Behind a brace or a separator: the name, and what nearly is it.
const NAMES: &[&str] =
    &["d", "d", "d:", "d%", "d ", "d:red", "d:>9%bold", "d{L}", "d{s}", "d:d", "s:d", "dd", "dé", "D", "d\\", "df"];

/// Before a closing brace.
const ENDS: &[&str] = &[":d", "%d", " d", ":d:red", "%d%red", "{d}", "{d:9}", ":d{L}", "{x{d}}", "d"];

pub fn template(rng: &mut Rng) -> Vec<u8> {
    let depth = 1 + rng.below(5);
    let mut template = match rng.below(6) {
        0 => (*rng.pick(&examples().iter().collect::<Vec<_>>())).to_string(),
        1 => rng.tower(depth),
        2 => rng.soup(),
        _ => rng.template(depth),
    };
    for _ in 0..1 + rng.below(3) {
        template = match rng.below(6) {
            0..=2 => rng.headed(&template),
            3 => {
                let text = rng.pick(NAMES);
                put_behind(rng, template, &['{', ':', '%'], text)
            }
            4 => {
                let text = rng.pick(ENDS);
                put_before(rng, template, '}', text)
            }
            _ => rng.damaged(&template),
        };
    }
    template.into_bytes()
}

/// Every string of up to four of these tokens: the name by itself, in a brace and before what it would be a text of.
pub const TEMPLATES: Templates = Templates {
    tokens: &["{", "}", ":", "%", "\\", "d", "{d", "{d}", "{s}", "{L}", "s", "L", "bold", "7", "x", " ", "{x", "é"],
    longest: 4,
    places: &[
        ("", ""),
        ("{s}", ""),
        ("{", "}{s}"),
        ("{d", "}{s}"),
        ("{s:", "}"),
        ("{x{", "}}{s}"),
        ("{x{d", "}}{s}"),
        ("{x{L:d", "}}{s}"),
        ("{x{L%", "}}{s}"),
        ("{[{s}]", "}"),
    ],
    examples,
};

fn examples() -> Vec<&'static str> {
    let parted = PARTED.iter().chain(GIVEN_BACK).map(|example| example.0);
    parted.chain(LIMITS.iter().map(|example| example.0)).chain(STRICTLY.iter().map(|example| example.0)).collect()
}
