//! Templates of chance: nested to depth 10, soups, damaged ones; and every limit crossed, or nearly.

use super::edges;
use crate::sample::random::Rng;

const WIDTHS: &[&str] = &["512", "513", "<512", ">513", "^0512", "000513", "65536", "18446744073709551616"];
const LETTERS: &[&str] = &["é", "→", "\u{212a}", "\u{80}", "𝄞"];

pub fn template(rng: &mut Rng) -> Vec<u8> {
    let template = match rng.below(8) {
        0 => {
            let depth = 1 + rng.below(10);
            rng.tower(depth)
        }
        1 | 2 => rng.soup(),
        3 | 4 => {
            let whole = any_depth(rng);
            rng.damaged(&whole)
        }
        _ => any_depth(rng),
    };
    if rng.one_in(3) {
        crossed(rng, template)
    } else {
        template.into_bytes()
    }
}

fn any_depth(rng: &mut Rng) -> String {
    let depth = if rng.one_in(6) { 5 + rng.below(6) } else { 2 + rng.below(3) };
    rng.template(depth)
}

fn crossed(rng: &mut Rng, template: String) -> Vec<u8> {
    let template = match rng.below(8) {
        0 => {
            let separator = rng.pick(&[":", "%"]);
            let width = [separator, rng.pick(WIDTHS)].concat();
            put_before(rng, template, '}', &width)
        }
        1 => {
            let many = "f".repeat(254 + rng.below(4));
            put_behind(rng, template, &['{', ':', '%'], &many)
        }
        2 => sized(rng, template),
        3 => segmented(rng, template),
        4 => deepened(rng, template),
        5 => put_behind(rng, template, &['{', '}', 's', '\\'], "\\") + rng.pick(&["", "\\", "{\\"]),
        6 => {
            let letter = rng.pick(LETTERS);
            put_behind(rng, template, &['s', 'L', 'd', 't', 'f'], letter)
        }
        _ => return edged(rng, template),
    };
    template.into_bytes()
}

/// At one of the places of `marks`, or at the front where there are none.
fn put_at(rng: &mut Rng, mut template: String, places: Vec<usize>, text: &str) -> String {
    let at = if places.is_empty() { 0 } else { places[rng.below(places.len())] };
    template.insert_str(at, text);
    template
}

pub fn put_before(rng: &mut Rng, template: String, mark: char, text: &str) -> String {
    let places = template.match_indices(mark).map(|(at, _)| at).collect();
    put_at(rng, template, places, text)
}

pub fn put_behind(rng: &mut Rng, template: String, marks: &[char], text: &str) -> String {
    let places = template.match_indices(marks).map(|(at, mark)| at + mark.len()).collect();
    put_at(rng, template, places, text)
}

/// 1,022 to 1,026 bytes.
fn sized(rng: &mut Rng, template: String) -> String {
    let size = 1022 + rng.below(5);
    let fill = "x".repeat(size.saturating_sub(template.len()));
    if rng.one_in(2) {
        fill + &template
    } else {
        template + &fill
    }
}

/// About as many segments as there may be.
fn segmented(rng: &mut Rng, template: String) -> String {
    let piece = rng.pick(&["{s}", "{L:0}x", "{:{s}}", "{({l})%bold}", "{x{s}{L%bold}}"]);
    let made = piece.matches(|c: char| c.is_ascii_alphabetic() || c == '(').count().min(3);
    let pieces = piece.repeat((50 + rng.below(18)) / made);
    if rng.one_in(4) {
        format!("{{{pieces}%dimmed}}{template}")
    } else {
        pieces + &template
    }
}

fn deepened(rng: &mut Rng, mut template: String) -> String {
    for _ in 0..4 + rng.below(6) {
        template = ["{a", rng.pick(&["{L}", "{t:3}", ""]), &template, "}"].concat();
    }
    template
}

fn edged(rng: &mut Rng, template: String) -> Vec<u8> {
    let mut bytes = template.into_bytes();
    let at = rng.below(bytes.len() + 1);
    bytes.splice(at..at, edges::character(rng));
    bytes
}
