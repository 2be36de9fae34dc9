//! Whole sheets, half of them damaged.

use super::{crossed, heads, places, records, strict};
use crate::sample::random::Rng;
use crate::sheet::{write_bodies, Layout, Record, Sheet, PLACES};

/// Refusal 15 above it.
const MOST: usize = 65536;

pub fn sheet(rng: &mut Rng) -> Vec<u8> {
    if rng.one_in(60) {
        return large(rng);
    }
    let bodies = bodies(rng);
    match rng.below(6) {
        0 | 1 => write_bodies(&damaged_bodies(rng, bodies)),
        2 => damaged(rng, write_bodies(&bodies)),
        _ => write_bodies(&bodies),
    }
}

/// Settings and template, then up to three records, now and then in the other layout.
fn bodies(rng: &mut Rng) -> Vec<Vec<u8>> {
    let template = match rng.below(6) {
        0 => crossed::template(rng),
        1 => strict::template(rng),
        2 => heads::template(rng),
        3 => places::template(rng).into_bytes(),
        _ => rng.template(2).into_bytes(),
    };
    let settings = any_settings(rng);
    let mut bodies = vec![[&[settings], &template[..]].concat()];
    for _ in 0..rng.below(4) {
        let layout = if rng.one_in(40) { heads::layout(rng) } else { Layout::of(settings) };
        let wide = settings & PLACES != 0 && rng.one_in(2);
        bodies.push(if wide { places::record(rng, layout).write(layout) } else { records::record(rng, layout) });
    }
    bodies
}

/// Of all that are known; a fifth in the places rule.
fn any_settings(rng: &mut Rng) -> u8 {
    let rule = if rng.one_in(5) { PLACES } else { 0 };
    rule | rng.below(16) as u8
}

fn damaged_bodies(rng: &mut Rng, mut bodies: Vec<Vec<u8>>) -> Vec<Vec<u8>> {
    let any = rng.below(bodies.len());
    match rng.below(6) {
        0 => bodies[0][0] = rng.below(256) as u8,
        1 => bodies[0].clear(),
        2 => drop(bodies.remove(any)),
        3 => bodies[any].push(0),
        4 => drop(bodies[any].pop()),
        _ => bodies.swap(0, any),
    }
    bodies
}

/// Cut short, made longer, or with one byte changed, mostly in the contents.
fn damaged(rng: &mut Rng, mut sheet: Vec<u8>) -> Vec<u8> {
    let near = sheet.len().min(24);
    let size = if rng.one_in(3) { sheet.len() } else { near };
    let at = rng.below(size);
    match rng.below(5) {
        0 => sheet.truncate(at),
        1 => sheet.extend(vec![b'x'; 1 + rng.below(3)]),
        2 => sheet[at] = sheet[at].wrapping_add(1),
        3 => sheet[at] = sheet[at].wrapping_sub(1),
        _ => sheet[at] = rng.below(256) as u8,
    }
    sheet
}

/// At the size of a sheet, at the size of the program's buffer, or at the widest that Rust's formatter takes.
fn large(rng: &mut Rng) -> Vec<u8> {
    let settings = any_settings(rng);
    let many = "{s}".repeat(15 + rng.below(3));
    let (template, records) = match rng.below(3) {
        0 => ("{s}".to_string(), filling(rng, settings)),
        1 => (many + rng.pick(&["", "x", "{s:9}"]), vec![saying(vec![b'm'; 4094 + rng.below(4)]), saying(vec![])]),
        _ => (format!("{{{many}}}"), vec![saying(b"\x1b[0m".repeat(1023 + rng.below(2)))]),
    };
    Sheet { settings, template: template.into_bytes(), records }.write()
}

fn saying(message: Vec<u8>) -> Record {
    Record { level: 1, message, ..Record::default() }
}

/// Records with which a sheet of `{s}` has one byte less than it may, as many, or one more.
fn filling(rng: &mut Rng, settings: u8) -> Vec<Record> {
    let mut records = vec![saying(vec![b'm'; 4096]); 15];
    records.push(saying(vec![]));
    let sheet = Sheet { settings, template: b"{s}".to_vec(), records: records.clone() };
    records[15].message = vec![b'm'; MOST - sheet.write().len() - 1 + rng.below(3)];
    records
}
