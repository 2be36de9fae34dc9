//! The two rules for counting (document 02, E14) beside each other: what a line takes in either.

use super::timing::{all_in_turn, shown, Works, FINE};
use super::{built_ins, gauge};
use crate::sheet::{Layout, Record, COLOUR, PLACES, STRAIGHT};
use pralakuon::entries;
use std::hint::black_box;

/// The template of samples/wall.sheet.
const WALL: &str = "{t:>12} {[{L}]%bold%<9}|{gauge {c:>8}: {s:>24}%dimmed%40}| {ff:>20}:{l}";

const MODES: [(&str, u8); 3] = [("plain", 0), ("coloured", COLOUR), ("straight", COLOUR | STRAIGHT)];

struct Row {
    name: String,
    mode: &'static str,
    settings: u8,
    template: &'static str,
    record: Vec<u8>,
    /// Bytes of the message.
    length: usize,
}

pub fn run() {
    println!(
        "| one line without a wide character | setting | by characters, ns | by places, ns | places / characters |"
    );
    println!("|---|---|---|---|---|");
    let templates = built_ins().chain([WALL]);
    let narrow = templates.flat_map(|template| in_modes(format!("`{}`", template.escape_debug()), template, gauge()));
    for (Row { name, mode, .. }, characters, places) in timed(&narrow.collect::<Vec<_>>()) {
        let ratio = shown(places / characters);
        println!("| {name} | {mode} | {} | {} | {ratio} |", shown(characters), shown(places));
    }
    println!();
    println!(
        "| message, by the template of `samples/wall.sheet` | setting | by characters, ns | by places, ns \
         | places / characters | what places add, ns for a byte of the message |\n|---|---|---|---|---|---|"
    );
    let saying = |piece: &str| Record { message: piece.repeat(50).into_bytes(), ..gauge() };
    let fifty = ["壁", "😀", "é", "x"].map(|piece| in_modes(format!("50 `{piece}`"), WALL, saying(piece)));
    for (Row { name, mode, length, .. }, characters, places) in timed(&fifty.into_iter().flatten().collect::<Vec<_>>())
    {
        println!(
            "| {name} | {mode} | {} | {} | {} | {} |",
            shown(characters),
            shown(places),
            shown(places / characters),
            shown((places - characters) / *length as f64)
        );
    }
    println!();
}

fn in_modes(name: String, template: &'static str, record: Record) -> [Row; 3] {
    MODES.map(|(mode, settings)| {
        let (name, length) = (name.clone(), record.message.len());
        Row { name, mode, settings, template, record: record.write(Layout::Old), length }
    })
}

/// Nanoseconds by characters and by places. Where they differ by little, many short rounds tell it better than a few long ones.
fn timed(rows: &[Row]) -> impl Iterator<Item = (&Row, f64, f64)> {
    let works = |row| -> Works<2> { [Box::new(line(row, 0)), Box::new(line(row, PLACES))] };
    let times = all_in_turn(rows.iter().map(works).collect(), FINE);
    rows.iter().zip(times).map(|(row, [characters, places])| (row, characters, places))
}

/// A call for a line: the time of a refusal would say nothing.
fn line(row: &Row, rule: u8) -> impl FnMut() -> u64 + '_ {
    let mut out = [0; 1024];
    let settings = row.settings | rule;
    let mut call =
        move || entries::line(black_box(row.template.as_bytes()), settings, black_box(&row.record), &mut out);
    assert_eq!(entries::refusal_of(call()), 0, "a line by {}", row.template);
    call
}
