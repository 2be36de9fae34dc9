//! Times of the port and of the crate, taken in turn in one run, as the tables of docs/SPEED.md.

mod growth;
mod places;
mod stack;
mod texts;
mod timing;

use crate::judge::set_colour;
use crate::ruling::line::without_sequences;
use crate::sheet::{Layout, Record, COLOUR, FILE, HEAD, HEADS, LINE, MODULE, STRAIGHT, STRICT};
use crate::stub::format::{built_in, Template};
use crate::stub::{DefmtRecord, Payload};
use crate::VERSIONS;
use pralakuon::entries;
use std::env::consts::ARCH;
use std::hint::black_box;
use timing::{all_in_turn, in_turn, shown, Works, USUAL};

const FILE_NAME: &str = "/srv/scan/firmware/src/gauge.rs";
const MODULE_PATH: &str = "firmware::gauge::measure";
const TIMESTAMP: &str = "0.002500";
const MESSAGE: &str = "wall B3 crack 0.412 mm";
const LINE_NUMBER: u32 = 118;

/// A name that is tried as one and is none, in ASCII and with letters beyond it; and such letters where no name is tried.
const NAMED: [&str; 4] =
    ["{Temperature {L}%bold} {s}", "{Température {L}%bold} {s}", "{測定値 {L}%bold} {s}", "{t} Température: {s}"];

/// Frames of a scan in a second.
const RATE: f64 = 400.0;

pub fn run() {
    println!("Run on {ARCH} with {VERSIONS}.\n");
    reading();
    lines();
    places::run();
    visible();
    texts::run();
    growth::run();
    stack::run();
}

/// A record of the wall scan.
fn gauge() -> Record {
    Record {
        level: 3,
        mask: FILE | LINE | MODULE,
        line: LINE_NUMBER,
        file: FILE_NAME.into(),
        module: MODULE_PATH.into(),
        timestamp: TIMESTAMP.into(),
        message: MESSAGE.into(),
        ..Record::default()
    }
}

/// The same record, in the new layout with a serial, which no built-in shows.
fn measured(layout: Layout) -> Vec<u8> {
    match layout {
        Layout::Old => gauge().write(layout),
        Layout::New => Record { mask: gauge().mask | HEAD, head: b"H-07".to_vec(), ..gauge() }.write(layout),
    }
}

/// The same record as the crate is given it.
fn crates_line(template: &Template) -> String {
    let payload = Payload { level: Some(log::Level::Info), timestamp: TIMESTAMP.to_string() };
    let mut builder = log::Record::builder();
    builder.file(Some(FILE_NAME)).line(Some(LINE_NUMBER)).module_path(Some(MODULE_PATH));
    template.device_line(&DefmtRecord { log_record: &builder.args(format_args!("{MESSAGE}")).build(), payload })
}

fn built_ins() -> impl Iterator<Item = &'static str> {
    (0..8).map(|n| built_in(n & 4 != 0, n & 2 != 0, n & 1 != 0))
}

/// In the first edition, beside the crate, and in the strict edition beside the first.
fn reading() {
    println!("| reading | crate, ns | port, ns | crate / port | port, strict, ns | strict / first |\n|---|---|---|---|---|---|");
    for template in built_ins().chain(NAMED) {
        let crates = || Template::read(black_box(template)).is_ok();
        let ports = |settings| move || entries::check(black_box(template.as_bytes()), settings);
        assert_eq!((crates(), ports(0)(), ports(STRICT)()), (true, 0, 0), "{template} is read");
        let works: Works<3> = [Box::new(crates), Box::new(ports(0)), Box::new(ports(STRICT))];
        let [theirs, ours, strict] = all_in_turn(vec![works], USUAL)[0];
        println!(
            "| `{}` | {} | {} | {} | {} | {} |",
            template.escape_debug(),
            shown(theirs),
            shown(ours),
            shown(theirs / ours),
            shown(strict),
            shown(strict / ours)
        );
    }
    println!();
}

/// The crate formats by a template that it has read before; the port reads the template in each call.
fn lines() {
    println!("| one line | setting | crate's `format`, ns | port, ns | crate / port | {RATE} a second |");
    println!("|---|---|---|---|---|---|");
    let settings = [("plain", 0), ("coloured", COLOUR), ("straight", COLOUR | STRAIGHT), ("plain, with a head", HEADS)];
    for template in built_ins() {
        let read = Template::read(template).ok().expect("a built-in is read");
        for (name, settings) in settings {
            set_colour(settings & COLOUR != 0);
            let record = measured(Layout::of(settings));
            let mut out = [0; 1024];
            let mut ports = || entries::line(black_box(template.as_bytes()), settings, black_box(&record), &mut out);
            let answer = ports();
            assert_eq!(entries::refusal_of(answer), 0, "a built-in gives a line");
            let (theirs, ours) = in_turn(|| crates_line(black_box(&read)), ports);
            println!(
                "| `{}` | {name} | {} | {} | {} | {} % of a core |",
                template.escape_debug(),
                shown(theirs),
                shown(ours),
                shown(theirs / ours),
                shown(RATE * ours / 1e9 * 100.0)
            );
        }
    }
    println!();
}

/// What is visible of 64 KiB, by the port and by hand in Rust.
fn visible() {
    println!(
        "| what is visible of 65,536 bytes | by hand in Rust, ns | port, ns | by hand / port |\n|---|---|---|---|"
    );
    let line =
        "0.002500 \x1b[1m[\x1b[32mINFO \x1b[0m\x1b[1m]  \x1b[0m|\x1b[2mwall B3 crack 0.412 mm\x1b[0m gauge.rs:118\n";
    for (name, piece) in [("coloured lines", line), ("plain lines", &without_sequences(line))] {
        let text: String = piece.chars().cycle().take(65_536).collect();
        let mut out = vec![0; text.len()];
        let mut ports = || entries::visible(black_box(text.as_bytes()), &mut out);
        assert_eq!(entries::refusal_of(ports()), 0, "there is room");
        let (by_hand, ours) = in_turn(|| without_sequences(black_box(&text)), ports);
        println!("| {name} | {} | {} | {} |", shown(by_hand), shown(ours), shown(by_hand / ours));
    }
    println!();
}
