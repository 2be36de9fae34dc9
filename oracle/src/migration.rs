//! The code of docs/MIGRATION.md, compiled and run beside what it replaces. That the page has this very code is tested
//! in host/tests/migration.rs.

use crate::judge::set_colour;
use crate::stub::format;

/// The names that the page's code is written with. The frame and what belongs to it are stand-ins; `log` is the real
/// crate.
mod defmt_decoder {
    pub use crate::stub::{Frame, Locations};
}
mod defmt_parser {
    pub use crate::stub::Level;
}

include!("migration/page.rs");

const TEMPLATES: [&str; 5] = [
    "default",
    "oneline",
    "{t} [{L}] {s}",
    "{t:>12} {[{L}]%bold%<9}|{gauge {c:>8}: {s:>24}%dimmed%40}| {ff:>20}:{l}",
    "{L:werror} {F} {m} {s:italic}",
];

/// With and without level, time and place.
fn frames() -> Vec<Frame<'static>> {
    use defmt_parser::Level::*;
    let levels = [None, Some(Trace), Some(Debug), Some(Info), Some(Warn), Some(Error)];
    let frame = |(index, level)| Frame { index, level, timestamp: None, message: "crack 0.412 mm, été" };
    let bare = (0..).zip(levels).map(frame);
    bare.clone().chain(bare.map(|frame| Frame { timestamp: Some("9.997500"), ..frame })).collect()
}

/// Of every second frame.
fn locations() -> Locations {
    let location =
        |line| crate::stub::Location { file: "/head/src/gauge.rs".into(), line, module: "gauge::read".into() };
    (0..6).step_by(2).map(|index| (index, location(118 + index))).collect()
}

/// What the crate's own formatter makes of a frame.
fn crates_line(template: &str, frame: Frame, locations: &Locations) -> String {
    let formatter = format::Formatter::new(format::FormatterConfig::custom(template));
    let place = locations.get(&frame.index);
    let (line, module) = (place.map(|place| place.line as u32), place.map(|place| place.module.as_str()));
    formatter.format_frame(frame, place.and_then(|place| place.file.to_str()), line, module)
}

fn log_record<'a>(level: log::Level, placed: bool, message: std::fmt::Arguments<'a>) -> log::Record<'a> {
    let mut builder = log::Record::builder();
    if placed {
        builder.file(Some("/tablet/app.rs")).line(Some(40)).module_path(Some("tablet::app"));
    }
    builder.level(level).args(message).build()
}

/// Colour is one for the whole process, so frames and records are one test.
#[test]
fn the_pages_lines_are_the_crates() {
    for (colour, settings) in [(false, Settings::PLAIN), (true, Settings::CRATE_COLOUR)] {
        set_colour(colour);
        for template in TEMPLATES {
            let (device, host) = formatters(template, settings).unwrap();
            for frame in frames() {
                let ours = frame_line(&device, &frame, &locations());
                assert_eq!(ours, Ok(crates_line(template, frame, &locations())), "{template}");
            }
            let crates = format::HostFormatter::new(format::FormatterConfig::custom(template));
            for (level, placed) in log::Level::iter().flat_map(|level| [(level, false), (level, true)]) {
                let ours = host.format(&host_record(&log_record(level, placed, format_args!("")), "closed 3"));
                let theirs = crates.format(&log_record(level, placed, format_args!("closed {}", 1 + 2)));
                assert_eq!(ours, Ok(theirs), "{template}");
            }
        }
    }
}

#[test]
fn the_pages_logger_writes_lines() {
    use log::Log;
    let (_, formatter) = formatters("{[{L}]%bold%<9}|{f}:{l:1} {s}", Settings::PLAIN).unwrap();
    let logger = HostLogger { formatter, out: Mutex::new(Vec::new()) };
    logger.log(&log_record(log::Level::Warn, true, format_args!("{} sheets", 2)));
    logger.log(&log_record(log::Level::Error, false, format_args!("{}", "x".repeat(4_097))));
    logger.log(&log_record(log::Level::Info, false, format_args!("closed")));
    logger.flush();
    assert!(logger.enabled(&log::Metadata::builder().build()));
    let written = String::from_utf8(logger.out.into_inner().unwrap()).unwrap();
    assert_eq!(written, "[WARN ]  |app.rs:40 2 sheets\n[INFO ]  |<file>:0 closed\n");
}

#[test]
fn levels_have_the_same_names_and_numbers() {
    for level in log::Level::iter() {
        let ours = host_level(level);
        assert_eq!((ours.name(), usize::from(ours.number())), (level.as_str(), level as usize));
    }
}

#[test]
fn a_template_that_the_crate_panics_on_is_an_error() {
    let crates = std::panic::catch_unwind(|| format::Formatter::new(format::FormatterConfig::custom("{t}")));
    assert!(crates.is_err());
    assert_eq!(formatters("{t}", Settings::PLAIN), Err(Refusal::NoMessage));
}
