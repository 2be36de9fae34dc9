//! Lines: in lent memory, in grown memory, in colour.

mod common;

use common::PAINT;
use pralakuon::{
    line, visible_str, Formatter, FormatterConfig, HostFormatter, HostRecord, Level, RawRecord, Record, Refusal,
    Settings,
};

fn formatter(template: &str, settings: Settings) -> Formatter {
    Formatter::new(FormatterConfig::custom(template).with_settings(settings)).unwrap()
}

/// Tries a call on painted memory: with the exact room, with room to spare, with one byte too few, with none.
fn lent(expected: &str, call: impl Fn(&mut [u8]) -> Result<usize, Refusal>) {
    let length = expected.len();
    for room in [length, length + 1, length + 1_000] {
        let mut out = vec![PAINT; room];
        assert_eq!(call(&mut out), Ok(length));
        assert_eq!(&out[..length], expected.as_bytes());
        assert!(out[length..].iter().all(|&byte| byte == PAINT), "room {room}: changed behind the line");
    }
    for room in [length - 1, 0] {
        let mut out = vec![PAINT; room];
        assert_eq!(call(&mut out), Err(Refusal::LineTooLong { needed: length }));
        assert!(out.iter().all(|&byte| byte == PAINT), "room {room}: changed by a refusal");
    }
}

#[test]
fn a_line_needs_no_more_room_than_its_length() {
    let config = FormatterConfig::custom("{[{L}]%bold%<9} été {s:>9}|").with_settings(Settings::STRAIGHT_COLOUR);
    let device = Formatter::new(config).unwrap();
    let record = Record::new(Level::Error, "hello");
    let expected = "\x1b[1m[\x1b[31mERROR\x1b[0m\x1b[1m]  \x1b[0m été     hello|";
    lent(expected, |out| device.format_into(&record, out));
    lent(expected, |out| line(device.template().as_bytes(), device.settings(), &record, out));

    // A host's message is bare.
    let host = HostFormatter::new(config).unwrap();
    let record = HostRecord::new(Level::Error, "hello");
    let expected = "\x1b[1m[\x1b[31mERROR\x1b[0m\x1b[1m]  \x1b[0m été hello|";
    lent(expected, |out| host.format_into(&record, out));
    lent(expected, |out| line(host.template().as_bytes(), host.settings(), &record, out));
}

#[test]
fn a_grown_line_is_the_same_at_every_length() {
    let template = "<{s}>";
    let formatter = formatter(template, Settings::PLAIN);
    for length in (0..600).chain([4_095, 4_096]) {
        let message = "m".repeat(length);
        assert_eq!(formatter.format(&Record::new(Level::Info, &message)), Ok(format!("<{message}>")));
    }
    let sixty = "{s}".repeat(60);
    let message = "é".repeat(2_048);
    let long = Formatter::new(FormatterConfig::custom(&sixty)).unwrap();
    assert_eq!(long.format(&Record::new(Level::Info, &message)), Ok(message.repeat(60)));
}

#[test]
fn a_record_is_shown_field_by_field() {
    let everything = "{t}|{L}|{c}|{m}|{F}|{ff}|{l:1}|{d}|{s}";
    let device = formatter(everything, Settings::PLAIN);
    let full = Record::new(Level::Debug, "crack")
        .with_file("/head/src/gauge.rs")
        .with_line(4_294_967_295)
        .with_module_path("gauge::read")
        .with_timestamp("0.25")
        .with_head("H-07");
    let shown = "0.25|DEBUG|gauge|gauge::read|/head/src/gauge.rs|src/gauge.rs|4294967295|H-07|crack";
    assert_eq!(device.format(&full).as_deref(), Ok(shown));
    let bare = Record::new(Level::Debug, "crack");
    assert_eq!(device.format(&bare).as_deref(), Ok("<time>|DEBUG|<crate>|<mod path>|<file>|<file>|0|<head>|crack"));
    // Present and empty is not absent.
    let empty = bare.with_file("").with_module_path("").with_line(0).with_head("");
    assert_eq!(device.format(&empty).as_deref(), Ok("<time>|DEBUG|<crate>|||<file>|0||crack"));
    assert_eq!(device.format(&full.with_level(None)).as_deref(), Ok("crack"));

    let host = HostFormatter::new(FormatterConfig::custom(everything)).unwrap();
    let full = HostRecord::new(Level::Trace, "closed")
        .with_file("/tablet/app.rs")
        .with_line(40)
        .with_module_path("tablet::app")
        .with_head("H-12");
    let shown = "<time>|TRACE|tablet|tablet::app|/tablet/app.rs|tablet/app.rs|40|H-12|closed";
    assert_eq!(host.format(&full).as_deref(), Ok(shown));
    let bare = HostRecord::new(Level::Trace, "closed");
    assert_eq!(host.format(&bare).as_deref(), Ok("<time>|TRACE|<crate>|<mod path>|<file>|<file>|0|<head>|closed"));
}

#[test]
fn levels_have_their_names() {
    let formatter = formatter("{L:1} {s}", Settings::PLAIN);
    let lines = Level::ALL.map(|level| formatter.format(&Record::new(level, "x")).unwrap());
    assert_eq!(lines, ["ERROR x", "WARN x", "INFO x", "DEBUG x", "TRACE x"]);
}

#[test]
fn straight_colour_taken_out_is_the_plain_line() {
    let templates = [
        "{[{L}]%bold%<9}|{s}",
        "{t} {[{L}]%bold%<9}|{gauge {c:>8}: {s:>24}%dimmed%40}| {ff:>20}:{l}",
        "{{{s:red:^9}|{L:blue:8}%underline%>30}{L}%strike%^40}|{s:bold:09}",
        "{s:werror:12}|{L:severity:12}|{m:italic:30}|",
    ];
    let mut slid = 0;
    for template in templates {
        for level in Level::ALL {
            let record = Record::new(level, "réglé").with_file("/a/été.rs").with_module_path("a::b");
            let line = |settings| formatter(template, settings).format(&record).unwrap();
            let plain = line(Settings::PLAIN);
            let (straight, crates) = (line(Settings::STRAIGHT_COLOUR), line(Settings::CRATE_COLOUR));
            assert_ne!(straight, plain, "there is colour");
            assert_eq!(visible_str(&straight).as_ref(), Ok(&plain));
            slid += usize::from(visible_str(&crates).as_ref() != Ok(&plain));
            assert_eq!(line(Settings::PLAIN.with_straight(true)), plain);
        }
    }
    assert!(slid >= 5, "the crate's columns slide with the first template at least");
}

#[test]
fn a_formatter_says_whether_it_names_the_time() {
    for (template, names) in [("{t}{s}", true), ("{x{t}}{s}", true), ("t{s}", false), ("{s}{t", false)] {
        let config = FormatterConfig::custom(template);
        assert_eq!(Formatter::new(config).unwrap().names_timestamp(), names, "{template}");
        assert_eq!(HostFormatter::new(config).unwrap().names_timestamp(), names, "{template}");
    }
}

#[test]
fn threads_may_share_a_formatter() {
    let formatter = &formatter("{[{L}]%bold%<9}|{s}", Settings::STRAIGHT_COLOUR);
    let lines = |level| -> Vec<String> {
        (0..2_000).map(|n| formatter.format(&Record::new(level, &n.to_string())).unwrap()).collect()
    };
    let alone = Level::ALL.map(lines);
    let together = std::thread::scope(|scope| {
        Level::ALL.map(|level| scope.spawn(move || lines(level))).map(|thread| thread.join().unwrap())
    });
    assert_eq!(alone, together);
}

#[test]
fn the_raw_form_of_a_record_is_the_record() {
    let record = Record::new(Level::Warn, "hello").with_line(7).with_module_path("a::b").with_timestamp("0.5");
    let raw = RawRecord::new().with_level(2).with_line(7).with_module_path(b"a::b");
    assert_eq!(RawRecord::from(&record), raw.with_timestamp(b"0.5").with_message(b"hello").with_mask(6));
    let head = RawRecord::from(&record.with_head(""));
    assert_eq!((head.mask, head.head), (14, &b""[..]));
    let host = HostRecord::new(Level::Trace, "hello").with_file("f").with_head("H-12");
    let raw = RawRecord::new().with_source(1).with_level(5).with_file(b"f").with_head(b"H-12");
    assert_eq!(RawRecord::from(&host), raw.with_message(b"hello").with_mask(9));
}

#[test]
fn levels_are_parsed_as_they_are_shown() {
    for level in Level::ALL {
        let name = level.to_string();
        assert_eq!([name.parse(), name.to_lowercase().parse()], [Ok(level); 2]);
        assert_eq!(Level::try_from(level.number()), Ok(level));
        assert_eq!(format!("{level:>6}|{level:<6}|"), format!("{name:>6}|{name:<6}|"));
    }
    for name in ["", " WARN", "WARNING", "3"] {
        assert!(name.parse::<Level>().is_err(), "{name:?}");
    }
    for number in [0, 6, 255] {
        assert!(Level::try_from(number).is_err(), "{number}");
    }
}

#[test]
fn what_is_given_to_a_raw_record_is_marked_and_a_mask_is_taken_as_it_is() {
    let raw = RawRecord::new().with_file(b"f").with_line(7);
    assert_eq!(raw.mask, RawRecord::FILE | RawRecord::LINE);
    assert_eq!(raw.with_module_path(b"").mask, 7);
    assert_eq!(raw.with_head(b"").mask, 11);
    assert_eq!((raw.with_mask(0xf0).mask, raw.with_mask(0).file), (0xf0, &b"f"[..]));
    assert_eq!(raw.with_mask(0xf0).with_module_path(b"m").with_head(b"h").mask, 0xfc);
}
