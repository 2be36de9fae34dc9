//! Shows the line of a record by a template: `host/try` says how it is called.

use pralakuon::{check, line, point_at, Level, RawRecord, Refusal, Settings};
use std::io::{stdout, ErrorKind, Write};
use std::process::ExitCode;

const MODES: [(&str, Settings); 3] = [
    ("plain", Settings::PLAIN),
    ("straight colour", Settings::STRAIGHT_COLOUR),
    ("the crate's colour", Settings::CRATE_COLOUR),
];

fn main() -> ExitCode {
    let words: Vec<String> = std::env::args().skip(1).collect();
    let (asked, words) = asked(&words);
    let shown = match words.split_first() {
        Some((template, keys)) => record(keys).and_then(|record| show(template, asked, record)),
        None => Err("a template is needed".to_string()),
    };
    match shown {
        Ok(()) => ExitCode::SUCCESS,
        Err(wrong) => {
            say(&wrong);
            ExitCode::FAILURE
        }
    }
}

/// What is asked for in front of the template, and the words from it on.
fn asked(mut words: &[String]) -> (Settings, &[String]) {
    let mut asked = Settings::PLAIN;
    while let Some((first, rest)) = words.split_first() {
        asked = match first.as_str() {
            "--strict" => asked.with_strict(true),
            "--places" => asked.with_places(true),
            _ => break,
        };
        words = rest;
    }
    (asked, words)
}

/// On the error output, as `./run` does: each line begins alike, so that what stands below another still does.
fn say(words: &str) {
    for line in words.lines() {
        eprintln!("host/try: {line}");
    }
}

/// What a refusal says, with the place in the template where it knows one.
fn told(template: &str, refusal: Refusal) -> String {
    match refusal {
        Refusal::Dropped { place } => format!("{refusal}:\n{}", point_at(template.as_bytes(), place)),
        _ => refusal.to_string(),
    }
}

fn record(keys: &[String]) -> Result<RawRecord<'_>, String> {
    let mut record = RawRecord::new().with_level(Level::Info.number()).with_message(b"hello");
    for key in keys {
        let (name, value) = key.split_once('=').ok_or_else(|| format!("no KEY=VALUE: {key}"))?;
        let bytes = value.as_bytes();
        record = match name {
            "level" => record.with_level(level(value)?),
            "message" => record.with_message(bytes),
            "file" => record.with_file(bytes),
            "line" => record.with_line(value.parse().map_err(|_| format!("no line number: {value}"))?),
            "module" => record.with_module_path(bytes),
            "time" => record.with_timestamp(bytes),
            "head" => record.with_head(bytes),
            "source" if value == "host" => record.with_source(RawRecord::HOST),
            "source" if value == "device" => record.with_source(RawRecord::DEVICE),
            _ => return Err(format!("unknown: {key} (keys: level message file line module time head source)")),
        };
    }
    Ok(record)
}

/// A name, or a number: 0 is a print.
fn level(value: &str) -> Result<u8, String> {
    value.parse().or_else(|_| value.parse::<Level>().map(Level::number).map_err(|unknown| unknown.to_string()))
}

fn show(template: &str, asked: Settings, record: RawRecord) -> Result<(), String> {
    print(&lines(template, asked, record)?)?;
    // Who has never heard of strict templates or of places is the one to be told.
    if let Err(refusal) = check(template.as_bytes(), Settings::PLAIN.with_strict(true)) {
        say(&format!("with --strict: {}", told(template, refusal)));
    }
    let by = |places| made(template, Settings::PLAIN.with_places(places), record);
    match (by(asked.places), by(true)) {
        (Ok(characters), Ok(places)) if characters != places => {
            say(&format!("with --places, where a wide character counts two: {}", places.replace('\x1b', "ESC")));
        }
        _ => {}
    }
    Ok(())
}

fn lines(template: &str, asked: Settings, record: RawRecord) -> Result<String, String> {
    let mut text = String::new();
    let mut longest = 0;
    for (name, mode) in MODES {
        let settings = mode.with_strict(asked.strict).with_places(asked.places);
        let made = made(template, settings, record).map_err(|refusal| told(template, refusal))?;
        if mode == Settings::PLAIN {
            let characters = made.chars();
            longest = if asked.places { characters.map(places).sum() } else { characters.count() };
            text += &format!("{:20}{}\n", "", ruler(longest));
        }
        text += &format!("{name:20}{}\n", made.replace('\x1b', "ESC"));
    }
    let counted = if asked.places { "places" } else { "characters" };
    text += &format!("{:20}{longest} {counted} in the plain line\n", "");
    Ok(text)
}

/// One place or two, as the archive counts: it fills two places up with a space where the character takes one.
fn places(character: char) -> usize {
    let alone = character.to_string();
    let record = RawRecord::new().with_level(Level::Info.number()).with_message(alone.as_bytes());
    let line = made("{s:2}", Settings::PLAIN.with_places(true), record).expect("a line of one character");
    2 - (line.len() - alone.len())
}

/// A reader that stops early, such as `head`, has seen what it wanted.
fn print(text: &str) -> Result<(), String> {
    match stdout().write_all(text.as_bytes()) {
        Err(wrong) if wrong.kind() != ErrorKind::BrokenPipe => Err(wrong.to_string()),
        _ => Ok(()),
    }
}

fn made(template: &str, settings: Settings, record: RawRecord) -> Result<String, Refusal> {
    let mut out = vec![0; 4_096];
    if let Err(Refusal::LineTooLong { needed }) = line(template.as_bytes(), settings, record, &mut out) {
        out.resize(needed, 0);
    }
    let length = line(template.as_bytes(), settings, record, &mut out)?;
    Ok(String::from_utf8_lossy(&out[..length]).into_owned())
}

/// Columns count from 1: `....5....|` ten by ten.
fn ruler(length: usize) -> String {
    "....5....|".chars().cycle().take(length).collect()
}
