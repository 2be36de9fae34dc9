//! Document 01's line of a record, in all modes, with document 02's serial of a head (E7), in both rules for counting (E14),
//! and with comparison reports laid out (E10). The crate judges it wherever the crate has an answer.

use super::report::{self, Report, Run};
use super::wide::places;
use crate::sheet::{Record, COLOUR, HOST, PLACES, STRAIGHT};
use crate::tree::{Alignment, Colour, Format, Kind, Padding, Segment, Specifier, STYLES};

const RESET: &str = "\x1b[0m";

/// "`<head>` when absent": a serial that is there and empty shows nothing.
pub const NO_HEAD: &str = "<head>";

/// What the two values of a report are shown in: places in `COLOURS`.
const RED: Colour = Colour::Fixed(1);
const GREEN: Colour = Colour::Fixed(2);

/// The set of styles that has nothing but the first of `STYLES`.
const BOLD: u8 = 1;

/// ERROR to TRACE: name and colour code.
const LEVELS: [(&str, u8); 5] = [("ERROR", 31), ("WARN", 33), ("INFO", 32), ("DEBUG", 97), ("TRACE", 90)];

pub struct Line {
    pub text: String,
    /// A prefix was inserted somewhere: only then may straight mode part from the crate's.
    pub inserted: bool,
    /// The greatest width that the crate asks of Rust's formatter: it adds the bytes of colour sequences.
    pub widest: usize,
}

/// The line of a record that has no refusal.
pub fn line(segments: &[Segment], record: &Record, settings: u8) -> Line {
    line_with(segments, record, settings, report::of(record).as_ref())
}

/// The same with the message laid out in the runs of this report.
pub fn line_with(segments: &[Segment], record: &Record, settings: u8, report: Option<&Report>) -> Line {
    let mut builder = Builder { record, report, settings, inserted: false, widest: 0 };
    let text = match record.level {
        0 => builder.message_alone(),
        _ => builder.joined(segments),
    };
    Line { text, inserted: builder.inserted, widest: builder.widest }
}

/// What is visible: colour sequences taken out once, left to right.
pub fn without_sequences(text: &str) -> String {
    let (mut left, mut rest) = (String::new(), text);
    while let Some(at) = rest.find("\x1b[") {
        let (before, from) = rest.split_at(at);
        left.push_str(before);
        let parameters = from[2..].trim_start_matches(|c: char| c.is_ascii_digit() || c == ';');
        match parameters.strip_prefix('m') {
            Some(after) => rest = after,
            None => {
                left.push_str(&from[..2]);
                rest = &from[2..];
            }
        }
    }
    left + rest
}

fn text_of(field: &[u8]) -> &str {
    std::str::from_utf8(field).expect("a field that was checked")
}

struct Builder<'a> {
    record: &'a Record,
    /// Where the message is laid out.
    report: Option<&'a Report<'a>>,
    settings: u8,
    inserted: bool,
    widest: usize,
}

impl Builder<'_> {
    fn joined(&mut self, segments: &[Segment]) -> String {
        segments.iter().map(|segment| self.shown(segment)).collect()
    }

    fn shown(&mut self, segment: &Segment) -> String {
        let format = &segment.format;
        match &segment.kind {
            Kind::Text(text) => text.clone(),
            Kind::Group(members) => {
                let text = self.joined(members);
                self.formatted(text, format, 0, format.colour)
            }
            Kind::Specifier(Specifier::Log) if self.record.source == HOST || self.report.is_some() => {
                self.message_alone()
            }
            Kind::Specifier(specifier) => {
                let (width, colour) = match specifier {
                    Specifier::LogLevel => (5, format.colour.or(Some(Colour::Severity))),
                    Specifier::LineNumber => (4, format.colour),
                    _ => (0, format.colour),
                };
                self.formatted(self.field(*specifier), format, width, colour)
            }
        }
    }

    /// Without a width, a style or a colour of its own.
    fn message_alone(&mut self) -> String {
        match self.report {
            Some(report) => self.laid_out(report),
            None => text_of(&self.record.message).to_string(),
        }
    }

    fn laid_out(&mut self, report: &Report) -> String {
        let [left, right] = &report.runs;
        [
            self.run(&report.head, BOLD, None),
            "\n".to_string(),
            self.run("diff", BOLD, None),
            " ".to_string(),
            self.run("< left", 0, Some(RED)),
            " / ".to_string(),
            self.run("right >", 0, Some(GREEN)),
            "\n".to_string(),
            self.run("<", 0, Some(RED)),
            self.value(left, RED),
            "\n".to_string(),
            self.run(">", 0, Some(GREEN)),
            self.value(right, GREEN),
        ]
        .concat()
    }

    /// What differs is bold.
    fn value(&mut self, runs: &[Run], colour: Colour) -> String {
        runs.iter().map(|run| self.run(run.text, if run.shared { 0 } else { BOLD }, Some(colour))).collect()
    }

    fn run(&mut self, text: &str, styles: u8, colour: Option<Colour>) -> String {
        self.formatted(text.to_string(), &Format { styles, ..Format::default() }, 0, colour)
    }

    fn field(&self, specifier: Specifier) -> String {
        let record = self.record;
        let (file, module) = (record.file().map(text_of), record.module().map(text_of));
        match specifier {
            Specifier::CrateName => {
                module.and_then(|module| module.split_once("::")).map_or("<crate>", |parts| parts.0).to_string()
            }
            Specifier::FileName(count) => file.map_or("<file>".to_string(), |file| last_components(file, count)),
            Specifier::FilePath => file.unwrap_or("<file>").to_string(),
            Specifier::LineNumber => record.line().unwrap_or(0).to_string(),
            Specifier::Log => text_of(&record.message).to_string(),
            Specifier::LogLevel => LEVELS[usize::from(record.level) - 1].0.to_string(),
            Specifier::ModulePath => module.unwrap_or("<mod path>").to_string(),
            Specifier::Timestamp if record.source == HOST || record.timestamp.is_empty() => "<time>".to_string(),
            Specifier::Timestamp => text_of(&record.timestamp).to_string(),
            Specifier::HeadSerial => record.head().map_or(NO_HEAD, text_of).to_string(),
        }
    }

    fn formatted(&mut self, text: String, format: &Format, default: usize, colour: Option<Colour>) -> String {
        let visible = without_sequences(&text);
        let width = format.width.unwrap_or(default);
        self.widest = self.widest.max(width + text.len() - visible.len());
        // "The count used by padding takes the rule as an input"
        let mut counted = if self.settings & PLACES == 0 { visible.chars().count() } else { places(&visible) };
        let Some(prefix) = self.prefix(format, colour) else { return padded(text, width, counted, format) };
        let dressed = text.replace(RESET, &format!("{RESET}{prefix}"));
        self.inserted |= dressed.len() > text.len();
        if self.settings & STRAIGHT == 0 {
            counted += dressed.len() - text.len();
        }
        prefix + &padded(dressed, width, counted, format) + RESET
    }

    /// None where no colour or style applies.
    fn prefix(&self, format: &Format, colour: Option<Colour>) -> Option<String> {
        let styles = (0..5).filter(|i| format.styles >> i & 1 == 1).map(|i| STYLES[i].2);
        // A print without level shows nothing but runs, whose colours are fixed.
        let severity = || LEVELS[usize::from(self.record.level) - 1].1;
        let foreground = match colour {
            Some(Colour::Fixed(place)) => Some(30 + place as u8),
            Some(Colour::Severity) => Some(severity()),
            Some(Colour::WarnError) if self.record.level <= 2 => Some(severity()),
            _ => None,
        };
        let codes: Vec<String> = styles.chain(foreground).map(|code| code.to_string()).collect();
        let applies = self.settings & COLOUR != 0 && !codes.is_empty();
        applies.then(|| format!("\x1b[{}m", codes.join(";")))
    }
}

fn padded(text: String, width: usize, counted: usize, format: &Format) -> String {
    let due = width.saturating_sub(counted);
    let before = match format.alignment {
        None | Some(Alignment::Left) => 0,
        Some(Alignment::Centre) => due / 2,
        Some(Alignment::Right) => due,
    };
    let byte = if format.padding == Some(Padding::Zero) { "0" } else { " " };
    byte.repeat(before) + &text + &byte.repeat(due - before)
}

fn last_components(file: &str, count: u8) -> String {
    let root = file.starts_with('/').then_some("/");
    let dot = (file.split('/').next() == Some(".")).then_some(".");
    let named = file.split('/').filter(|component| !component.is_empty() && *component != ".");
    let components: Vec<&str> = root.into_iter().chain(dot).chain(named).collect();
    let from = components.len().saturating_sub(count.into());
    if components.is_empty() {
        "<file>".to_string()
    } else {
        components[from..].join("/")
    }
}
