//! The crate's module, unchanged, and beside it what reaches its private names.

use crate::tree;

include!(concat!(env!("OUT_DIR"), "/format/mod.rs"));

/// Why the crate gives no segments, as document 01 numbers it.
#[derive(Clone, Copy, Debug, PartialEq)]
pub enum Refusal {
    Failure = 3,
    NoMessage = 4,
}

/// A template as the crate read it.
pub struct Template {
    formatter: InternalFormatter,
}

impl Template {
    pub fn read(template: &str) -> Result<Template, Refusal> {
        match parser::parse(template) {
            Ok(format) => Ok(Template { formatter: InternalFormatter { format } }),
            // nom's own error texts begin so; the crate's complaint about a missing {s} does not.
            Err(text) if text.starts_with("Parsing ") => Err(Refusal::Failure),
            Err(_) => Err(Refusal::NoMessage),
        }
    }

    /// The reading without the check for {s}. A leading `{s}` is read for itself and leaves the
    /// reader where it began, so what follows it is what the template alone gives.
    pub fn read_unchecked(template: &str) -> Result<Vec<tree::Segment>, Refusal> {
        let read = Template::read(&format!("{{s}}{template}"))?;
        Ok(segments(&read.formatter.format[1..]))
    }

    pub fn segments(&self) -> Vec<tree::Segment> {
        segments(&self.formatter.format)
    }

    pub fn device_line(&self, record: &DefmtRecord) -> String {
        self.formatter.format(&Record::Defmt(record))
    }

    pub fn host_line(&self, record: &LogRecord) -> String {
        self.formatter.format(&Record::Host(record))
    }

    pub fn has_timestamp(&self) -> bool {
        format_has_timestamp(&self.formatter.format)
    }
}

/// One of the eight built-in templates; a host formatter reads it with ` (HOST)` behind it.
pub fn built_in(oneline: bool, location: bool, timestamp: bool) -> &'static str {
    if oneline {
        OneLineStyle::get_string(location, timestamp)
    } else {
        DefaultStyle::get_string(location, timestamp)
    }
}

/// What the crate's own formatters read for a built-in, as a dump: the judge of `built_in`.
pub fn built_in_dump(oneline: bool, location: bool, timestamp: bool, host: bool) -> String {
    let format = if oneline {
        FormatterFormat::OneLine { with_location: location }
    } else {
        FormatterFormat::Default { with_location: location }
    };
    let config = FormatterConfig { format, is_timestamp_available: timestamp };
    let formatter = if host { HostFormatter::new(config).formatter } else { Formatter::new(config).formatter };
    tree::dump(&segments(&formatter.format))
}

/// The segments of a template, or the number that the crate gives instead.
pub fn dump(template: &str) -> String {
    match Template::read(template) {
        Ok(read) => tree::dump(&read.segments()),
        Err(Refusal::Failure) => "3".to_string(),
        Err(Refusal::NoMessage) => match Template::read_unchecked(template) {
            Ok(segments) => format!("4 {}", tree::dump(&segments)),
            Err(refusal) => unreachable!("read with a check only: {refusal:?}"),
        },
    }
}

fn segments(list: &[LogSegment]) -> Vec<tree::Segment> {
    list.iter()
        .map(|segment| tree::Segment { kind: kind(&segment.metadata), format: format(&segment.format) })
        .collect()
}

fn kind(metadata: &LogMetadata) -> tree::Kind {
    tree::Kind::Specifier(match metadata {
        LogMetadata::String(text) => return tree::Kind::Text(text.clone()),
        LogMetadata::NestedLogSegments(members) => return tree::Kind::Group(segments(members)),
        LogMetadata::CrateName => tree::Specifier::CrateName,
        LogMetadata::FileName(count) => tree::Specifier::FileName(*count),
        LogMetadata::FilePath => tree::Specifier::FilePath,
        LogMetadata::LineNumber => tree::Specifier::LineNumber,
        LogMetadata::Log => tree::Specifier::Log,
        LogMetadata::LogLevel => tree::Specifier::LogLevel,
        LogMetadata::ModulePath => tree::Specifier::ModulePath,
        LogMetadata::Timestamp => tree::Specifier::Timestamp,
    })
}

fn format(format: &LogFormat) -> tree::Format {
    let alignment = |alignment| match alignment {
        Alignment::Left => tree::Alignment::Left,
        Alignment::Center => tree::Alignment::Centre,
        Alignment::Right => tree::Alignment::Right,
    };
    let padding = |padding| match padding {
        Padding::Space => tree::Padding::Space,
        Padding::Zero => tree::Padding::Zero,
    };
    tree::Format {
        width: format.width,
        alignment: format.alignment.map(alignment),
        padding: format.padding.map(padding),
        colour: format.color.map(colour),
        styles: format.style.iter().flatten().map(|style| 1 << place(style)).sum(),
    }
}

fn colour(colour: LogColor) -> tree::Colour {
    match colour {
        LogColor::SeverityLevel => tree::Colour::Severity,
        LogColor::WarnError => tree::Colour::WarnError,
        LogColor::Color(colour) => {
            let word = format!("{colour:?}").to_lowercase();
            tree::Colour::Fixed(tree::COLOURS.iter().position(|known| *known == word).expect("a colour of a template"))
        }
    }
}

/// Where `tree::STYLES` has it.
fn place(style: &Styles) -> u8 {
    match style {
        Styles::Bold => 0,
        Styles::Dimmed => 1,
        Styles::Underline => 2,
        Styles::Italic => 3,
        Styles::Strikethrough => 4,
        style => unreachable!("no style of a template: {style:?}"),
    }
}
