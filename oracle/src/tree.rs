//! A template as it was read: its segments, whoever read them, and their dump.

#[derive(Clone, Debug, PartialEq)]
pub struct Segment {
    pub kind: Kind,
    pub format: Format,
}

#[derive(Clone, Debug, PartialEq)]
pub enum Kind {
    Text(String),
    Specifier(Specifier),
    Group(Vec<Segment>),
}

#[derive(Clone, Copy, Debug, PartialEq)]
pub enum Specifier {
    CrateName,
    FileName(u8),
    FilePath,
    LineNumber,
    Log,
    LogLevel,
    ModulePath,
    Timestamp,
    /// The port's own (document 02, E7).
    HeadSerial,
}

#[derive(Clone, Debug, Default, PartialEq)]
pub struct Format {
    pub width: Option<usize>,
    pub alignment: Option<Alignment>,
    pub padding: Option<Padding>,
    pub colour: Option<Colour>,
    /// A set, bit i for `STYLES[i]`: the order in which they were asked for is never shown.
    pub styles: u8,
}

#[derive(Clone, Copy, Debug, PartialEq)]
pub enum Alignment {
    Left,
    Centre,
    Right,
}

#[derive(Clone, Copy, Debug, PartialEq)]
pub enum Padding {
    Space,
    Zero,
}

#[derive(Clone, Copy, Debug, PartialEq)]
pub enum Colour {
    /// A place in `COLOURS`.
    Fixed(usize),
    Severity,
    WarnError,
}

/// In the order of their codes, 30 to 37.
pub const COLOURS: [&str; 8] = ["black", "red", "green", "yellow", "blue", "magenta", "cyan", "white"];

/// Word, letter of a dump and code, in the order of a prefix.
pub const STYLES: [(&str, char, u8); 5] =
    [("bold", 'b', 1), ("dimmed", 'd', 2), ("underline", 'u', 4), ("italic", 'i', 3), ("strike", 's', 9)];

/// Whether a specifier of which `is` holds is there, at any depth.
pub fn names(segments: &[Segment], is: &dyn Fn(Specifier) -> bool) -> bool {
    segments.iter().any(|segment| match &segment.kind {
        Kind::Text(_) => false,
        Kind::Specifier(specifier) => is(*specifier),
        Kind::Group(members) => names(members, is),
    })
}

/// One line of ASCII; README.md has the grammar.
pub fn dump(segments: &[Segment]) -> String {
    segments.iter().map(segment_dump).collect()
}

fn segment_dump(segment: &Segment) -> String {
    let format = format_dump(&segment.format);
    match &segment.kind {
        Kind::Text(text) => {
            let hex: String = text.bytes().map(|b| format!("{b:02x}")).collect();
            format!("t{hex};")
        }
        Kind::Group(members) => format!("g{format}({});", dump(members)),
        Kind::Specifier(specifier) => format!("s{}{format};", specifier_name(*specifier)),
    }
}

/// As a template names it.
pub fn word_of(specifier: Specifier) -> String {
    match specifier {
        Specifier::FileName(count) => "f".repeat(count.into()),
        specifier => specifier_name(specifier),
    }
}

fn specifier_name(specifier: Specifier) -> String {
    match specifier {
        Specifier::FileName(count) => format!("f{count}"),
        Specifier::CrateName => "c".to_string(),
        Specifier::FilePath => "F".to_string(),
        Specifier::LineNumber => "l".to_string(),
        Specifier::Log => "s".to_string(),
        Specifier::LogLevel => "L".to_string(),
        Specifier::ModulePath => "m".to_string(),
        Specifier::Timestamp => "t".to_string(),
        Specifier::HeadSerial => "d".to_string(),
    }
}

fn format_dump(format: &Format) -> String {
    let width = format.width.map_or("-".to_string(), |width| width.to_string());
    let alignment = match format.alignment {
        None => "-",
        Some(Alignment::Left) => "<",
        Some(Alignment::Centre) => "^",
        Some(Alignment::Right) => ">",
    };
    let padding = match format.padding {
        None => "-",
        Some(Padding::Space) => "s",
        Some(Padding::Zero) => "z",
    };
    let colour = match format.colour {
        None => "-",
        Some(Colour::Severity) => "severity",
        Some(Colour::WarnError) => "werror",
        Some(Colour::Fixed(place)) => COLOURS[place],
    };
    let styles: String = (0..5).filter(|i| format.styles >> i & 1 == 1).map(|i| STYLES[i].1).collect();
    let styles = if styles.is_empty() { "-" } else { &styles };
    format!("[{width},{alignment},{padding},{colour},{styles}]")
}
