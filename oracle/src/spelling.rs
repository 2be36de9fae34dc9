//! Whether a template spells segments and nothing beside them: what was read is held against what is there, and nothing is
//! read a second time.

use crate::tree::{word_of, Alignment, Colour, Format, Kind, Padding, Segment, COLOURS, STYLES};

/// Whether every byte is one of a segment's text, brace, name or parameter, or splits two of these, and every parameter that
/// is there is a segment's. A brace's own parameters may stand in any order, those of a group anywhere between its members.
pub fn spells(template: &str, segments: &[Segment]) -> bool {
    let rest = segments.iter().try_fold(template, |rest, segment| behind(segment, rest));
    rest == Some("")
}

/// What stands behind the segment, or None where the text does not begin with it.
fn behind<'a>(segment: &Segment, text: &'a str) -> Option<&'a str> {
    let (mut words, expected, rest) = match &segment.kind {
        Kind::Text(own) => return text.strip_prefix(own.as_str()),
        Kind::Specifier(specifier) => {
            let (content, rest) = text.strip_prefix('{')?.split_once('}')?;
            let expected = words_of(&segment.format).chain([word_of(*specifier)]);
            (content.split(':').map(plain).collect(), expected.collect(), rest)
        }
        Kind::Group(members) => {
            let mut words = Vec::new();
            let mut rest = parameters(text.strip_prefix('{')?, &mut words);
            for member in members {
                rest = parameters(behind(member, rest)?, &mut words);
            }
            (words, words_of(&segment.format).collect::<Vec<_>>(), rest.strip_prefix('}')?)
        }
    };
    let mut expected: Vec<String> = expected;
    words.sort();
    expected.sort();
    (words == expected).then_some(rest)
}

/// Parameters behind `%`, up to where there is no `%`.
fn parameters<'a>(mut text: &'a str, words: &mut Vec<String>) -> &'a str {
    while let Some(from) = text.strip_prefix('%') {
        let rest = match from.strip_prefix(['<', '^', '>']).unwrap_or(from) {
            digits if digits.starts_with(|c: char| c.is_ascii_digit()) => {
                digits.trim_start_matches(|c: char| c.is_ascii_digit())
            }
            _ => from.trim_start_matches(|c: char| c.is_ascii_alphabetic()),
        };
        words.push(plain(&from[..from.len() - rest.len()]));
        text = rest;
    }
    text
}

/// One spelling for all of the same parameter: a colour in small letters, a width without more zeros than say that it is
/// padded with zeros.
fn plain(word: &str) -> String {
    let small = word.to_ascii_lowercase();
    let small = if small == "purple" { "magenta" } else { &small };
    if COLOURS.contains(&small) {
        return small.to_string();
    }
    let digits = word.trim_start_matches(['<', '^', '>']);
    let sign = &word[..word.len() - digits.len()];
    match digits.trim_start_matches('0') {
        rest if rest.len() < digits.len() => format!("{sign}0{rest}"),
        rest => format!("{sign}{rest}"),
    }
}

/// The plain words of a format's parameters.
fn words_of(format: &Format) -> impl Iterator<Item = String> + '_ {
    let colour = format.colour.map(|colour| match colour {
        Colour::Fixed(place) => COLOURS[place].to_string(),
        Colour::Severity => "severity".to_string(),
        Colour::WarnError => "werror".to_string(),
    });
    let styles = (0..5).filter(|i| format.styles >> i & 1 == 1).map(|i| STYLES[i].0.to_string());
    let width = format.width.map(|width| {
        let sign = match format.alignment {
            None => "",
            Some(Alignment::Left) => "<",
            Some(Alignment::Centre) => "^",
            Some(Alignment::Right) => ">",
        };
        match (format.padding, width) {
            (Some(Padding::Zero), 0) => format!("{sign}0"),
            (Some(Padding::Zero), _) => format!("{sign}0{width}"),
            _ => format!("{sign}{width}"),
        }
    });
    colour.into_iter().chain(styles).chain(width)
}
