//! Document 01's reading of a template, limits included, with document 02's letters (E3), a note of what is left unused (E5)
//! and, where it is asked for, the name `d` (E7). The functions are named as in the crate, which reads in the same order, so that the two can be laid side by side.

use super::unused::{Lost, Unused};
use crate::tree::{Alignment, Colour, Format, Kind, Padding, Segment, Specifier, COLOURS, STYLES};
use std::ops::Range;

const MOST_BYTES: usize = 1024;
const MOST_SEGMENTS: usize = 64;
const MOST_DEPTH: usize = 8;
const MOST_WIDTH: usize = 512;
const MOST_F: usize = 255;

/// Why something is not read here: what is tried next may fit, or a number is given.
#[derive(Debug, PartialEq)]
enum Miss {
    Misfit,
    Refused(u8),
}

use Miss::{Misfit, Refused};

/// What is left of the text, and what was read.
type Fit<'a, T> = Result<(&'a str, T), Miss>;

enum Item {
    Specifier(Specifier),
    Colour(Colour),
    Style(usize),
    Width(usize, Padding, Option<Alignment>),
    Nested(Segment),
}

/// A template that is read.
#[derive(Clone, Debug, PartialEq)]
pub struct Reading {
    pub segments: Vec<Segment>,
    pub unused: Unused,
}

/// The names that a template is read by. "Templates in which `d` is tried as a name now part from the crate".
#[derive(Clone, Copy, Debug, PartialEq)]
pub enum Names {
    Crates,
    /// `d` among them, whatever the settings: they tell layouts of records apart.
    All,
}

/// The whole reading, or the number; a template without `{s}` is read here.
pub fn parse(template: &[u8], names: Names) -> Result<Reading, u8> {
    if template.len() > MOST_BYTES {
        return Err(1);
    }
    let text = std::str::from_utf8(template).map_err(|_| 2)?;
    let mut reader = Reader { text, names, made: 0, unused: Unused::default() };
    let read = many0(text, |i| alt(reader.parse_argument(1, i), || reader.parse_string_segment(i)));
    match read {
        Ok((rest, segments)) => {
            reader.drop_rest(rest);
            Ok(Reading { segments, unused: reader.unused })
        }
        Err(Refused(number)) => Err(number),
        Err(Misfit) => unreachable!("none of many may misfit"),
    }
}

struct Reader<'a> {
    text: &'a str,
    names: Names,
    made: usize,
    unused: Unused,
}

impl<'a> Reader<'a> {
    /// A brace; the outermost has depth 1.
    fn parse_argument(&mut self, depth: usize, input: &'a str) -> Fit<'a, Segment> {
        let inside = input.strip_prefix('{').ok_or(Misfit)?;
        let end = take_until_unbalanced(inside)?;
        if depth > MOST_DEPTH {
            return Err(Refused(6));
        }
        let segment = self.parse_log_segment(depth, &inside[..end])?;
        Ok((&inside[end + 1..], segment))
    }

    fn parse_string_segment(&mut self, input: &'a str) -> Fit<'a, Segment> {
        let end = input.find(['{', '%']).unwrap_or(input.len());
        if end == 0 {
            return Err(Misfit);
        }
        let text = Segment { kind: Kind::Text(input[..end].to_string()), format: Format::default() };
        Ok((&input[end..], self.make(text)?))
    }

    /// A brace's content; what is left of it is dropped. It fits or refuses the template, so that no note is taken back.
    fn parse_log_segment(&mut self, depth: usize, content: &'a str) -> Result<Segment, Miss> {
        let (rest, items) = if depth % 2 == 1 {
            separated_list1(':', content, |i| {
                alt(parse_metadata(self.names, i), || alt(parse_format(i), || self.parse_nested(depth, i)))
            })
        } else {
            separated_list1('%', content, |i| {
                alt(self.parse_nested_log_segment(i), || alt(parse_format(i), || self.parse_nested(depth, i)))
            })
        }?;
        self.drop_rest(rest);
        self.lose_parameters(&items);
        self.build_log_segment(alone(items), Refused(3))
    }

    /// The `:`-list at even depth, which misfits where its parts don't go together.
    fn parse_nested_log_segment(&mut self, input: &'a str) -> Fit<'a, Item> {
        let (rest, items) = separated_list1(':', input, |i| alt(parse_metadata(self.names, i), || parse_format(i)))?;
        Ok((rest, Item::Nested(self.build_log_segment(alone(items), Misfit)?)))
    }

    /// A group in a brace of this depth.
    fn parse_nested(&mut self, depth: usize, input: &'a str) -> Fit<'a, Item> {
        let (rest, items) = many0(input, |i| {
            let nested = |(rest, segment)| (rest, Item::Nested(segment));
            alt(self.parse_argument(depth + 1, i).map(nested), || {
                alt(self.parse_string_segment(i).map(nested), || parse_nested_format(i))
            })
        })?;
        let Parts { format, nested, .. } = parts(items).ok_or(Refused(3))?;
        if !nested.iter().any(|member| matches!(member.kind, Kind::Specifier(_))) {
            return Err(Refused(3));
        }
        Ok((rest, Item::Nested(self.make(Segment { kind: Kind::Group(nested), format })?)))
    }

    /// The one group or inner segment, or else a segment of the one specifier.
    fn build_log_segment(&mut self, items: Vec<Item>, wrong: Miss) -> Result<Segment, Miss> {
        let Some(mut parts) = parts(items) else { return Err(wrong) };
        match (parts.specifier, parts.nested.pop(), parts.nested.is_empty()) {
            (None, Some(only), true) => Ok(only),
            (Some(specifier), None, _) => self.make(Segment { kind: Kind::Specifier(specifier), format: parts.format }),
            _ => Err(wrong),
        }
    }

    fn make(&mut self, segment: Segment) -> Result<Segment, Miss> {
        self.made += 1;
        if self.made > MOST_SEGMENTS {
            return Err(Refused(5));
        }
        Ok(segment)
    }

    fn drop_rest(&mut self, rest: &str) {
        if !rest.is_empty() {
            self.unused.dropped.push(self.places(rest));
        }
    }

    /// A content with a group or an inner segment "takes that and loses its own parameters": whatever else it has, or it
    /// is refused.
    fn lose_parameters(&mut self, items: &[(&str, Item)]) {
        let Some(taken) = items.iter().position(|(_, item)| matches!(item, Item::Nested(_))) else { return };
        for (nth, (text, _)) in items.iter().enumerate().filter(|(nth, _)| *nth != taken) {
            let word = self.places(text);
            let separator = if nth < taken { word.end } else { word.start - 1 };
            self.unused.lost.push(Lost { word, separator });
        }
    }

    /// Where a part of the template stands in it.
    fn places(&self, part: &str) -> Range<usize> {
        let start = part.as_ptr() as usize - self.text.as_ptr() as usize;
        start..start + part.len()
    }
}

/// Where the brace closes; a backslash takes the character behind it along.
fn take_until_unbalanced(text: &str) -> Result<usize, Miss> {
    let mut open = 0;
    let mut characters = text.char_indices();
    while let Some((at, character)) = characters.next() {
        match character {
            '\\' if characters.next().is_none() => return Err(Refused(9)),
            '{' => open += 1,
            '}' if open == 0 => return Ok(at),
            '}' => open -= 1,
            _ => {}
        }
    }
    Err(Misfit)
}

/// A whole run of letters of any script, tried as a name.
fn name(input: &str) -> Fit<'_, &str> {
    let end = input.find(|character: char| !character.is_alphabetic()).unwrap_or(input.len());
    let (run, rest) = input.split_at(end);
    if run.is_empty() {
        return Err(Misfit);
    }
    Ok((rest, run))
}

fn parse_metadata(names: Names, input: &str) -> Fit<'_, Item> {
    let (rest, name) = name(input)?;
    let specifier = match name {
        "c" => Specifier::CrateName,
        "F" => Specifier::FilePath,
        "l" => Specifier::LineNumber,
        "s" => Specifier::Log,
        "L" => Specifier::LogLevel,
        "m" => Specifier::ModulePath,
        "t" => Specifier::Timestamp,
        "d" if names == Names::All => Specifier::HeadSerial,
        _ if name.bytes().any(|byte| byte != b'f') => return Err(Misfit),
        _ if name.len() > MOST_F => return Err(Refused(8)),
        _ => Specifier::FileName(name.len() as u8),
    };
    Ok((rest, Item::Specifier(specifier)))
}

fn parse_format(input: &str) -> Fit<'_, Item> {
    alt(parse_color(input), || alt(parse_style(input), || parse_width_and_alignment(input)))
}

/// A `%` of a group and its parameter, which must fit.
fn parse_nested_format(input: &str) -> Fit<'_, Item> {
    let after = input.strip_prefix('%').ok_or(Misfit)?;
    alt(parse_format(after), || Err(Refused(3)))
}

fn parse_color(input: &str) -> Fit<'_, Item> {
    let (rest, name) = name(input)?;
    let colour = match name {
        "severity" => Colour::Severity,
        "werror" => Colour::WarnError,
        _ => {
            let word = name.to_ascii_lowercase();
            let word = if word == "purple" { "magenta" } else { &word };
            Colour::Fixed(COLOURS.iter().position(|known| *known == word).ok_or(Misfit)?)
        }
    };
    Ok((rest, Item::Colour(colour)))
}

fn parse_style(input: &str) -> Fit<'_, Item> {
    let (rest, name) = name(input)?;
    let place = STYLES.iter().position(|style| style.0 == name).ok_or(Misfit)?;
    Ok((rest, Item::Style(place)))
}

fn parse_width_and_alignment(input: &str) -> Fit<'_, Item> {
    let alignment = match input.bytes().next() {
        Some(b'<') => Some(Alignment::Left),
        Some(b'^') => Some(Alignment::Centre),
        Some(b'>') => Some(Alignment::Right),
        _ => None,
    };
    let input = &input[usize::from(alignment.is_some())..];
    let end = input.bytes().position(|byte| !byte.is_ascii_digit()).unwrap_or(input.len());
    let (digits, rest) = input.split_at(end);
    if digits.is_empty() {
        return Err(Misfit);
    }
    let padding = if digits.starts_with('0') { Padding::Zero } else { Padding::Space };
    let value =
        digits.bytes().fold(0, |sum: usize, digit| sum.saturating_mul(10).saturating_add((digit - b'0').into()));
    if value > MOST_WIDTH {
        return Err(Refused(7));
    }
    Ok((rest, Item::Width(value, padding, alignment)))
}

#[derive(Default)]
struct Parts {
    specifier: Option<Specifier>,
    format: Format,
    nested: Vec<Segment>,
}

/// None where something is given twice.
fn parts(items: Vec<Item>) -> Option<Parts> {
    let mut sum = Parts::default();
    let format = &mut sum.format;
    for item in items {
        match item {
            Item::Specifier(specifier) if sum.specifier.is_none() => sum.specifier = Some(specifier),
            Item::Colour(colour) if format.colour.is_none() => format.colour = Some(colour),
            Item::Style(place) if format.styles >> place & 1 == 0 => format.styles |= 1 << place,
            Item::Width(width, padding, alignment) if format.width.is_none() => {
                (format.width, format.padding, format.alignment) = (Some(width), Some(padding), alignment)
            }
            Item::Nested(segment) => sum.nested.push(segment),
            _ => return None,
        }
    }
    Some(sum)
}

fn alt<'a, T>(first: Fit<'a, T>, next: impl FnOnce() -> Fit<'a, T>) -> Fit<'a, T> {
    match first {
        Err(Misfit) => next(),
        decided => decided,
    }
}

fn many0<'a, T>(mut rest: &'a str, mut item: impl FnMut(&'a str) -> Fit<'a, T>) -> Fit<'a, Vec<T>> {
    let mut items = Vec::new();
    loop {
        match item(rest) {
            Ok((after, one)) => {
                items.push(one);
                rest = after;
            }
            Err(Misfit) => return Ok((rest, items)),
            Err(refused) => return Err(refused),
        }
    }
}

/// Each item with the text that it was read from. Ends before a separator whose next item doesn't fit.
fn separated_list1<'a, T>(
    separator: char,
    input: &'a str,
    mut item: impl FnMut(&'a str) -> Fit<'a, T>,
) -> Fit<'a, Vec<(&'a str, T)>> {
    let before = |from: &'a str, rest: &str| &from[..from.len() - rest.len()];
    let (mut rest, first) = item(input)?;
    let mut items = vec![(before(input, rest), first)];
    while let Some(from) = rest.strip_prefix(separator) {
        match item(from) {
            Ok((after, one)) => {
                items.push((before(from, after), one));
                rest = after;
            }
            Err(Misfit) => break,
            Err(refused) => return Err(refused),
        }
    }
    Ok((rest, items))
}

/// The items without their texts.
fn alone(items: Vec<(&str, Item)>) -> Vec<Item> {
    items.into_iter().map(|(_, item)| item).collect()
}
