//! What the pictures of the README share: lines drawn character by character in a terminal's columns, with a column cut out by position.

use pralakuon::{line, visible_str, RawRecord, Settings};
use std::error::Error;
use std::fmt::Write;
use std::ops::Range;

/// Pixels: from one column to the next, from one row to the next, from the left edge.
const ADVANCE: f64 = 12.0;
pub const ROW: f64 = 56.0;
const MARGIN: f64 = 16.0;

/// A character that is seen, with the look that the codes before it gave it.
pub struct Glyph {
    seen: char,
    look: String,
}

/// The line of a record, as what is seen of it.
pub fn shown(template: &[u8], settings: Settings, record: RawRecord) -> Result<Vec<Glyph>, Box<dyn Error>> {
    let mut out = [0; 1024];
    let length = line(template, settings, record, &mut out)?;
    glyphs(std::str::from_utf8(&out[..length])?)
}

/// The characters that are seen of a line. The samples have no byte 27 in their texts, so each is the beginning of a colour sequence.
fn glyphs(line: &str) -> Result<Vec<Glyph>, Box<dyn Error>> {
    let mut glyphs = Vec::new();
    let mut look = String::new();
    let ends = line.match_indices('\x1b').map(|(at, _)| at).chain([line.len()]);
    let mut start = 0;
    for end in ends {
        let part = &line[start..end];
        let seen = visible_str(part)?;
        change(&mut look, &part[..part.len() - seen.len()]);
        glyphs.extend(seen.chars().map(|seen| Glyph { seen, look: look.clone() }));
        start = end;
    }
    Ok(glyphs)
}

/// What a colour sequence makes of a look.
fn change(look: &mut String, sequence: &str) {
    for code in sequence.split(['\x1b', '[', ';', 'm']).filter(|code| !code.is_empty()) {
        match code {
            "0" => look.clear(),
            "1" => look.push_str("font-weight:bold;"),
            "2" => look.push_str("opacity:.6;"),
            "32" => look.push_str("fill:#080;"),
            code => panic!("no picture has the code {code} yet"),
        }
    }
}

/// The columns that a terminal gives to a character, by the block that it stands in. What is counted by the archive is on trial in a
/// picture, so it is not asked.
fn columns(character: char) -> usize {
    match character {
        ' '..='~' => 1,
        // Hiragana, Katakana; CJK Unified Ideographs.
        '\u{3040}'..='\u{30ff}' | '\u{4e00}'..='\u{9fff}' => 2,
        _ => panic!("no picture has {character:?} yet"),
    }
}

/// The characters of a line, each with the column that it begins at.
fn placed(glyphs: &[Glyph]) -> impl Iterator<Item = (usize, &Glyph)> {
    glyphs.iter().scan(0, |next, glyph| {
        let at = *next;
        *next += columns(glyph.seen);
        Some((at, glyph))
    })
}

/// What is cut out of a line at a column.
pub fn cut(glyphs: &[Glyph], column: &Range<usize>) -> String {
    placed(glyphs).filter(|(at, _)| column.contains(at)).map(|(_, glyph)| glyph.seen).collect()
}

pub struct Picture {
    svg: String,
    /// Where lines are cut.
    column: Range<usize>,
    /// Columns of a line that are shown.
    shown: usize,
}

impl Picture {
    pub fn new(title: &str, description: &str, height: f64, column: Range<usize>, shown: usize) -> Picture {
        let width = shown as f64 * ADVANCE + 2.0 * MARGIN;
        let svg = format!(
            "<svg xmlns=\"http://www.w3.org/2000/svg\" viewBox=\"0 0 {width:.0} {height:.0}\" role=\"img\">\n\
             <title>{title}</title>\n\
             <desc>{description}</desc>\n\
             <style>text {{ white-space: pre }} .line {{ font: 20px monospace }} .word {{ font: 16px sans-serif; fill: #444 }}</style>\n\
             <rect width=\"100%\" height=\"100%\" fill=\"#fff\"/>\n",
        );
        Picture { svg, column, shown }
    }

    /// A line with the column, green where what is cut is right and red where it is not, and what is cut beside the title.
    pub fn row(&mut self, top: f64, title: &str, glyphs: &[Glyph], right: &str) -> std::fmt::Result {
        let cut = cut(glyphs, &self.column);
        let (ground, ink) = if cut == right { ("#bfe8bf", "#060") } else { ("#ffc4c4", "#b00") };
        let (left, breadth) = (MARGIN + self.column.start as f64 * ADVANCE, self.column.len() as f64 * ADVANCE);
        writeln!(
            self.svg,
            "<rect x=\"{left}\" y=\"{}\" width=\"{breadth}\" height=\"28\" fill=\"{ground}\" stroke=\"{ink}\" stroke-width=\"2\"/>",
            top + 24.0
        )?;
        writeln!(
            self.svg,
            "<text class=\"word\" x=\"{MARGIN}\" y=\"{y}\">{title}</text>\
             <text class=\"line\" x=\"{left}\" y=\"{y}\" style=\"fill:{ink};font-weight:bold\">{}</text>",
            escaped(&cut),
            y = top + 18.0
        )?;
        placed(glyphs).try_for_each(|(at, glyph)| self.glyph(top, at, glyph))
    }

    /// A character at its own place, so that columns stand whatever the font. Under one of two columns there is a tile, to count them by.
    fn glyph(&mut self, top: f64, at: usize, glyph: &Glyph) -> std::fmt::Result {
        let breadth = columns(glyph.seen);
        if glyph.seen == ' ' || at + breadth > self.shown {
            return Ok(());
        }
        let (left, wide) = (MARGIN + at as f64 * ADVANCE, breadth as f64 * ADVANCE);
        let mut manner = String::new();
        if breadth > 1 {
            let (x, y, tile) = (left + 0.5, top + 27.0, wide - 1.0);
            writeln!(self.svg, "<rect x=\"{x}\" y=\"{y}\" width=\"{tile}\" height=\"23\" fill=\"#e4e9f2\"/>")?;
            manner += " xml:lang=\"ja\"";
        }
        if !glyph.look.is_empty() {
            write!(manner, " style=\"{}\"", glyph.look)?;
        }
        writeln!(
            self.svg,
            "<text class=\"line\" text-anchor=\"middle\" x=\"{}\" y=\"{}\"{manner}>{}</text>",
            left + wide / 2.0,
            top + 45.0,
            escaped(&glyph.seen.to_string())
        )
    }

    pub fn finish(self) -> String {
        self.svg + "</svg>"
    }
}

fn escaped(text: &str) -> String {
    text.replace('&', "&amp;").replace('<', "&lt;").replace('>', "&gt;")
}
