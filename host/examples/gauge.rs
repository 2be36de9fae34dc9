//! Draws docs/gauge.svg: a line of samples/wall.sheet as it stood in last year's plain record, and below it the same line this year in
//! the crate's colour and in straight colour, with the gauge's column cut by position. host/picture writes the file.

mod drawing;

use drawing::{cut, shown, Picture, ROW};
use pralakuon::{Settings, Sheet};
use std::error::Error;
use std::ops::Range;

/// The gauge's column in the plain record.
const GAUGE: Range<usize> = 55..63;

/// Columns of a line that are shown.
const SHOWN: usize = 64;

const PANELS: [(&str, Settings); 2] = [
    ("this year, in the crate's colour", Settings::CRATE_COLOUR),
    ("this year, in straight colour", Settings::STRAIGHT_COLOUR),
];

fn main() -> Result<(), Box<dyn Error>> {
    let bytes = std::fs::read(concat!(env!("CARGO_MANIFEST_DIR"), "/../samples/wall.sheet"))?;
    let sheet = Sheet::read(&bytes)?;
    let line = |settings| shown(sheet.template, settings, sheet.records[0]);
    let plain = line(Settings::PLAIN)?;
    let right = cut(&plain, &GAUGE);

    let description = format!(
        "The same record twice, last year's plain line above this year's. In the crate's colour this year's line stands two \
         places further left, and the gauge's column is cut as {}. In straight colour it is cut as {right}, as last year.",
        cut(&line(Settings::CRATE_COLOUR)?, &GAUGE)
    );
    let mut picture = Picture::new("A column cut by position", &description, 4.5 * ROW + 12.0, GAUGE, SHOWN);
    let mut top = 4.0;
    for (title, settings) in PANELS {
        picture.row(top, "last year, plain", &plain, &right)?;
        picture.row(top + ROW, title, &line(settings)?, &right)?;
        top += 2.5 * ROW;
    }
    println!("{}", picture.finish());
    Ok(())
}
