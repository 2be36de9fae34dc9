//! Draws docs/places.svg: two lines of samples/wall-places.sheet, one of a site with a Japanese name, as they stand in the columns of a
//! terminal, with the gauge's column cut by position. Above widths count characters, below they count places. host/picture writes the
//! file.

mod drawing;

use drawing::{cut, shown, Picture, ROW};
use pralakuon::{RawRecord, Settings, Sheet};
use std::error::Error;
use std::ops::Range;

/// The gauge's column behind a site of any name.
const GAUGE: Range<usize> = 44..52;

/// Columns of a line that are shown.
const SHOWN: usize = 57;

const PANELS: [(&str, Settings); 2] = [
    ("widths count characters, as in the crate", Settings::PLAIN),
    ("widths count places: a wide character takes two", Settings::PLAIN.with_places(true)),
];

/// The records that are shown, by the crates that they are of: these are the sites.
const SITES: [&str; 2] = ["B3", "蔵の土壁"];

fn main() -> Result<(), Box<dyn Error>> {
    let bytes = std::fs::read(concat!(env!("CARGO_MANIFEST_DIR"), "/../samples/wall-places.sheet"))?;
    let sheet = Sheet::read(&bytes)?;
    let line = |settings, record| shown(sheet.template, settings, record);
    let of_site = |site: &str| {
        let module = format!("{site}::gauge");
        sheet.records.iter().find(|record| record.module_path == module.as_bytes()).copied().ok_or("no such site")
    };
    let [narrow, wide] = SITES.map(of_site);
    let (narrow, wide) = (narrow?, wide?);

    let description = format!(
        "The lines of two sites, {} and {}, twice. Where widths count characters, the line with the Japanese name stands four columns \
         further right, and the gauge's column is cut as {}. Where they count places it is cut as {}, as it was measured.",
        SITES[0],
        SITES[1],
        cut(&line(Settings::PLAIN, wide)?, &GAUGE),
        measured(wide)?
    );
    let title = "A column behind a Japanese name";
    let mut picture = Picture::new(title, &description, 4.5 * ROW + 12.0, GAUGE, SHOWN);
    let mut top = 4.0;
    for (title, settings) in PANELS {
        picture.row(top, title, &line(settings, narrow)?, measured(narrow)?)?;
        picture.row(top + ROW, "the same, with a Japanese name", &line(settings, wide)?, measured(wide)?)?;
        top += 2.5 * ROW;
    }
    println!("{}", picture.finish());
    Ok(())
}

/// What the gauge said, which is the end of the message: what is right, whatever a line makes of it.
fn measured<'a>(record: RawRecord<'a>) -> Result<&'a str, Box<dyn Error>> {
    let message = std::str::from_utf8(record.message)?;
    Ok(&message[message.len() - GAUGE.len()..])
}
