//! What document 01 rules, with document 02's letters (E3), strict templates (E5), heads (E7), comparison reports (E10) and
//! places (E14), decided a second time and without a look at the port: which number a template, a record or a sheet gets, in
//! the documents' order, and the line. Wherever the crate has an answer, it judges these rulings too.

pub mod line;
mod reader;
pub mod report;
mod unused;
pub mod wide;

pub use line::{line, line_with};
pub use reader::{parse, Names, Reading};
pub use unused::{Lost, Unused};

use crate::sheet::{Layout, Record, Sheet};
use crate::tree::{names, Specifier};

/// The program's buffer for a line.
pub const LINE_ROOM: usize = 65536;
const MOST_SHEET: usize = 65536;
const MOST_FIELD: usize = 4096;
const MOST_SERIAL: usize = 32;
/// What each field may have at most, in their order.
const MOST: [usize; 5] = [MOST_FIELD, MOST_FIELD, MOST_FIELD, MOST_FIELD, MOST_SERIAL];

/// The reading of a template in the first edition, or its number: 1 to 9. The strict edition reads it where nothing of it
/// is unused, and gives 17 with the place where something is.
pub fn template(template: &[u8], by: Names) -> Result<Reading, u8> {
    let reading = parse(template, by)?;
    let has_message = names(&reading.segments, &|specifier| specifier == Specifier::Log);
    has_message.then_some(reading).ok_or(4)
}

/// 14, 11 or 12, the first that holds of a record.
pub fn record(record: &Record, layout: Layout) -> Option<u8> {
    let field = |(field, most): (&[u8], usize)| match field {
        _ if field.len() > most => Some(11),
        _ if std::str::from_utf8(field).is_err() => Some(12),
        _ => None,
    };
    if record.is_possible(layout) {
        record.fields().into_iter().zip(MOST).find_map(field)
    } else {
        Some(14)
    }
}

/// A sheet that is not 15.
pub fn sheet(bytes: &[u8]) -> Option<Sheet> {
    if bytes.len() > MOST_SHEET {
        return None;
    }
    Sheet::read(bytes)
}

/// What the program prints for a sheet: a line or a refusal for each record, or one refusal for all.
pub fn printed(bytes: &[u8]) -> Vec<u8> {
    let Some(sheet) = sheet(bytes) else { return refused(15) };
    match template(&sheet.template, Names::All) {
        Err(number) => refused(number),
        Ok(reading) if sheet.strict() && reading.unused.place().is_some() => refused(17),
        Ok(reading) => sheet.records.iter().flat_map(|record| printed_record(&reading, record, &sheet)).collect(),
    }
}

fn printed_record(reading: &Reading, record: &Record, sheet: &Sheet) -> Vec<u8> {
    if let Some(number) = self::record(record, sheet.layout()) {
        return refused(number);
    }
    match line(&reading.segments, record, sheet.settings).text {
        text if text.len() > LINE_ROOM => refused(13),
        text => (text + "\n").into_bytes(),
    }
}

fn refused(number: u8) -> Vec<u8> {
    format!("! {number}\n").into_bytes()
}
