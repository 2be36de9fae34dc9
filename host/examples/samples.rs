//! Makes samples/: a wall scan as a session sheet in each of the three modes, one of a French crew, one of two heads, one
//! of sites with Japanese names, one of self-tests that failed, one whose template is refused, and what is printed of
//! them. host/samples runs it.

use pralakuon::{session, HostRecord, Level, Record, Settings, SheetWriter};
use std::error::Error;
use std::fs::write;
use std::path::Path;

/// Every field before the gauge's has a width, the time too: without one, 10 seconds are a place wider than 9.
const TEMPLATE: &str = "{t:>12} {[{L}]%bold%<9}|{gauge {c:>8}: {s:>24}%dimmed%40}| {ff:>20}:{l}";

/// As a French crew writes it: a name is a whole run of letters, so `Température` and `relevé` are text.
const FRENCH: &str = "{t:>12} {Température {L}%bold%<19}|{relevé : {s:>24}%dimmed%33}| {ff:>20}:{l}";

/// Which head measured it stands in a column of its own. `<head>`, for a record that does not say, has six characters. The
/// message is in a group, so that the tablet's is padded, too.
const HEADS: &str = "{t:>12} {d:>6} {[{L}]%bold%<9}|{{s}%>24}|";

/// The site stands in a column of its own, which is the crate of a record here. By the places rule twelve places are the six
/// wide characters of the longest name.
const PLACES: &str = "{t:>12} {[{L}]%bold%<9}|{c:12}|{{s}%>16}|";

/// The message stands last: where it is a comparison report, it has several lines.
const SELF_TEST: &str = "{t:>12} {[{L}]%bold%<9}|{s}";

/// As a technician mistyped it: the `%` ends the template, and the time is dropped with all that follows.
const MISTYPED: &str = "{s} %{t}";

const MODES: [(&str, Settings); 3] =
    [("wall", Settings::PLAIN), ("wall-crate", Settings::CRATE_COLOUR), ("wall-straight", Settings::STRAIGHT_COLOUR)];

fn main() -> Result<(), Box<dyn Error>> {
    let folder = Path::new(env!("CARGO_MANIFEST_DIR")).join("../samples");
    let leave = |name: &str, sheet: Vec<u8>| -> Result<(), Box<dyn Error>> {
        write(folder.join(name).with_extension("sheet"), &sheet)?;
        // Where the whole sheet is refused, that is all that the program prints.
        let printed = session(&sheet).unwrap_or_else(|refusal| format!("! {}\n", refusal.number()).into());
        write(folder.join(name).with_extension("txt"), printed)?;
        Ok(())
    };
    for (name, settings) in MODES {
        leave(name, scan(settings, TEMPLATE)?)?;
    }
    leave("strict", scan(Settings::PLAIN.with_strict(true), MISTYPED)?)?;
    leave("mur", french_scan()?)?;
    leave("wall-heads", scan_of_two_heads()?)?;
    leave("wall-places", scan_of_japanese_sites()?)?;
    leave("self-test", failed_self_tests()?)
}

/// The scan: the device's readings, a print, and a word of the tablet itself.
fn scan(settings: Settings, template: &str) -> Result<Vec<u8>, Box<dyn Error>> {
    let gauge = Record::new(Level::Info, "wall B3 crack 0.412 mm")
        .with_file("/head/src/gauge.rs")
        .with_line(118)
        .with_module_path("gauge::read")
        .with_timestamp("9.997500");
    let trolley = Record::new(Level::Warn, "wheel slipped")
        .with_file("/head/src/trolley.rs")
        .with_line(7)
        .with_module_path("trolley::step")
        .with_timestamp("10.002500");
    let tablet = HostRecord::new(Level::Debug, "sheet closed")
        .with_file("/tablet/app.rs")
        .with_line(40)
        .with_module_path("tablet::app");
    let lost = gauge.with_level(Level::Error).with_line(131).with_message("reading lost, été");
    let mut sheet = SheetWriter::new(settings, template.as_bytes())?;
    sheet.push(&gauge)?;
    sheet.push(&gauge.with_timestamp("10.000000").with_message("wall B3 crack 0.415 mm"))?;
    sheet.push(&trolley)?;
    sheet.push(&lost.with_timestamp("10.005000"))?;
    sheet.push(&Record::print("scan of wall B3 ends"))?;
    sheet.push(&tablet)?;
    Ok(sheet.finish())
}

/// The scan of a French crew: the wall's temperature, a sensor that came loose, a print, and a word of the tablet itself.
fn french_scan() -> Result<Vec<u8>, Box<dyn Error>> {
    let sensor = Record::new(Level::Info, "mur B3, 18,4 °C")
        .with_file("/tête/src/température.rs")
        .with_line(52)
        .with_module_path("température::relevé")
        .with_timestamp("9.997500");
    let tablet = HostRecord::new(Level::Debug, "feuille fermée")
        .with_file("/tablette/app.rs")
        .with_line(40)
        .with_module_path("tablette::app");
    let loose = sensor.with_level(Level::Warn).with_line(60).with_message("sonde décollée");
    let mut sheet = SheetWriter::new(Settings::PLAIN, FRENCH.as_bytes())?;
    sheet.push(&sensor)?;
    sheet.push(&sensor.with_timestamp("10.000000").with_message("mur B3, 18,5 °C"))?;
    sheet.push(&loose.with_timestamp("10.002500"))?;
    sheet.push(&Record::print("fin du relevé du mur B3"))?;
    sheet.push(&tablet)?;
    Ok(sheet.finish())
}

/// Two heads at one wall. The trolley has no head, a new one has no serial yet, and a print shows none.
fn scan_of_two_heads() -> Result<Vec<u8>, Box<dyn Error>> {
    let crack = |head, timestamp, message| Record::new(Level::Info, message).with_timestamp(timestamp).with_head(head);
    let lost = crack("H-12", "10.002500", "reading lost, été").with_level(Level::Error);
    let tablet = HostRecord::new(Level::Debug, "head changed").with_head("H-12");
    let mut sheet = SheetWriter::new(Settings::PLAIN, HEADS.as_bytes())?;
    sheet.push(&Record::new(Level::Warn, "wheel slipped").with_timestamp("9.995000"))?;
    sheet.push(&crack("H-07", "9.997500", "wall B3 crack 0.412 mm"))?;
    sheet.push(&crack("H-12", "10.000000", "wall B3 crack 0.388 mm"))?;
    sheet.push(&lost)?;
    sheet.push(&tablet)?;
    sheet.push(&crack("", "10.005000", "wall B3 crack 0.391 mm"))?;
    sheet.push(&Record::print("scan of wall B3 ends").with_head("H-07"))?;
    Ok(sheet.finish())
}

/// Self-tests of a head, in colour as the crew sees them: three that failed, one of them reported by a print and one with
/// two lines above its values; and a word of the tablet itself.
fn failed_self_tests() -> Result<Vec<u8>, Box<dyn Error>> {
    let test = |level, timestamp, message| Record::new(level, message).with_timestamp(timestamp);
    let gauge = "the gauge's self-test failed\n left: `1.25 mm`\nright: `1.5 mm`";
    let trolley = "self-test of the trolley failed, wheel 2\n left: `1024 steps`\nright: `1000 steps`";
    let lamp = "self-test of the lamp failed,\nthe head does not scan\n left: `été`\nright: `étés`";
    let mut sheet = SheetWriter::new(Settings::STRAIGHT_COLOUR, SELF_TEST.as_bytes())?;
    sheet.push(&test(Level::Info, "9.987500", "self-test begins"))?;
    sheet.push(&test(Level::Error, "9.990000", gauge))?;
    sheet.push(&Record::print(trolley))?;
    sheet.push(&test(Level::Error, "9.992500", lamp))?;
    sheet.push(&HostRecord::new(Level::Warn, "scan put off"))?;
    Ok(sheet.finish())
}

/// Sites abroad, with names of wide characters, of halfwidth ones and of ASCII; a message in Japanese, a print, and a word of
/// the tablet itself.
fn scan_of_japanese_sites() -> Result<Vec<u8>, Box<dyn Error>> {
    let crack =
        |site, timestamp, message| Record::new(Level::Info, message).with_timestamp(timestamp).with_module_path(site);
    let slipped = crack("ﾄﾗｽ-3::trolley", "10.005000", "wheel slipped").with_level(Level::Warn);
    // Not measured.
    let lost = crack("東塔・二階窓::gauge", "10.007500", "計測できず").with_level(Level::Error);
    let tablet = HostRecord::new(Level::Debug, "sheet closed").with_module_path("tablet::app");
    let mut sheet = SheetWriter::new(Settings::PLAIN.with_places(true), PLACES.as_bytes())?;
    sheet.push(&crack("B3::gauge", "9.997500", "crack 0.412 mm"))?;
    sheet.push(&crack("北壁::gauge", "10.000000", "crack 0.388 mm"))?;
    sheet.push(&crack("蔵の土壁::gauge", "10.002500", "crack 0.391 mm"))?;
    sheet.push(&slipped)?;
    sheet.push(&lost)?;
    // The scan of the north wall ends.
    sheet.push(&Record::print("北壁の走査を終了"))?;
    sheet.push(&tablet)?;
    Ok(sheet.finish())
}
