//! Heads: which head measured it, in both layouts of a record.

mod common;

use common::{
    archive_refuses, hand_laid, hand_laid_with_head, hello, line_of, printed, printed_alone, sample, sheet_of, told,
    written,
};
use pralakuon::{
    check, entries, line, session, visible_str, Formatter, FormatterConfig, HostFormatter, HostRecord, Level,
    RawRecord, Record, Refusal, Settings, Sheet, SheetWriter,
};

/// The settings bit that says that records are laid out with heads.
const HEADS: u8 = 8;

/// A serial of the most bytes that one may have, and one of one more.
const LONGEST: [u8; 32] = [b'h'; 32];
const TOO_LONG: [u8; 33] = [b'h'; 33];

/// What a line call answers to a record as it is laid out here: the line, or a refusal's number.
fn answered(template: &str, settings: u8, record: &[u8]) -> Result<String, u8> {
    let mut out = [0; 5_000];
    let answer = entries::line(template.as_bytes(), settings, record, &mut out);
    match entries::refusal_of(answer) {
        0 => Ok(String::from_utf8(out[..entries::length_of(answer)].to_vec()).unwrap()),
        number => Err(number),
    }
}

/// A session says the same of a sheet with this record alone.
fn answered_twice(template: &str, settings: u8, record: &[u8]) -> Result<String, u8> {
    let answer = answered(template, settings, record);
    let sheet = sheet_of(&[&[&[settings], template.as_bytes()].concat(), record]);
    let due = answer.clone().map_or_else(told, |line| (line + "\n").into_bytes());
    assert_eq!(printed(&sheet), due, "{template} {settings}");
    answer
}

fn is_line(line: &str) -> Result<String, u8> {
    Ok(line.to_string())
}

/// The line of a record by every way that a caller has.
fn shown(template: &str, record: &Record) -> String {
    let formatter = Formatter::new(FormatterConfig::custom(template)).unwrap();
    let line = formatter.format(record).unwrap();
    assert_eq!(line_of(template.as_bytes(), Settings::PLAIN, record), Ok(line.clone().into_bytes()));
    let mut writer = SheetWriter::new(Settings::PLAIN, template.as_bytes()).unwrap();
    writer.push(record).unwrap();
    let sheet = writer.finish();
    assert_eq!(session(&sheet), Ok(format!("{line}\n").into_bytes()));
    assert_eq!(Sheet::read(&sheet).unwrap().lines().next(), Some(Ok(line.clone().into_bytes())));
    line
}

fn info() -> Record<'static> {
    Record::new(Level::Info, "hello")
}

fn headed_sheet(records: &[RawRecord]) -> Vec<u8> {
    let mut writer = SheetWriter::new(Settings::PLAIN, b"{d} {s}").unwrap();
    records.iter().for_each(|record| writer.push(record).unwrap());
    writer.finish()
}

#[test]
fn a_head_is_shown() {
    assert_eq!(shown("{d} {s}", &info().with_head("H-07")), "H-07 hello");
    assert_eq!(answered_twice("{d} {s}", HEADS, &hand_laid_with_head(b"hello", 8, b"H-07")), is_line("H-07 hello"));
    // At every depth, more than once, and beside the rest of the record.
    assert_eq!(shown("{[{d}]%bold}{({[{d}] {s}}) {L}}", &info().with_head("H-07")), "[H-07]([H-07] hello) INFO ");
}

#[test]
fn an_absent_head_is_told_and_an_empty_one_is_empty() {
    assert_eq!(shown("{d} {s}", &info()), "<head> hello");
    assert_eq!(shown("{d} {s}", &info().with_head(None)), "<head> hello");
    assert_eq!(shown("{d} {s}", &info().with_head("")), " hello");
    assert_eq!(answered_twice("{d} {s}", HEADS, &hand_laid_with_head(b"hello", 0, b"")), is_line("<head> hello"));
    assert_eq!(answered_twice("{d} {s}", HEADS, &hand_laid_with_head(b"hello", 8, b"")), is_line(" hello"));
}

#[test]
fn a_record_of_the_old_layout_has_no_head() {
    for settings in (0..8).chain(16..24) {
        let line = answered_twice("{d} {s}", settings, &hand_laid(b"hello"));
        assert_eq!(line, is_line("<head> hello"), "settings {settings}");
    }
}

#[test]
fn a_head_is_padded_and_aligned() {
    let templates = [
        ("{d:>6}|{s}", "  H-07|hello", "<head>|hello", "      |hello"),
        ("{d:6}|{s}", "H-07  |hello", "<head>|hello", "      |hello"),
        ("{d:<8}|{s}", "H-07    |hello", "<head>  |hello", "        |hello"),
        ("{d:^9}|{s}", "  H-07   |hello", " <head>  |hello", "         |hello"),
        ("{d:>08}|{s}", "0000H-07|hello", "00<head>|hello", "00000000|hello"),
        // It is never cut, and has no width of its own.
        ("{d:3}|{s}", "H-07|hello", "<head>|hello", "   |hello"),
        ("{d:0}|{s}", "H-07|hello", "<head>|hello", "|hello"),
        ("{[{d}]%>9}|{s}", "   [H-07]|hello", " [<head>]|hello", "       []|hello"),
    ];
    for (template, there, absent, empty) in templates {
        assert_eq!(shown(template, &info().with_head("H-07")), there);
        assert_eq!(shown(template, &info()), absent);
        assert_eq!(shown(template, &info().with_head("")), empty);
    }
    // Characters are counted, and not bytes.
    assert_eq!(shown("{d:>6}|{s}", &info().with_head("é→😀")), "   é→😀|hello");
}

#[test]
fn a_mask_of_the_old_layout_ends_at_7() {
    for mask in 0..=255 {
        for level in [0, 3] {
            let mut record = hand_laid(b"hello");
            (record[1], record[2]) = (level, mask);
            let due = if mask < 8 { is_line("hello") } else { Err(14) };
            assert_eq!(answered_twice("{s}", 0, &record), due, "mask {mask}, level {level}");
        }
    }
}

#[test]
fn a_mask_of_the_new_layout_ends_at_15() {
    for mask in 0..=255 {
        for level in [0, 3] {
            let mut record = hand_laid_with_head(b"hello", mask, b"");
            record[1] = level;
            let due = if mask < 16 { is_line("hello") } else { Err(14) };
            assert_eq!(answered_twice("{s}", HEADS, &record), due, "mask {mask}, level {level}");
        }
    }
}

#[test]
fn an_absent_head_with_a_length_is_14() {
    for mask in 0..16 {
        let due = if mask & 8 == 0 { Err(14) } else { is_line("hello") };
        assert_eq!(answered_twice("{s}", HEADS, &hand_laid_with_head(b"hello", mask, b"h")), due, "mask {mask}");
    }
    // So it is through the crate, which lays out what it is given, and 14 comes before what is wrong with the text.
    for serial in [&b"h"[..], b"\xff", &TOO_LONG] {
        let record = hello().with_head(serial).with_mask(0);
        assert_eq!(line_of(b"{s}", Settings::PLAIN, record), Err(Refusal::NotARecord));
        assert_eq!(printed(&headed_sheet(&[record])), told(14));
    }
}

#[test]
fn a_serial_has_32_bytes_at_most() {
    let answer = |serial: &[u8]| answered_twice("{d}|{s}", HEADS, &hand_laid_with_head(b"hello", 8, serial));
    assert_eq!(answer(&LONGEST), is_line(&("h".repeat(32) + "|hello")));
    assert_eq!(answer("é".repeat(16).as_bytes()), is_line(&("é".repeat(16) + "|hello")));
    assert_eq!(answer(&TOO_LONG), Err(11));
    assert_eq!(answer(&[b'h'; 4_096]), Err(11));
    // Too long comes before not UTF-8.
    assert_eq!(answer(&[0xff; 33]), Err(11));
    assert_eq!(answer(&[0xff; 32]), Err(12));
    assert_eq!(answer(b"\xff"), Err(12));
    assert_eq!(answer(b"H-\xc3"), Err(12));
}

#[test]
fn what_is_wrong_with_a_serial_comes_after_what_is_wrong_with_the_message() {
    let long = [b'm'; 4_097];
    let answer = |message: &[u8], serial: &[u8]| answered_twice("{s}", HEADS, &hand_laid_with_head(message, 8, serial));
    assert_eq!(answer(b"\xff", &TOO_LONG), Err(12));
    assert_eq!(answer(&long, b"\xff"), Err(11));
    assert_eq!(answer(b"m", &TOO_LONG), Err(11));
    assert_eq!(answer(b"m", b"\xff"), Err(12));
    // And so after that of every other text.
    let others = [hello().with_file(b"\xff"), hello().with_module_path(b"\xff"), hello().with_timestamp(b"\xff")];
    for other in others {
        assert_eq!(line_of(b"{s}", Settings::PLAIN, other.with_head(&TOO_LONG)), Err(Refusal::FieldNotUtf8));
    }
}

#[test]
fn a_record_of_the_other_layout_is_15() {
    let (old, new) = (hand_laid(b"hello"), hand_laid_with_head(b"hello", 8, b"H-07"));
    assert_eq!(answered_twice("{s}", HEADS, &old), Err(15));
    assert_eq!(answered_twice("{s}", 0, &new), Err(15));
    // The size is looked at before the template, and 17 bytes are the least.
    assert_eq!(answered_twice("{t}", HEADS, &old), Err(15));
    for size in 0..17 {
        assert_eq!(answered_twice("{s}", HEADS, &hand_laid_with_head(b"", 0, b"")[..size]), Err(15), "{size} bytes");
    }
    assert_eq!(answered_twice("{s}", HEADS, &[0; 17]), is_line(""));
    assert_eq!(answered_twice("{s}", 0, &[0; 15]), is_line(""));
    // The other lengths stand at the same places in both, so that no record is right in both, not even one whose message
    // begins as the length of no serial does.
    let zeros = hand_laid(b"\0\0hello");
    assert_eq!(answered_twice("{s}", 0, &zeros), is_line("\0\0hello"));
    assert_eq!(answered_twice("{s}", HEADS, &zeros), Err(15));
}

#[test]
fn a_long_serial_is_cut_where_it_is_still_refused() {
    // 65,536 and 65,541 bytes would pass for none and for 5, if their length were cut to 16 bits.
    for bytes in [33, 34, 4_096, 4_097, 65_535, 65_536, 65_541, 70_000] {
        let serial = "h".repeat(bytes);
        let record = hello().with_head(serial.as_bytes());
        assert_eq!(line_of(b"{d}{s}", Settings::PLAIN, record), Err(Refusal::FieldTooLong), "{bytes} bytes");
        let formatter = Formatter::new(FormatterConfig::custom("{s}")).unwrap();
        assert_eq!(formatter.format(&info().with_head(serial.as_str())), Err(Refusal::FieldTooLong));
        let host = HostFormatter::new(FormatterConfig::custom("{s}")).unwrap();
        let record = HostRecord::new(Level::Info, "hello").with_head(serial.as_str());
        assert_eq!(host.format(&record), Err(Refusal::FieldTooLong));
    }
    // Also where only the cut splits a character.
    assert_eq!(line_of(b"{s}", Settings::PLAIN, &info().with_head(&*"é".repeat(17))), Err(Refusal::FieldTooLong));
    assert_eq!(Record::LONGEST_HEAD, LONGEST.len());
    assert_eq!(shown("{d}{s}", &info().with_head(&*"é".repeat(16))), "é".repeat(16) + "hello");
}

#[test]
fn a_host_shows_the_head_that_it_speaks_of() {
    let record = HostRecord::new(Level::Debug, "head changed");
    let host = HostFormatter::new(FormatterConfig::custom("{t} {d:>6}|{s:>20}")).unwrap();
    assert_eq!(host.format(&record.with_head("H-12")).as_deref(), Ok("<time>   H-12|head changed"));
    assert_eq!(host.format(&record.with_head("")).as_deref(), Ok("<time>       |head changed"));
    assert_eq!(host.format(&record).as_deref(), Ok("<time> <head>|head changed"));
    assert_eq!(RawRecord::from(&record.with_head("H-12")).mask, RawRecord::HEAD);
}

#[test]
fn a_print_does_not_show_its_head_but_has_it_checked() {
    let print = RawRecord::new().with_message(b"boot");
    assert_eq!(shown("{d} {s}", &Record::print("boot").with_head("H-07")), "boot");
    let answer = |record: RawRecord| line_of(b"{d} {s}", Settings::PLAIN, record);
    assert_eq!(answer(print.with_head(&LONGEST)), Ok(b"boot".to_vec()));
    assert_eq!(answer(print.with_head(&TOO_LONG)), Err(Refusal::FieldTooLong));
    assert_eq!(answer(print.with_head(b"\xff")), Err(Refusal::FieldNotUtf8));
    assert_eq!(answer(print.with_head(b"h").with_mask(0)), Err(Refusal::NotARecord));
}

#[test]
fn coloured_heads_without_their_colour_are_plain() {
    let template = "{d:red:>7}|{[{d:bold}]%underline%<11}|{d:severity:^9}|{d}|{s}";
    let line = |settings, record: &Record| {
        Formatter::new(FormatterConfig::custom(template).with_settings(settings)).unwrap().format(record).unwrap()
    };
    for record in [info(), info().with_head(""), info().with_head("H-07"), info().with_head("tête n° 7")] {
        let (plain, straight) = (line(Settings::PLAIN, &record), line(Settings::STRAIGHT_COLOUR, &record));
        assert_ne!(straight, plain, "there is colour");
        assert_eq!(visible_str(&straight), Ok(plain));
    }
    let coloured = Formatter::new(FormatterConfig::custom("{d:red} {d} {s}").with_settings(Settings::CRATE_COLOUR));
    let line = coloured.unwrap().format(&info().with_head("H-07"));
    assert_eq!(line.as_deref(), Ok("\x1b[31mH-07\x1b[0m H-07 hello"));
}

#[test]
fn d_is_a_name_whatever_the_settings() {
    let templates = [
        ("{d}{s}", 0),
        ("{x{d}{s}}", 0),
        ("{d:bold:>9}{s}", 0),
        ("{s}d", 0),
        ("{Dd {s}}", 0),
        // Names where they were none: the specifier ends the brace, the rest is dropped, and with it the message.
        ("{d {s}}", 4),
        ("{d'eau {s}}", 4),
        ("{x{d{s}}{L}}", 4),
        ("{d}", 4),
        // Two specifiers in one brace.
        ("{d:{s}}", 3),
        ("{x{s:d}}", 3),
        // No names, as before.
        ("{dd}{s}", 3),
        ("{dé}{s}", 3),
        ("{D}{s}", 3),
        ("{[{s}]%d}", 3),
        ("{s:d}", 3),
    ];
    for (template, number) in templates {
        for settings in [0, 1, 2, 3, 8, 9, 10, 11] {
            assert_eq!(entries::check(template.as_bytes(), settings), number, "{template} {settings}");
        }
        // In the strict edition, too, unless something is dropped, which is told last.
        for settings in [4, 7, 12, 15] {
            assert_eq!(entries::check(template.as_bytes(), settings), number, "{template} {settings}");
        }
    }
    assert_eq!(shown("{s d}", &info()), "hello");
    let strict = Settings::PLAIN.with_strict(true);
    assert_eq!(check(b"{d junk}{s}", strict), Err(Refusal::Dropped { place: 2 }));
    assert_eq!(check(b"{red:[{d}]}{s}", strict), Err(Refusal::Dropped { place: 1 }));
}

#[test]
fn the_layout_changes_no_line() {
    let templates = ["{[{L}]%bold%<9}|{d:red:>8}|{s:>9}", "{d} %{s}", "{s} %{t}", "{t}"];
    for template in templates {
        for settings in (0..8).chain(16..24) {
            let old = answered(template, settings, &hand_laid(b"hello"));
            let new = answered(template, settings | HEADS, &hand_laid_with_head(b"hello", 0, b""));
            assert_eq!(old, new, "{template} {settings}");
        }
    }
}

#[test]
fn a_writer_lays_out_anew_with_the_first_head() {
    let records = [
        hello().with_file(b"f").with_line(7).with_module_path(b"m::n").with_timestamp(b"0.5"),
        RawRecord::new().with_message(b"boot"),
        // Refused ones stay refused, and are kept as they are.
        hello().with_mask(16).with_message(b"\xff"),
        hello().with_head(b"H-07"),
        hello(),
        hello().with_head(b""),
    ];
    let heads = |bytes: &[u8]| Sheet::read(bytes).unwrap().heads;
    for count in 0..=records.len() {
        let sheet = headed_sheet(&records[..count]);
        assert_eq!(heads(&sheet), count > 3, "{count} records");
        assert_eq!(Sheet::read(&sheet).unwrap().records, records[..count]);
        let mut settled = SheetWriter::with_heads(Settings::PLAIN, b"{d} {s}", count > 3).unwrap();
        records[..count].iter().for_each(|record| settled.push(record).unwrap());
        assert_eq!(settled.size(), sheet.len());
        assert_eq!(settled.finish(), sheet);
    }
    let all = b"<head> hello\nboot\n! 14\nH-07 hello\n<head> hello\n hello\n";
    assert_eq!(session(&headed_sheet(&records)), Ok(all.to_vec()));
    // A mask says it, too, and a serial that no mask marks.
    assert!(heads(&headed_sheet(&[hello(), hello().with_mask(8)])));
    assert!(heads(&headed_sheet(&[hello(), hello().with_head(b"h").with_mask(0)])));
    assert!(!heads(&headed_sheet(&[hello(), hello().with_mask(16)])));
}

#[test]
fn a_first_head_that_does_not_fit_leaves_the_sheet_as_it_was() {
    // A record takes 19 bytes and its message, with heads 21 bytes and both its texts; `{s}` leaves 65,526 for records.
    let full_but_for = |left: usize| {
        let mut writer = SheetWriter::new(Settings::PLAIN, b"{s}").unwrap();
        for _ in 0..10 {
            writer.push(hello().with_message(b"")).unwrap();
        }
        let message = vec![b'm'; 65_526 - 10 * 19 - 19 - left];
        writer.push(hello().with_message(&message)).unwrap();
        assert_eq!(writer.size(), 65_536 - left);
        writer
    };
    let headed = hello().with_message(b"").with_head(b"H-07");
    // Eleven records grow by two bytes each, and the new one has 25.
    let mut writer = full_but_for(22 + 25);
    writer.push(headed).unwrap();
    assert_eq!(writer.size(), 65_536);
    let sheet = writer.finish();
    assert_eq!((sheet.len(), Sheet::read(&sheet).unwrap().records.len()), (65_536, 12));

    for left in [0, 1, 21, 22, 25, 46] {
        let mut writer = full_but_for(left);
        let before = writer.clone();
        let full = writer.push(headed).unwrap_err();
        assert_eq!((full.needed, full.left), (25, left.saturating_sub(22)));
        assert!(full.fits_a_new_sheet());
        assert_eq!(writer, before);
        assert!(!Sheet::read(&writer.finish()).unwrap().heads);
    }
    // And one that fits in no sheet says so.
    let serial = vec![b'h'; 65_526 - 21 + 1];
    let mut writer = SheetWriter::new(Settings::PLAIN, b"{s}").unwrap();
    assert!(!writer.push(hello().with_message(b"").with_head(&serial)).unwrap_err().fits_a_new_sheet());
    writer.push(hello().with_message(b"").with_head(&serial[1..])).unwrap();
    assert_eq!(printed(&writer.finish()), told(11));
}

#[test]
fn a_layout_that_is_settled_stays() {
    // With heads though there are none: each record has a length more.
    let mut writer = SheetWriter::with_heads(Settings::PLAIN, b"{d} {s}", true).unwrap();
    writer.push(hello()).unwrap();
    let sheet = writer.finish();
    assert_eq!(sheet, sheet_of(&[b"\x08{d} {s}", &hand_laid_with_head(b"hello", 0, b"")]));
    assert_eq!(session(&sheet), Ok(b"<head> hello\n".to_vec()));
    assert!(SheetWriter::with_heads(Settings::STRAIGHT_COLOUR, b"", true).unwrap().finish().ends_with(&[HEADS | 3]));

    // Without heads though there is one: it is refused, and not lost without a word.
    for record in [hello().with_head(b"H-07"), hello().with_mask(8), hello().with_head(b"h").with_mask(0)] {
        let mut writer = SheetWriter::with_heads(Settings::PLAIN, b"{s}", false).unwrap();
        writer.push(record).unwrap();
        let sheet = writer.finish();
        let mut marked = hand_laid(b"hello");
        marked[2] = 8;
        assert_eq!(sheet, sheet_of(&[b"\0{s}", &marked]));
        assert_eq!(printed(&sheet), told(14));
    }
}

#[test]
fn lines_one_by_one_are_by_the_layout_of_the_sheet() {
    for mask in [0, 7, 8, 15, 16] {
        let mut old = hand_laid(b"hello");
        old[2] = mask;
        for (settings, record) in [(0, old), (HEADS, hand_laid_with_head(b"hello", mask, b""))] {
            let bytes = sheet_of(&[&[&[settings], &b"{d} {s}"[..]].concat(), &record]);
            let sheet = Sheet::read(&bytes).unwrap();
            assert_eq!(sheet.heads, settings == HEADS);
            assert_eq!(sheet.lines().flat_map(printed_alone).collect::<Vec<_>>(), printed(&bytes), "mask {mask}");
            assert_eq!(written(&sheet), bytes, "mask {mask}");
        }
    }
    // A line call of its own knows no sheet: what its mask says is taken for so.
    assert_eq!(line_of(b"{d} {s}", Settings::PLAIN, hello().with_mask(8)), Ok(b" hello".to_vec()));
}

#[test]
fn sheets_from_before_are_what_they_were() {
    let hello = hand_laid(b"hello");
    let by_hand = sheet_of(&[b"\x03[{L}] {s}", &hello, &hello]);
    let mut writer = SheetWriter::new(Settings::STRAIGHT_COLOUR, b"[{L}] {s}").unwrap();
    writer.push(&info()).unwrap();
    writer.push(&info().with_head(None)).unwrap();
    assert_eq!(writer.finish(), by_hand);

    for (name, size) in [("wall", 480), ("wall-crate", 480), ("wall-straight", 480), ("mur", 464), ("strict", 417)] {
        let bytes = sample(&format!("{name}.sheet"));
        assert_eq!(bytes.len(), size, "{name}");
        let sheet = Sheet::read(&bytes).unwrap();
        assert!(!sheet.heads && sheet.records.iter().all(|record| record.head.is_empty()), "{name}");
        let mut writer = SheetWriter::new(sheet.settings, sheet.template).unwrap();
        sheet.records.iter().for_each(|record| writer.push(record).unwrap());
        assert_eq!(writer.finish(), bytes, "{name}");
        assert_eq!(printed(&bytes), sample(&format!("{name}.txt")), "{name}");
    }
}

#[test]
fn the_sample_of_two_heads_has_them_in_a_column() {
    let bytes = sample("wall-heads.sheet");
    let sheet = Sheet::read(&bytes).unwrap();
    assert!(sheet.heads);
    let lines = String::from_utf8(sample("wall-heads.txt")).unwrap();
    let columns: Vec<&str> = lines.lines().filter(|line| line.contains('|')).map(|line| &line[13..19]).collect();
    assert_eq!(columns, ["<head>", "  H-07", "  H-12", "  H-12", "  H-12", "      "]);
    // The last is a print.
    assert_eq!((lines.lines().count(), sheet.records[6].head), (7, &b"H-07"[..]));
    // No other layout would do.
    let mut old = bytes.clone();
    old[2 + 4 * (1 + sheet.records.len())] ^= HEADS;
    assert!(archive_refuses(&old));
}

#[test]
fn a_head_needs_no_more_room_than_its_length() {
    let record = info().with_head("H-07");
    let mut out = [0; 10];
    assert_eq!(line(b"{d} {s}", Settings::PLAIN, &record, &mut out[..9]), Err(Refusal::LineTooLong { needed: 10 }));
    assert_eq!(out, [0; 10]);
    assert_eq!(line(b"{d} {s}", Settings::PLAIN, &record, &mut out), Ok(10));
    assert_eq!(&out, b"H-07 hello");
}
