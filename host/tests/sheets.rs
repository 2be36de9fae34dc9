//! Session sheets: written, read, damaged, printed.

mod common;

use common::{
    archive_refuses, hand_laid, hand_laid_with_head, hello, printed, printed_alone, sample, sheet_of, written, PAINT,
};
use pralakuon::{session, session_into, HostRecord, Level, RawRecord, Record, Refusal, Settings, Sheet, SheetWriter};

/// Document 01's example, byte for byte.
const EXAMPLE: &[u8] = b"\x04\0\
    \x0a\0\0\0\x14\0\0\0\x13\0\0\0\x0f\0\0\0\
    \0[{L}] {s}\
    \0\x01\0\0\0\0\0\0\0\0\0\0\0\x05\0hello\
    \0\0\0\0\0\0\0\0\0\0\0\0\0\x04\0boot\
    \x01\0\0\0\0\0\0\0\0\0\0\0\0\0\0";

/// The same records in the layout with heads, the first with one.
const EXAMPLE_WITH_HEADS: &[u8] = b"\x04\0\
    \x0a\0\0\0\x1a\0\0\0\x15\0\0\0\x11\0\0\0\
    \x08[{L}] {s}\
    \0\x01\x08\0\0\0\0\0\0\0\0\0\0\x05\0\x04\0helloH-07\
    \0\0\0\0\0\0\0\0\0\0\0\0\0\x04\0\0\0boot\
    \x01\0\0\0\0\0\0\0\0\0\0\0\0\0\0\0\0";

/// Those that have lines.
const SAMPLES: [&str; 7] = ["wall", "wall-crate", "wall-straight", "mur", "wall-heads", "wall-places", "self-test"];

/// The reader and the archive say alike whether this is a sheet.
fn judged_alike(bytes: &[u8]) -> bool {
    let refused = archive_refuses(bytes);
    match Sheet::read(bytes) {
        Ok(sheet) => assert!(!refused && written(&sheet) == bytes, "the reader takes {bytes:?}"),
        Err(refusal) => assert!(refused && refusal == Refusal::NotASheet, "the reader refuses {bytes:?}"),
    }
    refused
}

#[test]
fn the_example_is_written_byte_for_byte_and_printed() {
    let mut writer = SheetWriter::new(Settings::PLAIN, b"[{L}] {s}").unwrap();
    writer.push(&Record::new(Level::Error, "hello")).unwrap();
    writer.push(&Record::print("boot")).unwrap();
    writer.push(RawRecord::new().with_source(RawRecord::HOST)).unwrap();
    assert_eq!(writer.finish(), EXAMPLE);
    assert_eq!(session(EXAMPLE).unwrap(), b"[ERROR] hello\nboot\n! 14\n");
}

#[test]
fn the_example_with_a_head_is_written_byte_for_byte_and_printed() {
    let mut writer = SheetWriter::new(Settings::PLAIN, b"[{L}] {s}").unwrap();
    writer.push(&Record::new(Level::Error, "hello").with_head("H-07")).unwrap();
    writer.push(&Record::print("boot")).unwrap();
    writer.push(RawRecord::new().with_source(RawRecord::HOST)).unwrap();
    assert_eq!(writer.finish(), EXAMPLE_WITH_HEADS);
    assert_eq!(session(EXAMPLE_WITH_HEADS), session(EXAMPLE));
}

#[test]
fn the_example_is_read() {
    let sheet = Sheet::read(EXAMPLE).unwrap();
    assert_eq!((sheet.settings, sheet.heads, sheet.template), (Settings::PLAIN, false, &b"[{L}] {s}"[..]));
    let device = RawRecord::new().with_level(1).with_message(b"hello");
    let print = RawRecord::new().with_message(b"boot");
    let host = RawRecord::new().with_source(1);
    assert_eq!(sheet.records, [device, print, host]);

    let with_heads = Sheet::read(EXAMPLE_WITH_HEADS).unwrap();
    assert_eq!((with_heads.settings, with_heads.heads, with_heads.template), (sheet.settings, true, sheet.template));
    assert_eq!(with_heads.records, [device.with_head(b"H-07"), print, host]);
}

#[test]
fn every_kind_of_record_comes_back() {
    let device = Record::new(Level::Warn, "crack")
        .with_file("/head/été.rs")
        .with_line(0x0102_0304)
        .with_module_path("gauge::read")
        .with_timestamp("0.25");
    let host = HostRecord::new(Level::Trace, "closed").with_line(40).with_head("H-12");
    let wrong = RawRecord::new()
        .with_source(255)
        .with_level(254)
        .with_line(0xfffe_fdfc)
        .with_file(&[0xff; 300])
        .with_module_path(&[0; 5_000])
        .with_timestamp(b"\xc3")
        .with_head(&[0xff; 5_000])
        .with_mask(245);
    let mut writer = SheetWriter::new(Settings::STRAIGHT_COLOUR, b"\xff{").unwrap();
    writer.push(&device).unwrap();
    writer.push(&host).unwrap();
    writer.push(wrong).unwrap();
    let bytes = writer.finish();
    let sheet = Sheet::read(&bytes).unwrap();
    assert_eq!((sheet.settings, sheet.template), (Settings::STRAIGHT_COLOUR, &b"\xff{"[..]));
    assert_eq!(sheet.records, [RawRecord::from(&device), RawRecord::from(&host), wrong]);
    assert_eq!(written(&sheet), bytes);
}

#[test]
fn samples_print_what_they_should() {
    for name in SAMPLES {
        let (sheet, printed) = (sample(&format!("{name}.sheet")), sample(&format!("{name}.txt")));
        assert_eq!(session(&sheet).as_ref(), Ok(&printed), "{name}");
        assert!(!judged_alike(&sheet), "{name}");
    }
}

#[test]
fn the_sample_of_a_refused_template_prints_its_number() {
    let bytes = sample("strict.sheet");
    assert_eq!(printed(&bytes), sample("strict.txt"));
    assert_eq!(session(&bytes), Err(Refusal::Dropped { place: 4 }));
    assert!(!judged_alike(&bytes));
    let sheet = Sheet::read(&bytes).unwrap();
    assert_eq!((sheet.settings, sheet.template), (Settings::PLAIN.with_strict(true), &b"{s} %{t}"[..]));
    assert!(sheet.lines().all(|line| line == Err(Refusal::Dropped { place: 4 })) && !sheet.records.is_empty());
}

#[test]
fn the_lines_of_samples_one_by_one() {
    for name in SAMPLES {
        let bytes = sample(&format!("{name}.sheet"));
        let sheet = Sheet::read(&bytes).unwrap();
        assert_eq!(sheet.lines().len(), sheet.records.len());
        let all: Vec<u8> = sheet.lines().flat_map(printed_alone).collect();
        assert_eq!(all, sample(&format!("{name}.txt")), "{name}");
    }
}

#[test]
fn lines_one_by_one_are_those_of_a_session() {
    // Sixteen messages of 4,096 bytes are a line of 65,536.
    let longest = [b'm'; 4_096];
    let messages = [&b"hello"[..], &longest, b"\xff", b"", &[b'm'; 4_097]];
    for template in ["{s}".repeat(16), "{s}".repeat(16) + "x"] {
        let mut writer = SheetWriter::new(Settings::PLAIN, template.as_bytes()).unwrap();
        messages.into_iter().for_each(|message| writer.push(hello().with_message(message)).unwrap());
        let bytes = writer.finish();
        let sheet = Sheet::read(&bytes).unwrap();
        let all: Vec<u8> = sheet.lines().flat_map(printed_alone).collect();
        assert!(session(&bytes) == Ok(all), "{template}");
        let (length, second) = (template.len() - 48 + 65_536, sheet.lines().nth(1).unwrap());
        match length {
            65_536 => assert_eq!(second.unwrap().len(), length),
            _ => assert_eq!(second, Err(Refusal::LineTooLong { needed: length })),
        }
    }
}

#[test]
fn each_line_of_a_refused_template_is_its_refusal() {
    let bytes = sheet_of(&[b"\0{t}", &hand_laid(b"hello"), &hand_laid(b"\xff")]);
    let lines: Vec<_> = Sheet::read(&bytes).unwrap().lines().collect();
    assert_eq!(lines, [Err(Refusal::NoMessage), Err(Refusal::NoMessage)]);
    assert_eq!(session(&bytes), Err(Refusal::NoMessage));
}

#[test]
fn a_session_needs_no_more_room_than_its_length() {
    let printed = sample("wall.txt");
    let sheet = sample("wall.sheet");
    let mut out = vec![0xa5; printed.len() + 9];
    let short = printed.len() - 1;
    assert_eq!(session_into(&sheet, &mut out[..short]), Err(Refusal::LineTooLong { needed: printed.len() }));
    assert!(out.iter().all(|&byte| byte == 0xa5));
    assert_eq!(session_into(&sheet, &mut out), Ok(printed.len()));
    assert_eq!(out[..printed.len()], printed);
    assert!(out[printed.len()..].iter().all(|&byte| byte == 0xa5));
}

#[test]
fn a_refused_sheet_writes_nothing_whatever_the_room() {
    let refused = |sheet: &[u8], refusal: Refusal| {
        for room in [0, 4, 5, 80] {
            let mut out = [PAINT; 80];
            assert_eq!(session_into(sheet, &mut out[..room]), Err(refusal), "room {room}");
            assert!(out.iter().all(|&byte| byte == PAINT), "room {room}");
        }
        assert_eq!(session(sheet), Err(refusal));
    };
    refused(b"", Refusal::NotASheet);
    refused(&sheet_of(&[b"\0{t}"]), Refusal::NoMessage);
    refused(&sheet_of(&[b"\0{t}", &hand_laid(b"hello")]), Refusal::NoMessage);
    refused(&sheet_of(&[b"\x04{s}%", &hand_laid(b"hello")]), Refusal::Dropped { place: 3 });
}

#[test]
fn a_record_that_says_so_is_a_line_and_a_refused_one_is_told() {
    let mut writer = SheetWriter::new(Settings::PLAIN, b"{s}").unwrap();
    writer.push(&Record::print("! 15")).unwrap();
    assert_eq!(session(&writer.clone().finish()).unwrap(), b"! 15\n");
    writer.push(RawRecord::new().with_message(b"\xff")).unwrap();
    writer.push(RawRecord::new().with_level(6)).unwrap();
    let sheet = writer.finish();
    assert_eq!(session(&sheet).unwrap(), b"! 15\n! 12\n! 14\n");
    let mut out = [PAINT; 14];
    assert_eq!(session_into(&sheet, &mut out), Err(Refusal::LineTooLong { needed: 15 }));
    assert_eq!(out, [PAINT; 14]);
}

#[test]
fn a_session_of_a_megabyte_grows_to_it() {
    let template = "{s}".repeat(60);
    let mut writer = SheetWriter::new(Settings::PLAIN, template.as_bytes()).unwrap();
    let message = "m".repeat(1_000);
    while writer.push(&Record::print(&message)).is_ok() {}
    while writer.push(&Record::new(Level::Info, "hello")).is_ok() {}
    let sheet = writer.finish();
    let records = Sheet::read(&sheet).unwrap().records;
    let line = |raw: &RawRecord| raw.message.repeat(if raw.level == 0 { 1 } else { 60 });
    let expected: Vec<u8> = records.iter().flat_map(|raw| [line(raw), b"\n".to_vec()].concat()).collect();
    assert!(session(&sheet).as_ref() == Ok(&expected));
}

#[test]
fn every_truncation_is_judged_alike() {
    for name in SAMPLES {
        let sheet = sample(&format!("{name}.sheet"));
        for end in 0..sheet.len() {
            assert!(judged_alike(&sheet[..end]), "{name} cut at {end} is no sheet");
        }
    }
}

/// How many of the sheets that differ from this one in one byte are none.
fn refused_by_a_byte(example: &[u8]) -> usize {
    let mut refused = 0;
    for place in 0..example.len() {
        let mut sheet = example.to_vec();
        for byte in (0..=255).filter(|&byte| byte != example[place]) {
            sheet[place] = byte;
            let no_sheet = judged_alike(&sheet);
            assert!(no_sheet || place >= CONTENTS, "contents changed at {place} to {byte} still fit");
            refused += usize::from(no_sheet);
        }
    }
    refused
}

/// How many bodies, and four lengths.
const CONTENTS: usize = 2 + 4 * 4;

#[test]
fn every_change_of_a_byte_is_judged_alike() {
    // The contents, the settings byte that says heads or has one of three unknown bits, the lengths of three records' texts.
    assert_eq!(refused_by_a_byte(EXAMPLE), CONTENTS * 255 + 16 + 224 + 3 * 8 * 255);
    // The same, where it says that there are no heads; the lengths of a fifth text.
    assert_eq!(refused_by_a_byte(EXAMPLE_WITH_HEADS), CONTENTS * 255 + 16 + 224 + 3 * 10 * 255);
}

#[test]
fn odd_sheets_are_judged_alike() {
    let record = hand_laid(b"hello");
    let longer = [&record[..], b"!"].concat();
    let shorter = &record[..record.len() - 1];
    let headed = hand_laid_with_head(b"hello", 8, b"H-07");
    let no_sheets = [
        vec![],
        vec![0],
        vec![0, 0],
        vec![1, 0],
        sheet_of(&[]),
        sheet_of(&[b""]),
        sheet_of(&[b"\x20{s}"]),
        sheet_of(&[b"\x80{s}"]),
        // Of the other layout, and one byte too short for it.
        sheet_of(&[b"\x08{s}", &record]),
        sheet_of(&[b"\x08{s}", &headed, &record]),
        sheet_of(&[b"\0{s}", &headed]),
        sheet_of(&[b"\x08{s}", &headed[..16]]),
        sheet_of(&[b"\x10{s}", &headed]),
        sheet_of(&[b"\x18{s}", &record]),
        sheet_of(&[b"\0{s}", b""]),
        sheet_of(&[b"\0{s}", &record[..14]]),
        sheet_of(&[b"\0{s}", &longer]),
        sheet_of(&[b"\0{s}", shorter]),
        sheet_of(&[b"\0{s}", &record, &longer]),
        [sheet_of(&[b"\0{s}", &record]), vec![0]].concat(),
        // Lengths whose sum runs over 32 bits to just what is there.
        [&[3, 0, 4, 0, 0, 0, 0xff, 0xff, 0xff, 0xff, 1, 0, 0, 0][..], b"\0{s}"].concat(),
        vec![0xff; 65_536],
        vec![0; 70_000],
    ];
    for bytes in no_sheets {
        assert!(judged_alike(&bytes), "{bytes:?}");
    }
    let sheets = [
        sheet_of(&[b"\0"]),
        sheet_of(&[b"\x1f"]),
        sheet_of(&[b"\x04{s}"]),
        sheet_of(&[b"\x02{s}", &record]),
        sheet_of(&[b"\x08{s}"]),
        sheet_of(&[b"\x0a{s}", &headed]),
        sheet_of(&[b"\x10{s}", &record]),
        sheet_of(&[b"\x18{s}", &headed]),
    ];
    for bytes in sheets {
        assert!(!judged_alike(&bytes), "{bytes:?}");
    }
}
