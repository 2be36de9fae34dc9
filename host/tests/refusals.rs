//! Every refusal at its limit, and what is just inside it.

mod common;

use common::{archive_refuses, hand_laid, hello, line_of, sheet_of};
use pralakuon::{
    check, line, names_timestamp, session, Formatter, FormatterConfig, FormatterFormat, HostFormatter, HostRecord,
    Level, RawRecord, Record, Refusal, Settings, Sheet, SheetFull, SheetWriter, Version,
};

/// A sheet of two records.
fn sheet_with(template: &[u8]) -> Vec<u8> {
    let mut writer = SheetWriter::new(Settings::PLAIN, template).unwrap();
    writer.push(hello()).unwrap();
    writer.push(hello()).unwrap();
    writer.finish()
}

fn config(template: &str) -> FormatterConfig<'_> {
    FormatterConfig::new(FormatterFormat::Custom(template))
}

/// Every way to give a template refuses it with this number.
fn refused(number: u8, template: impl AsRef<[u8]>) {
    let template = template.as_ref();
    let refusal = Refusal::from_number(number).unwrap();
    assert_eq!(check(template, Settings::PLAIN), Err(refusal), "{template:?}");
    assert_eq!(names_timestamp(template, Settings::PLAIN), Err(refusal));
    assert_eq!(line_of(template, Settings::PLAIN, hello()), Err(refusal));
    assert_eq!(session(&sheet_with(template)), Err(refusal));
    if let Ok(template) = std::str::from_utf8(template) {
        assert_eq!(Formatter::new(config(template)), Err(refusal));
        assert_eq!(HostFormatter::new(config(template)), Err(refusal));
    }
}

/// Every way to give a template reads it, and this is the line of `hello`.
fn read(template: &str, line: &str) {
    assert_eq!(check(template.as_bytes(), Settings::PLAIN), Ok(()), "{template:?}");
    assert_eq!(line_of(template.as_bytes(), Settings::PLAIN, hello()), Ok(line.into()));
    assert_eq!(session(&sheet_with(template.as_bytes())), Ok(format!("{line}\n{line}\n").into_bytes()));
    let record = Record::new(Level::Info, "hello");
    assert_eq!(Formatter::new(config(template)).unwrap().format(&record).as_deref(), Ok(line));
}

#[test]
fn r01_a_template_of_1025_bytes() {
    let template = |bytes: usize| "x".repeat(bytes - 3) + "{s}";
    read(&template(1_024), &("x".repeat(1_021) + "hello"));
    refused(1, template(1_025));
}

#[test]
fn r02_a_template_that_is_not_utf8() {
    read("{s}é", "helloé");
    refused(2, b"{s}\xc3");
    refused(2, b"{s}\xff");
}

#[test]
fn r03_a_template_on_which_reading_fails() {
    read("{s:bold:underline:italic}", "hello");
    refused(3, "{s:bold:bold}");
    refused(3, "{}");
    refused(3, "{{[{L}]} x} {s}");
}

#[test]
fn r04_a_template_without_the_message() {
    read("{{s}}", "hello");
    refused(4, "{t}");
    refused(4, "");
    refused(4, "{s");
    refused(4, "oneline");
}

#[test]
fn r05_a_65th_segment() {
    let template = |segments: usize| "{l:1}".repeat(segments - 1) + "{s}";
    read(&template(64), &("0".repeat(63) + "hello"));
    refused(5, template(65));
}

#[test]
fn r06_a_brace_at_depth_9() {
    let template = |depth: usize| "{a{L}".repeat(depth - 1) + "{s}" + &"}".repeat(depth - 1);
    read(&template(8), &("aINFO ".repeat(7) + "hello"));
    refused(6, template(9));
}

#[test]
fn r07_a_width_of_513() {
    read("{s:512}", &("hello".to_string() + &" ".repeat(507)));
    refused(7, "{s:513}");
    refused(7, "{s:99999999999999999999999999}");
}

#[test]
fn r08_a_name_of_256_f() {
    let template = |count: usize| format!("{{{}}}{{s}}", "f".repeat(count));
    read(&template(255), "<file>hello");
    refused(8, template(256));
}

#[test]
fn r09_a_backslash_at_the_end_of_a_search() {
    read("{s}\\", "hello\\");
    refused(9, "{s\\");
}

/// 10 was for a name right before a character beyond ASCII. A name is a whole run of letters, of any script, so what is
/// behind the name decides: a letter makes another word of it, anything else ends it and is dropped.
#[test]
fn r10_is_no_longer_given() {
    assert_eq!(Refusal::from_number(10), None);
    read("{Température {L}%bold} {s}", "Température INFO  hello");
    read("{測定値 {L}%bold} {s}", "測定値 INFO  hello");
    for no_letter in ["→", "²", "\u{301}"] {
        read(&format!("{{s{no_letter}}}"), "hello");
    }
    for letter in ["é", "Ⅷ", "値", "\u{345}"] {
        refused(3, format!("{{s{letter}}}"));
    }
    read("{aé {s}}", "aé hello");
    read("{x{s:aé}}", "xhello");
    refused(3, "{[{s}]%aé}");
    let fs = |count: usize, last: &str| format!("{{{}{last}}}{{s}}", "f".repeat(count));
    refused(3, fs(255, "é"));
    refused(3, fs(256, "é"));
    read(&fs(255, "\u{301}"), "<file>hello");
    refused(8, fs(256, "\u{301}"));
    // So it was before.
    refused(3, "{é}");
    read("{s}é", "helloé");
    read("{s é}", "hello");
    read("{s aé}", "hello");
}

/// The Kelvin sign, U+212A, is a letter and no `k`, though Rust makes that of it in small letters.
#[test]
fn r10_is_not_given_for_the_kelvin_sign_either() {
    refused(3, "{s:blac\u{212a}}");
    refused(3, "{[{s}]%blac\u{212a}}");
    read("{blac\u{212a} {s}}", "blac\u{212a} hello");
    let dropped = "{x{s:blac\u{212a}}}";
    read(dropped, "xhello");
    assert_eq!(line_of(dropped.as_bytes(), Settings::CRATE_COLOUR, hello()), Ok(b"xhello".to_vec()));
    let black = line_of(b"{x{s:BLACK}}", Settings::CRATE_COLOUR, hello());
    assert_eq!(black, Ok(b"x\x1b[30mhello\x1b[0m".to_vec()));
}

/// A record with this text in the field of this number, in the order in which fields are checked.
fn with_field<'a>(field: usize, text: &'a [u8]) -> RawRecord<'a> {
    let record = hello().with_file(b"").with_module_path(b"");
    match field {
        0 => record.with_file(text),
        1 => record.with_module_path(text),
        2 => record.with_timestamp(text),
        3 => record.with_message(text),
        _ => record.with_head(text),
    }
}

#[test]
fn r11_a_field_of_4097_bytes() {
    let answer = |field, text: &[u8]| line_of(b"{F}{m}{t}{s}", Settings::PLAIN, with_field(field, text));
    for field in 0..4 {
        let longest = [b'x'; 4_096];
        let line = answer(field, &longest).unwrap();
        assert!(line.windows(longest.len()).any(|part| part == longest), "field {field} is shown whole");
        // 70,000 bytes and their length modulo 65,536 are both over the limit; 65,541 bytes would pass for 5.
        for bytes in [4_097, 4_098, 65_535, 65_536, 65_541, 70_000] {
            assert_eq!(answer(field, &vec![b'x'; bytes]), Err(Refusal::FieldTooLong), "field {field}, {bytes} bytes");
        }
        // Too long comes before not UTF-8, also where only the cut splits a character.
        assert_eq!(answer(field, "é".repeat(35_000).as_bytes()), Err(Refusal::FieldTooLong));
        assert_eq!(answer(field, &[0xff; 4_097]), Err(Refusal::FieldTooLong));
    }
}

#[test]
fn r11_through_the_formatters() {
    let device = Formatter::new(config("{F}{m}{t}{s}")).unwrap();
    let host = HostFormatter::new(config("{F}{m}{t}{s}")).unwrap();
    let [fits, long] = [4_096, 70_000].map(|bytes| "x".repeat(bytes));
    let (record, host_record) = (Record::new(Level::Info, ""), HostRecord::new(Level::Info, ""));
    fn records<'a>(record: Record<'a>, text: &'a str) -> [Record<'a>; 4] {
        [record.with_file(text), record.with_module_path(text), record.with_timestamp(text), record.with_message(text)]
    }
    fn host_records<'a>(record: HostRecord<'a>, text: &'a str) -> [HostRecord<'a>; 3] {
        [record.with_file(text), record.with_module_path(text), record.with_message(text)]
    }
    assert!(records(record, &fits).iter().all(|record| device.format(record).unwrap().contains(&fits)));
    assert!(host_records(host_record, &fits).iter().all(|record| host.format(record).unwrap().contains(&fits)));
    assert!(records(record, &long).iter().all(|record| device.format(record) == Err(Refusal::FieldTooLong)));
    assert!(host_records(host_record, &long).iter().all(|record| host.format(record) == Err(Refusal::FieldTooLong)));
}

#[test]
fn r12_a_field_that_is_not_utf8() {
    let answer = |field, text: &[u8]| line_of(b"{s}", Settings::PLAIN, with_field(field, text));
    for field in 0..5 {
        assert!(answer(field, "é".as_bytes()).is_ok());
        for text in [&b"\xc3"[..], b"\xff", b"\xed\xa0\x80"] {
            assert_eq!(answer(field, text), Err(Refusal::FieldNotUtf8), "field {field}");
        }
    }
}

#[test]
fn r12_and_11_are_met_field_by_field() {
    let long = [b'x'; 4_097];
    let first = with_field(0, b"\xff").with_message(&long);
    assert_eq!(line_of(b"{s}", Settings::PLAIN, first), Err(Refusal::FieldNotUtf8));
    let first = with_field(0, &long).with_message(b"\xff");
    assert_eq!(line_of(b"{s}", Settings::PLAIN, first), Err(Refusal::FieldTooLong));
}

#[test]
fn r13_in_a_session_a_line_of_65537_bytes() {
    // Sixteen messages of 4,096 bytes are 65,536, the program's line buffer.
    let printed = |template: String| {
        let mut writer = SheetWriter::new(Settings::PLAIN, template.as_bytes()).unwrap();
        writer.push(hello().with_message(&[b'm'; 4_096])).unwrap();
        writer.push(hello()).unwrap();
        session(&writer.finish()).unwrap()
    };
    let longest = printed("{s}".repeat(16));
    assert_eq!(longest, ["m".repeat(65_536), "\n".into(), "hello".repeat(16), "\n".into()].concat().into_bytes());
    assert_eq!(printed("{s}".repeat(16) + "x"), format!("! 13\n{}x\n", "hello".repeat(16)).into_bytes());
}

#[test]
fn r14_a_record_that_cannot_be() {
    let (device, host) = (hello(), hello().with_source(RawRecord::HOST));
    let possible = [
        device.with_level(0),
        device.with_level(5),
        host.with_level(1),
        host.with_level(5),
        device.with_line(u32::MAX).with_file(b"f").with_module_path(b"m"),
        device.with_line(1).with_head(b"H-07"),
        device.with_mask(7),
        device.with_mask(15),
    ];
    for record in possible {
        assert!(line_of(b"{s}", Settings::PLAIN, record).is_ok(), "{record:?}");
    }
    let impossible = [
        device.with_source(2),
        device.with_level(6),
        host.with_level(6),
        host.with_level(0),
        device.with_mask(16),
        device.with_mask(24),
        device.with_file(b"f").with_mask(6),
        device.with_line(1).with_mask(5),
        device.with_module_path(b"m").with_mask(3),
        device.with_head(b"h").with_mask(7),
        // 14 comes before what is wrong with a text, also with one that had to be cut.
        device.with_file(&[0xff; 70_000]).with_mask(6),
    ];
    for record in impossible {
        assert_eq!(line_of(b"{s}", Settings::PLAIN, record), Err(Refusal::NotARecord), "{record:?}");
    }
}

#[test]
fn r15_a_sheet_of_65537_bytes() {
    // Contents of five bodies, the settings byte and `{s}`, four heads of records: the rest is texts.
    let texts = 65_536 - (2 + 4 * 5 + 4 + 4 * 15);
    let messages = |bytes: usize| {
        let last = bytes - 3 * 4_096;
        [4_096, 4_096, 4_096, last].map(|bytes| vec![b'm'; bytes])
    };
    let written = |messages: &[Vec<u8>]| {
        let mut writer = SheetWriter::new(Settings::PLAIN, b"{s}")?;
        messages.iter().try_for_each(|message| writer.push(hello().with_message(message)))?;
        Ok::<_, SheetFull>(writer.finish())
    };
    let by_hand = |messages: &[Vec<u8>]| {
        let bodies: Vec<_> = messages.iter().map(|message| hand_laid(message)).collect();
        sheet_of(&[&b"\0{s}"[..], &bodies[0], &bodies[1], &bodies[2], &bodies[3]])
    };

    let largest = by_hand(&messages(texts));
    assert_eq!(largest.len(), 65_536);
    assert_eq!(written(&messages(texts)).as_ref(), Ok(&largest));
    assert_eq!(Sheet::read(&largest).unwrap().records.len(), 4);
    assert!(!archive_refuses(&largest));

    let too_large = by_hand(&messages(texts + 1));
    assert_eq!(too_large.len(), 65_537);
    let full = written(&messages(texts + 1)).unwrap_err();
    assert_eq!(full.needed, full.left + 1);
    assert_eq!(Sheet::read(&too_large), Err(Refusal::NotASheet));
    assert!(archive_refuses(&too_large));
}

#[test]
fn r15_the_writer_refuses_what_does_not_fit_and_goes_on() {
    assert!(SheetWriter::new(Settings::PLAIN, &[b'x'; 65_529]).is_ok());
    let full = SheetWriter::new(Settings::PLAIN, &[b'x'; 65_530]).unwrap_err();
    assert_eq!((full.needed, full.left, full.fits_a_new_sheet()), (65_535, 65_534, false));

    let mut writer = SheetWriter::new(Settings::PLAIN, b"{s}").unwrap();
    writer.push(hello()).unwrap();
    let before = writer.clone();
    // A record takes 19 bytes and its message; `hello` took 24 of the 65,526 that a sheet of `{s}` has for records.
    for bytes in [65_484, 65_507, 65_508, 65_535, 65_536, 70_000, 1 << 20] {
        let full = writer.push(hello().with_message(&vec![b'm'; bytes])).unwrap_err();
        assert_eq!((full.needed, full.left), (bytes + 19, 65_502));
        assert_eq!(full.fits_a_new_sheet(), bytes <= 65_507, "{bytes} bytes");
        assert_eq!(writer, before);
    }
    assert!(SheetWriter::new(Settings::PLAIN, b"{s}").unwrap().push(hello().with_message(&[b'm'; 65_507])).is_ok());
    writer.push(hello().with_message(&[b'm'; 65_483])).unwrap();
    assert_eq!(writer.size(), 65_536);
    assert_eq!(session(&writer.finish()).unwrap(), b"hello\n! 11\n");
}

#[test]
fn r15_bodies_run_out_of_room_before_they_run_out_of_numbers() {
    let mut writer = SheetWriter::new(Settings::PLAIN, b"{s}").unwrap();
    let empty = RawRecord::new().with_level(3);
    let mut pushed = 0;
    while writer.push(empty).is_ok() {
        pushed += 1;
    }
    // Each record takes 19 bytes, 4 of them in the contents.
    assert_eq!(pushed, (65_536 - 10) / 19);
    assert_eq!(session(&writer.finish()), Ok(vec![b'\n'; pushed]));
}

#[test]
fn numbers_and_names_are_those_of_the_header() {
    // The refusals stand first of what it numbers.
    let header = include_str!("../../include/pralakuon.h").split("/* Settings").next().unwrap();
    for number in (1..=17).filter(|number| ![10, 16].contains(number)) {
        let refusal = Refusal::from_number(number).unwrap();
        assert_eq!(refusal.number(), number);
        assert!(refusal.to_string().starts_with(&format!("refusal {number}: ")), "{refusal}");
        // `LineTooLong { needed: 0 }` is PRALAKUON_LINE_TOO_LONG there.
        let name = format!("{refusal:?}").split(' ').next().unwrap().to_string();
        let line = header.lines().find(|line| line.contains(&format!(" = {number}"))).unwrap();
        let in_header = line.split_whitespace().next().unwrap().trim_start_matches("PRALAKUON_").replace('_', "");
        assert_eq!(name.to_uppercase(), in_header);
    }
    for number in (18..=255).chain([0, 10, 16]) {
        assert_eq!(Refusal::from_number(number), None);
    }
    assert!(header.contains("/* 10 is no longer given") && !header.contains(" = 10"));
    assert!(header.contains("/* 16 is not given yet") && !header.contains(" = 16"));
}

#[test]
fn the_length_needed_is_told() {
    assert_eq!(
        Refusal::LineTooLong { needed: 13 }.to_string(),
        "refusal 13: the line is longer than the buffer, 13 bytes are needed"
    );
    let unknown = Refusal::from_number(13).unwrap();
    assert_eq!(unknown.to_string(), "refusal 13: the line is longer than the buffer");
}

#[test]
fn the_place_is_told() {
    assert_eq!(
        Refusal::Dropped { place: 4 }.to_string(),
        "refusal 17: the template drops bytes or loses a parameter, first at byte 4"
    );
    let unknown = Refusal::from_number(17).unwrap();
    assert_eq!(unknown.to_string(), "refusal 17: the template drops bytes or loses a parameter");
}

#[test]
fn what_concerns_the_archive_is_told() {
    let unknown = Refusal::Unknown { number: 77 };
    assert_eq!(unknown.number(), 77);
    assert_eq!(unknown.to_string(), "refusal 77: the archive has a reason that this crate does not know");
    let other = Refusal::OtherVersion { archive: Version { major: 7, minor: 8, patch: 9 } };
    assert_eq!(other.number(), 0);
    let told = format!("the archive is of another version: 7.8.9, and this crate is {}", env!("CARGO_PKG_VERSION"));
    assert_eq!(other.to_string(), told);
}

/// Long texts are checked in blocks, so every place of one has its turn: cut off there, and with a byte changed there. Rust
/// says which of them are UTF-8; those fill the width by their characters.
#[test]
fn a_text_beyond_ascii_is_told_from_a_broken_one_at_every_place() {
    for piece in ["é", "壁", "😀", "aé壁😀", "le mur est fissuré près de la fenêtre, "] {
        let text = piece.repeat(40);
        let whole = &text.as_bytes()[..128.min(text.len())];
        for place in 0..whole.len() {
            tell(&whole[..place]);
            for byte in [b'x', 0x80, 0xbf, 0xc0, 0xc3, 0xe0, 0xed, 0xf0, 0xf4, 0xff] {
                let mut changed = whole.to_vec();
                changed[place] = byte;
                tell(&changed);
            }
        }
    }
}

fn tell(message: &[u8]) {
    let mut out = [0; 1_024];
    let shown = line(b"{s:140}|", Settings::PLAIN, hello().with_message(message), &mut out);
    match std::str::from_utf8(message) {
        Ok(text) => {
            assert_eq!(&out[..shown.unwrap()], format!("{text:140}|").as_bytes());
        }
        Err(_) => assert_eq!(shown, Err(Refusal::FieldNotUtf8), "{message:?}"),
    }
}
