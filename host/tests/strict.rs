//! Strict templates: what both editions of the template rules read, what only the first does, and where the strict one
//! says that something is dropped or lost.

mod common;

use common::{hand_laid, hand_laid_with_head, hello, line_of, sheet_of, PAINT};
use pralakuon::{
    check, entries, line, names_timestamp, session, Formatter, FormatterConfig, FormatterFormat, HostFormatter, Level,
    RawRecord, Record, Refusal, Settings, Sheet, SheetWriter,
};

const STRICT: Settings = Settings::PLAIN.with_strict(true);

/// Both editions read these, and this is the line of `hello`.
const READ: [(&str, &str); 14] = [
    ("{s}", "hello"),
    ("{t} {s}", "<time> hello"),
    ("{[{L}]%bold}{s}", "[INFO ]hello"),
    ("{[{L:bold:7}]%bold%9}{s}", "[INFO   ]hello"),
    // A parameter that changes nothing is in force all the same.
    ("{s:0:werror}{L:severity}", "helloINFO "),
    // Text, though it looks like more.
    ("{[{L}]%bold:<12} {s}", "[INFO ]:<12 hello"),
    ("{s}}", "hello}"),
    ("a}b\\c{s}", "a}b\\chello"),
    (":bold{s}\n>9", ":boldhello\n>9"),
    ("{sé {s}}", "sé hello"),
    ("{Température {L}%bold} {s}", "Température INFO  hello"),
    // Words that were tried as parameters and given back.
    ("{x{L:bold:bold{t}}{L}}{s}", "xL:bold:bold<time>INFO hello"),
    // Of a group in a group: what follows it after a `%` is in force, what follows after a `:` is text.
    ("{x{[{s}]%red}{L}}", "x[hello]INFO "),
    ("{x{[{s}]:red}{L}}", "x[hello]:redINFO "),
];

/// Only the first edition reads these: the line of `hello`, and the place that the strict edition tells.
const DROPPED: [(&str, &str, usize); 37] = [
    // The template ends before it.
    ("{s} %{t}", "hello ", 4),
    ("{s}%x", "hello", 3),
    ("{s}%", "hello", 3),
    ("{s}{t", "hello", 3),
    ("{s}{", "hello", 3),
    ("{s} 50 % {L}", "hello 50 ", 7),
    ("{s}%{s:513}", "hello", 3),
    ("{s}\n%\n{t}", "hello\n", 4),
    // The content of a brace ends before it.
    ("{s }", "hello", 2),
    ("{s junk}", "hello", 2),
    ("{s%bold}", "hello", 2),
    ("{s {L}}", "hello", 2),
    ("{s→}", "hello", 2),
    ("{s\n}", "hello", 2),
    ("{L07}{s}", "INFO hello", 2),
    ("{s:bold }", "hello", 7),
    ("{é {s x}}", "é hello", 6),
    ("{L}\n{s x}", "INFO \nhello", 6),
    ("{a{s}\\{b%red}c", "ahello\\c", 6),
    ("{x{L:}}{s}", "xINFO hello", 4),
    ("{x{s:aé}}", "xhello", 4),
    ("{x{L:red junk}}{s}", "xINFO hello", 8),
    ("{[{L x}]}{s}", "[INFO ]hello", 4),
    // A content that takes a group or another segment loses its own parameters. The place is that of the first one's
    // word, sign or digit, not of the separator before it.
    ("{bold:[{L}]}{s}", "[INFO ]hello", 1),
    ("{<5:[{L}]}{s}", "[INFO ]hello", 1),
    ("{9:red:[{L}]}{s}", "[INFO ]hello", 1),
    ("{[{L%bold}]}{s}", "[INFO ]hello", 5),
    ("{x{L%5}}{s}", "xINFO hello", 5),
    ("{x{L%>07%red}}{s}", "xINFO hello", 5),
    ("{x{5%L}}{s}", "xINFO hello", 3),
    ("{é{L%red}}{s}", "éINFO hello", 6),
    ("{x{red%[{s}]%bold}{L}}", "x[hello]INFO ", 3),
    // The first of several, whichever kind it is.
    ("{[{L x}]}{bold:[{t}]}{s}", "[INFO ][<time>]hello", 4),
    ("{bold:[{L x}]}{s}%", "[INFO ]hello", 1),
    ("{[{L x}]}{s}%", "[INFO ]hello", 4),
    ("{x{L%5 junk}}{s}", "xINFO hello", 5),
    ("{x{5%L junk}}{s junk}%", "xINFO hello", 3),
];

/// Both editions refuse these with the same number: 17 comes last of what concerns a template, so that something that is
/// dropped before or behind changes nothing.
fn refused_by_both() -> [(Vec<u8>, u8); 13] {
    let text = |text: &str| text.as_bytes().to_vec();
    let dropped = |rest: &str| text(&format!("{{s x}}{rest}"));
    [
        (dropped(&"x".repeat(1_020)), 1),
        (b"{s x}\xff".to_vec(), 2),
        (text("{s:}"), 3),
        (dropped("{s:bold:bold}"), 3),
        (text("{bold:[{L}]%red%red}{s}"), 3),
        (text("{t}%{s}"), 4),
        (text("{L x}"), 4),
        (dropped(&"{s}".repeat(64)), 5),
        (dropped(&("{a{L}".repeat(8) + "{s}" + &"}".repeat(8))), 6),
        (dropped("{s:513}"), 7),
        (dropped(&format!("{{{}}}", "f".repeat(256))), 8),
        (dropped("{\\"), 9),
        (text("{s\\"), 9),
    ]
}

/// Every call that reads a template answers so by these settings: the line of `hello`, or this refusal.
fn answered(template: &[u8], settings: Settings, due: Result<&str, Refusal>) {
    let said = String::from_utf8_lossy(template);
    let (line, refusal) = (due.map(Vec::from), due.map(|_| ()));
    assert_eq!(check(template, settings), refusal, "{said}");
    assert_eq!(names_timestamp(template, settings).map(|_| ()), refusal, "{said}");
    assert_eq!(line_of(template, settings, hello()), line, "{said}");

    let mut writer = SheetWriter::new(settings, template).unwrap();
    writer.push(hello()).unwrap();
    writer.push(hello()).unwrap();
    let bytes = writer.finish();
    assert_eq!(session(&bytes), due.map(|line| format!("{line}\n{line}\n").into_bytes()), "{said}");
    let sheet = Sheet::read(&bytes).unwrap();
    assert_eq!((sheet.settings, sheet.template), (settings, template));
    assert_eq!(sheet.lines().collect::<Vec<_>>(), [line.clone(), line], "{said}");

    if let Ok(template) = std::str::from_utf8(template) {
        let config = FormatterConfig::new(FormatterFormat::Custom(template)).with_settings(settings);
        let made = Formatter::new(config).and_then(|formatter| formatter.format(&Record::new(Level::Info, "hello")));
        assert_eq!(made, due.map(String::from), "{said}");
        assert_eq!(HostFormatter::new(config).map(|_| ()), refusal, "{said}");
    }
}

#[test]
fn what_is_used_up_is_read_by_both() {
    for (template, line) in READ {
        let template = template.as_bytes();
        answered(template, Settings::PLAIN, Ok(line));
        answered(template, STRICT, Ok(line));
        assert_eq!(names_timestamp(template, STRICT), names_timestamp(template, Settings::PLAIN));
        for settings in [Settings::CRATE_COLOUR, Settings::STRAIGHT_COLOUR] {
            let [first, strict] =
                [settings, settings.with_strict(true)].map(|settings| line_of(template, settings, hello()));
            assert!(first.is_ok() && first == strict, "the same line in colour");
        }
    }
}

#[test]
fn r17_what_is_dropped_or_lost_is_read_by_the_first_only() {
    for (template, line, place) in DROPPED {
        answered(template.as_bytes(), Settings::PLAIN, Ok(line));
        // Neither colour nor what widths count changes anything of how a template is read.
        for byte in (4..8).chain(20..24) {
            answered(template.as_bytes(), Settings::from_byte(byte).unwrap(), Err(Refusal::Dropped { place }));
        }
    }
}

#[test]
fn r17_comes_after_all_else_that_concerns_the_template() {
    for (template, number) in refused_by_both() {
        for settings in [Settings::PLAIN, STRICT] {
            answered(&template, settings, Err(Refusal::from_number(number).unwrap()));
        }
    }
}

#[test]
fn r17_at_the_last_byte_of_the_longest_template() {
    let template = "x".repeat(1_020) + "{s}%";
    answered(template.as_bytes(), STRICT, Err(Refusal::Dropped { place: 1_023 }));
    let whole = "x".repeat(1_021) + "{s}";
    answered(whole.as_bytes(), STRICT, Ok(&("x".repeat(1_021) + "hello")));
}

#[test]
fn r17_comes_before_all_that_concerns_the_record() {
    let long = [b'm'; 4_097];
    let wrong = [
        (hello().with_level(6), 14),
        (hello().with_source(RawRecord::HOST).with_level(0), 14),
        (hello().with_message(&long), 11),
        (hello().with_message(b"\xff"), 12),
    ];
    for (record, number) in wrong {
        assert_eq!(line_of(b"{s} %{t}", STRICT, record), Err(Refusal::Dropped { place: 4 }));
        assert_eq!(line_of(b"{s} %{t}", Settings::PLAIN, record).map_err(Refusal::number), Err(number));
        assert_eq!(line_of(b"{s} ", STRICT, record).map_err(Refusal::number), Err(number));
    }
    // Nor does it matter that there is no room, or that a print would not need the template.
    assert_eq!(line(b"{s} %{t}", STRICT, hello(), &mut []), Err(Refusal::Dropped { place: 4 }));
    assert_eq!(line(b"{s} %{t}", Settings::PLAIN, hello(), &mut []), Err(Refusal::LineTooLong { needed: 6 }));
    assert_eq!(line_of(b"{s} %{t}", STRICT, hello().with_level(0)), Err(Refusal::Dropped { place: 4 }));
    // In a sheet it is the whole sheet's.
    let mut sheet = SheetWriter::new(STRICT, b"{s} %{t}").unwrap();
    wrong.iter().for_each(|(record, _)| sheet.push(record).unwrap());
    assert_eq!(session(&sheet.finish()), Err(Refusal::Dropped { place: 4 }));
}

/// What the four entries that read a template answer to it, as numbers; none of them may write anything here.
fn numbers(template: &[u8], settings: u8, record: &[u8]) -> [u64; 4] {
    let sheet = sheet_of(&[&[&[settings], template].concat(), record]);
    let mut out = [PAINT; 80];
    let answers = [
        entries::check(template, settings),
        entries::timestamp(template, settings),
        entries::line(template, settings, record, &mut out),
        entries::session(&sheet, &mut out),
    ];
    assert_eq!(out, [PAINT; 80], "settings {settings}");
    answers
}

#[test]
fn r17_is_the_low_byte_of_the_answer_and_the_place_stands_above_it() {
    let record = hand_laid(b"hello");
    for (template, _, place) in DROPPED {
        let answer = 17 + 256 * place as u64;
        assert_eq!(numbers(template.as_bytes(), 4, &record), [answer; 4], "{template}");
        assert_eq!((entries::refusal_of(answer), entries::place_of(answer)), (17, place));
    }
}

#[test]
fn r15_comes_before_17_and_all_bits_above_places_are_unknown() {
    let record = hand_laid(b"hello");
    let headed = hand_laid_with_head(b"hello", 8, b"H-07");
    let too_long = [b'x'; 1_025];
    for settings in 32..=255 {
        for template in [&b"{s}"[..], b"{s} %{t}", b"{t}", &too_long] {
            for record in [&record, &headed] {
                assert_eq!(numbers(template, settings, record), [15; 4], "settings {settings}");
            }
        }
    }
    for settings in 0..32 {
        let record = if settings & 8 == 0 { &record } else { &headed };
        assert_eq!(entries::check(b"{s}", settings), 0);
        assert_eq!(entries::timestamp(b"{t}{s}", settings), 256);
        assert_eq!(entries::line(b"{s}", settings, record, &mut [0; 80]), 5 * 256);
        if settings & 4 != 0 {
            assert_eq!(numbers(b"{s} %{t}", settings, record), [17 + 256 * 4; 4], "settings {settings}");
        }
    }
    // A record of the wrong size is no record, whatever the template says.
    let [check, timestamp, line, session] = numbers(b"{s} %{t}", 4, &record[1..]);
    assert_eq!([check, timestamp, line, session], [17 + 256 * 4, 17 + 256 * 4, 15, 15]);
}

/// The bit of the layout is no setting: what it says, the record says.
#[test]
fn settings_have_four_bits() {
    for byte in (0..8).chain(16..24) {
        assert_eq!(Settings::from_byte(byte).map(Settings::byte), Some(byte));
        assert_eq!(Settings::from_byte(byte).map(|settings| settings.strict), Some(byte & 4 != 0));
        assert_eq!(Settings::from_byte(byte).map(|settings| settings.places), Some(byte & 16 != 0));
    }
    for byte in (8..16).chain(24..=255) {
        assert_eq!(Settings::from_byte(byte), None);
    }
}

#[test]
fn a_configuration_asked_to_be_strict_stays_strict() {
    let config = FormatterConfig::custom("{s} %{t}");
    assert!(!config.settings.strict);
    assert_eq!(Formatter::new(config).unwrap().settings(), Settings::PLAIN);
    let strict = [
        config.with_strict(),
        config.with_settings(STRICT),
        config.with_strict().with_settings(Settings::PLAIN),
        config.with_settings(Settings::PLAIN).with_strict(),
    ];
    for strict in strict {
        assert_eq!(strict.settings, STRICT);
        assert_eq!(Formatter::new(strict), Err(Refusal::Dropped { place: 4 }));
    }
    let coloured = FormatterConfig::custom("{s}").with_strict().with_settings(Settings::STRAIGHT_COLOUR);
    assert_eq!(Formatter::new(coloured).unwrap().settings(), Settings::STRAIGHT_COLOUR.with_strict(true));
}
