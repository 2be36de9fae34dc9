//! Comparison reports: a device's message whose last two lines hold two values is laid out. The lines are those of
//! crates/demands/specs/ComparisonExamples.antt, of which it is proved that the definitions give them.

mod common;

use common::{line_of, printed, sample, written, PAINT};
use pralakuon::{
    line, session, visible_str, Formatter, FormatterConfig, HostFormatter, HostRecord, Level, Record, Refusal,
    Settings, Sheet, SheetWriter,
};

/// The line of a device's record by these settings, the same in every way that a caller has.
fn shown(template: &str, settings: Settings, record: &Record) -> String {
    let config = FormatterConfig::custom(template).with_settings(settings);
    let shown = Formatter::new(config).unwrap().format(record).unwrap();
    assert_eq!(line_of(template.as_bytes(), settings, record), Ok(shown.clone().into_bytes()));
    // With a head the record is laid out otherwise, and what is found in its message is not.
    assert_eq!(line_of(template.as_bytes(), settings, &record.with_head("H-07")), Ok(shown.clone().into_bytes()));
    let mut writer = SheetWriter::new(settings, template.as_bytes()).unwrap();
    writer.push(record).unwrap();
    writer.push(record).unwrap();
    let sheet = writer.finish();
    assert_eq!(session(&sheet), Ok(format!("{shown}\n{shown}\n").into_bytes()));
    assert_eq!(Sheet::read(&sheet).unwrap().lines().next(), Some(Ok(shown.clone().into_bytes())));
    shown
}

/// The line of a host's record.
fn shown_of_host(template: &str, settings: Settings, message: &str) -> String {
    let config = FormatterConfig::custom(template).with_settings(settings);
    HostFormatter::new(config).unwrap().format(&HostRecord::new(Level::Info, message)).unwrap()
}

const MODES: [Settings; 3] = [Settings::PLAIN, Settings::CRATE_COLOUR, Settings::STRAIGHT_COLOUR];

/// Messages, and what `{s}` shows of them without colour.
const LAID: [(&str, &str); 11] = [
    ("assert\n left: `1`\nright: `2`", "assert\ndiff < left / right >\n<1\n>2"),
    // Two lines.
    (" left: `1`\nright: `2`", " left: `1`\nright: `2`"),
    // Only the opening mark, on which the crate panics.
    ("x\n left: `\nright: `2`", "x\n left: `\nright: `2`"),
    ("x\n left: `1`\nright: `", "x\n left: `1`\nright: `"),
    // A value of nothing, and a newline that ends the last line.
    ("x\n left: ``\nright: `2`\n", "x\ndiff < left / right >\n<\n>2"),
    // A carriage return that no newline follows, and a line more.
    ("x\n left: `1`\nright: `2`\r", "x\n left: `1`\nright: `2`\r"),
    ("x\n left: `1`\nright: `2`\n\n", "x\n left: `1`\nright: `2`\n\n"),
    ("a\r\nb\n left: `x`\nright: `x`", "a\nb\ndiff < left / right >\n<x\n>x"),
    ("\n left: `é`\r\nright: `ĩ`\r\n", "\ndiff < left / right >\n<é\n>ĩ"),
    ("x\n left: ```\nright: `a`b`", "x\ndiff < left / right >\n<`\n>a`b"),
    ("x\nleft: `1`\nright: `2`", "x\nleft: `1`\nright: `2`"),
];

fn comparison(left: &str, right: &str) -> String {
    format!("x\n left: `{left}`\nright: `{right}`")
}

/// In colour: the line above the values, and the title.
const TITLED: &str = "\x1b[1mx\x1b[0m\n\x1b[1mdiff\x1b[0m \x1b[31m< left\x1b[0m / \x1b[32mright >\x1b[0m\n";

#[test]
fn which_messages_are_laid_out() {
    for (message, expected) in LAID {
        assert_eq!(shown("{s}", Settings::PLAIN, &Record::new(Level::Info, message)), expected, "{message:?}");
        // A print is laid out as well, whatever the template says, and a host's message never is.
        assert_eq!(shown("{L} {s:>60}", Settings::PLAIN, &Record::print(message)), expected, "{message:?}");
        for settings in MODES {
            assert_eq!(shown_of_host("{s:red:>60}", settings, message), message);
        }
    }
}

#[test]
fn what_is_a_values_own_is_bold() {
    let rows = [
        // Nothing is left to be shared at the end.
        ("aaa", "aa", "\x1b[31maa\x1b[0m\x1b[1;31ma\x1b[0m", "\x1b[32maa\x1b[0m"),
        // Two characters that share their last byte.
        ("é", "ĩ", "\x1b[1;31mé\x1b[0m", "\x1b[1;32mĩ\x1b[0m"),
        ("1.25", "1.5", "\x1b[31m1.\x1b[0m\x1b[1;31m2\x1b[0m\x1b[31m5\x1b[0m", "\x1b[32m1.\x1b[0m\x1b[32m5\x1b[0m"),
        ("1", "1", "\x1b[31m1\x1b[0m", "\x1b[32m1\x1b[0m"),
        // The crate finds a shared letter here.
        ("ab", "ba", "\x1b[1;31mab\x1b[0m", "\x1b[1;32mba\x1b[0m"),
        // The crate loses a character of the first pair, the right value of the second, and panics on the third.
        ("èè", "èéè", "\x1b[31mè\x1b[0m\x1b[31mè\x1b[0m", "\x1b[32mè\x1b[0m\x1b[1;32mé\x1b[0m\x1b[32mè\x1b[0m"),
        ("渦渦é", "温", "\x1b[1;31m渦渦é\x1b[0m", "\x1b[1;32m温\x1b[0m"),
        ("éé温", "温渦é", "\x1b[1;31méé温\x1b[0m", "\x1b[1;32m温渦é\x1b[0m"),
    ];
    for (left, right, red, green) in rows {
        let message = comparison(left, right);
        let coloured = format!("{TITLED}\x1b[31m<\x1b[0m{red}\n\x1b[32m>\x1b[0m{green}");
        let plain = format!("x\ndiff < left / right >\n<{left}\n>{right}");
        for record in [Record::new(Level::Warn, &message), Record::print(&message)] {
            assert_eq!(shown("{s}", Settings::PLAIN, &record), plain);
            assert_eq!(shown("{s}", Settings::CRATE_COLOUR, &record), coloured);
            assert_eq!(shown("{s}", Settings::STRAIGHT_COLOUR, &record), coloured);
        }
        assert_eq!(visible_str(&coloured), Ok(plain));
    }
}

#[test]
fn width_style_and_colour_of_the_specifier_do_not_apply() {
    let message = comparison("1", "1");
    let record = Record::new(Level::Info, &message);
    let coloured = TITLED.to_string() + "\x1b[31m<\x1b[0m\x1b[31m1\x1b[0m\n\x1b[32m>\x1b[0m\x1b[32m1\x1b[0m";
    for template in ["{s}", "{s:blue:>60}", "{s:bold:severity:090}"] {
        assert_eq!(shown(template, Settings::STRAIGHT_COLOUR, &record), coloured, "{template}");
        assert_eq!(shown(template, Settings::PLAIN, &record), "x\ndiff < left / right >\n<1\n>1", "{template}");
    }
    // A message that is nearly one has them.
    let nearly = Record::new(Level::Info, " left: `1`\nright: `2`");
    assert_eq!(shown("{s:25}|", Settings::PLAIN, &nearly), " left: `1`\nright: `2`    |");
}

#[test]
fn a_group_around_it_pads_and_colours_as_ever() {
    let message = comparison("ab", "ba");
    let record = Record::new(Level::Info, &message);
    let plain = "x\ndiff < left / right >\n<ab\n>ba";
    assert_eq!(plain.chars().count(), 31);
    let dressed = "\x1b[1m\x1b[1mx\x1b[0m\x1b[1m\n\x1b[1mdiff\x1b[0m\x1b[1m \
                   \x1b[31m< left\x1b[0m\x1b[1m / \x1b[32mright >\x1b[0m\x1b[1m\n\
                   \x1b[31m<\x1b[0m\x1b[1m\x1b[1;31mab\x1b[0m\x1b[1m\n\
                   \x1b[32m>\x1b[0m\x1b[1m\x1b[1;32mba\x1b[0m\x1b[1m";
    // In the crate's mode the bytes inserted after eight resets, four each, count against the padding.
    let [none, crates, straight] = MODES.map(|settings| shown("{{s}%bold%90}", settings, &record));
    assert_eq!(none, plain.to_string() + &" ".repeat(59));
    assert_eq!(crates, dressed.to_string() + &" ".repeat(27) + "\x1b[0m");
    assert_eq!(straight, dressed.to_string() + &" ".repeat(59) + "\x1b[0m");
    assert_eq!(
        [visible_str(&straight), visible_str(&crates).map(|text| text.len().to_string())],
        [Ok(none), Ok("58".into())]
    );
    // Of the places rule, too: a wide character counts two.
    let message = comparison("壁", "壁");
    let places = shown("{{s}%>40}|", Settings::PLAIN.with_places(true), &Record::new(Level::Info, &message));
    assert_eq!(places, " ".repeat(9) + "x\ndiff < left / right >\n<壁\n>壁|");
}

#[test]
fn it_needs_no_more_room_than_its_length() {
    let message = comparison("1.25", "1.5");
    for record in [Record::new(Level::Error, &message), Record::print(&message)] {
        for settings in MODES {
            let template = b"[{L}] {[{s}]%bold%60}|{s}";
            let expected = line_of(template, settings, &record).unwrap();
            let mut out = vec![PAINT; expected.len()];
            let short = expected.len() - 1;
            let refused = line(template, settings, &record, &mut out[..short]);
            assert_eq!(refused, Err(Refusal::LineTooLong { needed: expected.len() }));
            assert!(out.iter().all(|&byte| byte == PAINT));
            assert_eq!(line(template, settings, &record, &mut out), Ok(expected.len()));
            assert_eq!(out, expected);
        }
    }
}

#[test]
fn values_may_be_as_long_as_a_message_has_room_for() {
    let room = Record::LONGEST_TEXT - comparison("", "").len();
    for (left, right) in [(room, 0), (0, room), (room / 2, room - room / 2)] {
        let (left, right) = ("a".repeat(left), "a".repeat(right));
        let message = comparison(&left, &right);
        assert_eq!(message.len(), Record::LONGEST_TEXT);
        let line = shown("{s}", Settings::PLAIN, &Record::new(Level::Info, &message));
        assert_eq!(line, format!("x\ndiff < left / right >\n<{left}\n>{right}"));
        let coloured = shown("{s}", Settings::STRAIGHT_COLOUR, &Record::print(&message));
        assert_eq!(visible_str(&coloured), Ok(line));
    }
}

#[test]
fn the_sample_of_failed_self_tests_is_laid_out() {
    let bytes = sample("self-test.sheet");
    let mut sheet = Sheet::read(&bytes).unwrap();
    assert_eq!(sheet.settings, Settings::STRAIGHT_COLOUR);
    let coloured = String::from_utf8(printed(&bytes)).unwrap();
    assert_eq!(coloured.as_bytes(), sample("self-test.txt"));
    // Five records, of which three are laid out, one of them below two lines.
    assert_eq!((sheet.records.len(), coloured.lines().count()), (5, 5 + 3 * 3 + 1));
    assert_eq!(coloured.matches("\x1b[1mdiff\x1b[0m").count(), 3);
    sheet.settings = Settings::PLAIN;
    let plain = String::from_utf8(printed(&written(&sheet))).unwrap();
    assert_eq!(visible_str(&coloured).as_ref(), Ok(&plain));
    assert!(plain.contains("|the gauge's self-test failed\ndiff < left / right >\n<1.25 mm\n>1.5 mm\n"));
}
